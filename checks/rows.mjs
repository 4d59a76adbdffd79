// Has node's WebAssembly answer the lines of rows of modules that it can answer, and tells where an answer isn't the one that
// stands there: crates/module_rows/stdin says what the lines mean. Budgets, counts of reductions, globals, slots and
// snapshots are the runner's own, and node doesn't answer them, nor what follows them in a row up to the next start.
//
// usage: node checks/rows.mjs ROWS          compares
//        node checks/rows.mjs --fill ROWS   prints the rows, with node's answer in place of each `?`
import { readFileSync } from "node:fs";

class Stop extends Error {}
class Trap extends Error {}

// Rows in which node isn't asked: it has several results, and takes 50,000 locals at most.
const OWN = ["two results", "65,536 locals"];

const hexOf = (bytes) => Array.from(bytes, (byte) => byte.toString(16).toUpperCase().padStart(2, "0")).join(" ");
const bytesOf = (text) => Uint8Array.from(text.replaceAll(" ", "").match(/../g) ?? [], (pair) => parseInt(pair, 16));
const listed = (numbers) => (numbers.length === 0 ? "none" : numbers.join(" "));

class Row {
  constructor(name) {
    this.name = name;
    this.bytes = [];
    this.known = false;
    this.live = false;
    this.replies = [];
    this.address = 0;
    this.rewind();
  }

  rewind() {
    this.given = 0;
    this.numbers = [];
    this.seen = [];
  }

  emit(number) {
    const memory = new DataView(this.exports.memory.buffer);
    this.numbers.push(number);
    this.seen.push(this.address + 4 <= memory.byteLength ? memory.getInt32(this.address, true) : 0);
    const answer = this.replies[this.given++];
    if (answer === "stop") throw new Stop();
    if (answer === "trap") throw new Trap();
  }

  start() {
    this.rewind();
    this.known = !OWN.includes(this.name);
    if (!this.known) return "";
    this.live = true;
    const module = new WebAssembly.Module(Uint8Array.from(this.bytes));
    const host = { emit: (number) => this.emit(number) };
    this.exports = new WebAssembly.Instance(module, { host }).exports;
    return "";
  }

  call(words) {
    const [what, number] = words;
    if (words.includes("within") || !this.known) return this.unknown();
    try {
      if (what === "event") this.exports[`e${number}`]();
      else if (what === "frames") this.exports.frames(Number(number));
      else this.exports[what]();
      return "Done";
    } catch (error) {
      this.live = false;
      if (error instanceof Stop) return "Stopped";
      if (error instanceof Trap || error instanceof WebAssembly.RuntimeError) return "Trapped";
      throw error;
    }
  }

  unknown() {
    this.known = false;
    return undefined;
  }

  validate(expected) {
    if (OWN.includes(this.name)) return undefined;
    const valid = WebAssembly.validate(Uint8Array.from(this.bytes));
    if (expected.startsWith("interface")) return valid ? expected : "node refuses it";
    if (/^refused (Typing|Index) /.test(expected)) return valid ? "node accepts it" : expected;
    return undefined;
  }

  answer(question, expected) {
    if (expected === "not done") return undefined;
    const [word, ...words] = question.split(" ");
    const memory = () => new Uint8Array(this.exports.memory.buffer);
    switch (word) {
      case "wasm":
        this.bytes.push(...bytesOf(words.join(" ")));
        return "";
      case "repeat":
        for (let i = 0; i < Number(words[0]); i++) this.bytes.push(...bytesOf(words.slice(1).join(" ")));
        return "";
      case "validate":
        return this.validate(expected);
      case "answers":
        this.replies = words;
        this.address = 0;
        this.rewind();
        return "";
      case "watch":
        this.address = Number(words[0]);
        return "";
      case "start":
        return this.start();
      case "anew":
        this.start();
        return this.call(words);
      case "call":
        return this.known ? this.call(words) : undefined;
      case "live":
        return this.known ? (this.live ? "yes" : "no") : undefined;
      case "emits":
        return this.known ? listed(this.numbers) : undefined;
      case "seen":
        return this.known ? listed(this.seen) : undefined;
      case "size":
        return this.known ? String(memory().length) : undefined;
      case "memory": {
        const [from, count] = words.map(Number);
        return this.known ? hexOf(memory().subarray(from, from + count)) : undefined;
      }
      case "write":
      case "resume":
      case "cost":
        return this.unknown();
      default:
        return undefined;
    }
  }
}

const fill = process.argv[2] === "--fill";
const lines = readFileSync(process.argv[fill ? 3 : 2], "utf8").split("\n");
let row = new Row("");
let answered = 0;
let differing = 0;
const filled = lines.map((line) => {
  if (line === "" || line.startsWith("#")) return line;
  if (line.startsWith("row ")) {
    row = new Row(line.slice(4));
    return line;
  }
  const [question, expected = ""] = line.split(" = ");
  const answer = row.answer(question, expected);
  if (answer === undefined) return line;
  answered += expected === "" ? 0 : 1;
  if (fill && expected === "?") return `${question} = ${answer}`;
  if (answer !== expected) {
    differing += 1;
    console.error(`${row.name}: ${question}: ${answer}`);
  }
  return line;
});
if (fill) process.stdout.write(filled.join("\n"));
else console.log(`node answers ${answered} lines, ${differing} differ`);
process.exitCode = differing === 0 ? 0 : 1;
