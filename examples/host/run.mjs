// Runs a compiled module in node: `node run.mjs MODULE SCALAR ..`. The scalars go to the first stream input,
// one a frame, and each frame and event is printed as a line. docs/COMMANDS.md has the form of the lines.
import { readFile } from "node:fs/promises";
import { CallError, Patch, line } from "./cmajor-host.mjs";

function print(items) {
  process.stdout.write(items.map((item) => `${line(item)}\n`).join(""));
}

async function run(file, scalars) {
  const patch = await Patch.load(await readFile(file));
  const input = patch.endpoints.find((end) => end.flow === "input" && end.kind === "stream");
  print(patch.start());
  print(patch.run(scalars.length, input === undefined ? {} : { [input.name]: scalars }));
}

async function main([file, ...words]) {
  if (file === undefined || !words.every((word) => /^-?[0-9]+$/.test(word))) {
    console.error("usage: node run.mjs MODULE SCALAR ..");
    return 1;
  }
  try {
    await run(file, words.map(BigInt));
    return 0;
  } catch (error) {
    if (error instanceof CallError) print(error.items);
    console.error(error.message);
    return 1;
  }
}

process.exitCode = await main(process.argv.slice(2));
