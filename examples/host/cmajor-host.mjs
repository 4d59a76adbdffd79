// A host for modules that hezgrolk compiles, for node and for browsers. docs/MODULE.md has the rules: the
// section `cmajor`, the slots, and what is written before and read after each call.

const FLOWS = ["input", "output"];
const KINDS = ["stream", "value", "event"];
const SCALARS = ["int32", "int64", "bool", "wrap", "clamp"];
const MOST_SCALARS = 1_048_576;
const MARK = -1;

/** A module whose section `cmajor` isn't as docs/MODULE.md says. */
export class SectionError extends Error {}

/**
 * A call of the module that didn't return as it must: it trapped, or it called `emit` with a number that
 * nothing stands for, or it ended before its last mark. `items` has what the call told before that.
 */
export class CallError extends Error {
  constructor(part, items, cause) {
    super(`trapped ${part}`, { cause });
    this.items = items;
  }
}

// ---- the section `cmajor`

class SectionReader {
  #bytes;
  #at = 0;

  constructor(bytes) {
    this.#bytes = bytes;
  }

  byte() {
    if (this.#at === this.#bytes.length) throw new SectionError("the section ends early");
    return this.#bytes[this.#at++];
  }

  choice(names) {
    const name = names[this.byte()];
    if (name === undefined) throw new SectionError("a byte stands for nothing");
    return name;
  }

  /** An unsigned number of 32 bits in LEB128. */
  unsigned() {
    const value = this.#number((last) => last);
    if (value >= 2 ** 32) throw new SectionError("a number is out of its range");
    return value;
  }

  /** A signed number of 32 bits in LEB128: the bit 64 of its last byte is the sign. */
  signed() {
    const value = this.#number((last) => (last < 64 ? last : last - 128));
    if (value < -(2 ** 31) || value >= 2 ** 31) throw new SectionError("a number is out of its range");
    return value;
  }

  // at most five bytes, seven bits each, the lowest first
  #number(lastBits) {
    let value = 0;
    for (let shift = 0; shift < 35; shift += 7) {
      const byte = this.byte();
      if (byte < 128) return value + lastBits(byte) * 2 ** shift;
      value += (byte - 128) * 2 ** shift;
    }
    throw new SectionError("a number is too long");
  }

  name() {
    const length = this.unsigned();
    if (length > this.#bytes.length - this.#at) throw new SectionError("the section ends early");
    const bytes = this.#bytes.subarray(this.#at, this.#at + length);
    this.#at += length;
    try {
      return new TextDecoder("utf-8", { fatal: true, ignoreBOM: true }).decode(bytes);
    } catch {
      throw new SectionError("a name isn't UTF-8");
    }
  }

  atEnd() {
    return this.#at === this.#bytes.length;
  }
}

const scalarSize = (scalar) => (scalar.type === "int64" ? 8 : 4);

const hasCount = (type) => type === "wrap" || type === "clamp";

function readScalar(reader) {
  const type = reader.choice(SCALARS);
  if (!hasCount(type)) return { type };
  const count = reader.unsigned();
  if (count < 1 || count >= 2 ** 31) throw new SectionError("the count of a kind is out of its range");
  return { type, count };
}

function readShape(reader, room) {
  const shape = [];
  for (let runs = reader.unsigned(); runs > 0; runs -= 1) {
    const length = reader.unsigned();
    const scalar = readScalar(reader);
    if (length < 1 || length > room - shape.length) throw new SectionError("a run is empty or too long");
    for (let i = 0; i < length; i += 1) shape.push(scalar);
  }
  return shape;
}

function readParameter(reader, { flow, kind, shape }) {
  if (reader.choice([false, true]) === false) return null;
  const range = { min: reader.signed(), max: reader.signed(), init: reader.signed() };
  const isOneInt32 = shape.length === 1 && shape[0].type === "int32";
  if (flow !== "input" || kind === "stream" || !isOneInt32) throw new SectionError("an endpoint can't be a parameter");
  if (range.min > range.init || range.init > range.max) throw new SectionError("a parameter's start is out of its range");
  return range;
}

function readEndpoint(reader, number, room) {
  const flow = reader.choice(FLOWS);
  const kind = reader.choice(KINDS);
  const name = reader.name();
  const address = reader.unsigned();
  const shape = readShape(reader, room);
  const parameter = readParameter(reader, { flow, kind, shape });
  const entrySize = shape.reduce((size, scalar) => size + scalarSize(scalar), 0);
  return { number, flow, kind, name, shape, parameter, address, entrySize };
}

/** What the section `cmajor` of a module says: its interface, latency, block length and endpoints. */
export function readSection(module) {
  const sections = WebAssembly.Module.customSections(module, "cmajor");
  if (sections.length !== 1) throw new SectionError(`the module has ${sections.length} sections cmajor`);
  const reader = new SectionReader(new Uint8Array(sections[0]));
  const version = reader.byte();
  if (version !== 1 && version !== 2) throw new SectionError("the interface is neither 1 nor 2");
  const latency = reader.unsigned();
  const blockLength = version === 1 ? 1 : reader.unsigned();
  if (blockLength < 1 || blockLength > 256) throw new SectionError("the block length isn't 1 to 256");

  const endpoints = [];
  let room = MOST_SCALARS;
  for (let left = reader.unsigned(); left > 0; left -= 1) {
    const endpoint = readEndpoint(reader, endpoints.length, room);
    room -= endpoint.shape.length;
    endpoints.push(endpoint);
  }
  if (!reader.atEnd()) throw new SectionError("bytes follow the last endpoint");
  if (new Set(endpoints.map((end) => end.name)).size !== endpoints.length) throw new SectionError("two endpoints have one name");
  return { version, latency, blockLength, endpoints };
}

// ---- scalars: a BigInt for an int64, and else a number, which is 0 or 1 for a bool

/** The scalar of a kind that a whole number, a BigInt, is converted to: docs/LANGUAGE.md, "Conversions". */
export function converted(scalar, whole) {
  const count = BigInt(scalar.count ?? 1);
  switch (scalar.type) {
    case "int32":
      return Number(BigInt.asIntN(32, whole));
    case "int64":
      return BigInt.asIntN(64, whole);
    case "bool":
      return whole === 0n ? 0 : 1;
    case "wrap":
      return Number(((whole % count) + count) % count);
    case "clamp":
      return whole < 0n ? 0 : Number(whole < count ? whole : count - 1n);
  }
}

function wholeOf(scalar, given) {
  if (typeof given === "boolean" && scalar.type === "bool") return given ? 1n : 0n;
  if (typeof given !== "bigint" && !Number.isInteger(given)) throw new TypeError(`${given} is no whole number`);
  const whole = BigInt(given);
  if (BigInt.asIntN(64, whole) !== whole) throw new RangeError(`${given} doesn't fit 64 bits`);
  return whole;
}

// A value is one scalar for a shape of one scalar, and else an array of the shape's scalars.
function scalarsOf({ name, shape, parameter }, given) {
  const list = shape.length === 1 ? [given] : given;
  if (!Array.isArray(list) || list.length !== shape.length) throw new TypeError(`${name} takes ${shape.length} scalars`);
  const scalars = shape.map((scalar, i) => converted(scalar, wholeOf(scalar, list[i])));
  return parameter === null ? scalars : scalars.map((z) => held(parameter, z));
}

// the nearest number in the range of a parameter
const held = ({ min, max }, z) => Number(z < min ? min : z > max ? max : z);

// the value that a parameter starts with
function startOf({ name, shape, parameter }, saved) {
  return Object.hasOwn(saved, name) ? held(parameter, wholeOf(shape[0], saved[name])) : parameter.init;
}

const zerosOf = ({ shape }) => shape.map((scalar) => (scalar.type === "int64" ? 0n : 0));

// ---- items of a trace

const valueText = (value) => (Array.isArray(value) ? `[${value.join(",")}]` : `${value}`);

/** The line of an item, without a line end. */
export function line(item) {
  if (item.kind === "event") return `event ${item.frame} ${item.name}=${valueText(item.value)}`;
  return [`frame ${item.frame}`, ...[...item.outputs].map(([name, value]) => `${name}=${valueText(value)}`)].join(" ");
}

// ---- runs

/**
 * A running module. After `load`, `start` is called once, and then `set`, `send` and `run` as often as one
 * likes. `start`, `send` and `run` give the items that came, in order:
 *
 *     { kind: "event", frame, name, value }
 *     { kind: "frame", frame, outputs }      outputs: a Map from names to values, in declaration order
 *
 * They throw a CallError where a call of the module fails. The module can't be used after that.
 */
export class Patch {
  #section;
  #streamInputs;
  #valueInputs;
  #told;
  #exports;
  #memory;
  #current;
  #items = [];
  #started = false;
  #live = true;
  // the frame that comes next, the one whose events are told now, and the marks of the call that runs
  #frame = 0;
  #now = 0;
  #marks = 0;
  #marksDue = 0;

  /** Makes an instance of a module, which is given by its bytes or as a WebAssembly.Module. */
  static async load(source) {
    const module = source instanceof WebAssembly.Module ? source : await WebAssembly.compile(source);
    const patch = new Patch(readSection(module));
    const emit = (number) => patch.#emit(number);
    const instance = await WebAssembly.instantiate(module, { host: { emit } });
    patch.#attach(instance.exports);
    return patch;
  }

  /** For `load` alone. */
  constructor(section) {
    this.#section = section;
    this.#streamInputs = section.endpoints.filter((end) => isInput(end, "stream"));
    this.#valueInputs = section.endpoints.filter((end) => isInput(end, "value"));
    this.#told = section.endpoints.filter((end) => end.flow === "output" && end.kind !== "event");
    this.#current = section.endpoints.map(zerosOf);
  }

  /** The endpoints in declaration order: `name`, `flow`, `kind`, `shape` and `parameter`, which may be null. */
  get endpoints() {
    return this.#section.endpoints;
  }

  /** By how many frames the outputs are later than the inputs. */
  get latency() {
    return this.#section.latency;
  }

  /** The number of the frame that comes next. */
  get frame() {
    return this.#frame;
  }

  /** False from a call that failed on. */
  get live() {
    return this.#live;
  }

  /** Runs `init` and gives each parameter its value in `saved`, an object, or else the one it starts with. */
  start(saved = {}) {
    if (this.#started) throw new Error("the patch was started before");
    const parameters = this.endpoints.filter((end) => end.parameter !== null);
    const starts = parameters.map((end) => startOf(end, saved));
    this.#started = true;
    this.#call("init", "init", 0);
    parameters.forEach((end, i) => {
      if (end.kind === "event") this.#sendNow(end, [starts[i]], new Map());
      else this.#current[end.number] = [starts[i]];
    });
    return this.#taken();
  }

  /** Sets a value input from the next call on. */
  set(name, value) {
    const end = this.#input(name, "value");
    const scalars = scalarsOf(end, value);
    this.#checkStarted();
    this.#current[end.number] = scalars;
  }

  /** Sends an event in the frame that comes next. `streams` has the value that each stream input has in it, or zero. */
  send(name, value, streams = {}) {
    const end = this.#input(name, "event");
    const scalars = scalarsOf(end, value);
    const given = this.#given(streams, (input, one) => [scalarsOf(input, one)]);
    this.#checkStarted();
    this.#sendNow(end, scalars, given);
    return this.#taken();
  }

  /** Runs so many frames. `streams` has an array for each stream input, one value a frame; missing ones are zero. */
  run(count, streams = {}) {
    if (!Number.isInteger(count) || count < 0) throw new RangeError("the count of frames is no whole number from 0");
    const given = this.#given(streams, (input, all) => {
      if (!Array.isArray(all) || all.length > count) throw new RangeError(`${input.name} takes an array of at most ${count} values`);
      return all.map((one) => scalarsOf(input, one));
    });
    this.#checkStarted();
    for (let first = 0; first < count; first += this.#section.blockLength) {
      const block = Math.min(this.#section.blockLength, count - first);
      if (this.#section.version === 1) this.#single(given, first);
      else this.#block(given, first, block);
    }
    return this.#taken();
  }

  // ---- calls

  #attach(exports) {
    this.#exports = exports;
    this.#memory = new DataView(exports.memory.buffer);
    for (const end of this.endpoints) {
      const size = end.entrySize * (end.kind === "stream" ? this.#section.blockLength : 1);
      if (end.address + size > this.#memory.byteLength) throw new SectionError(`the slot of ${end.name} is past the memory's end`);
    }
  }

  #single(given, place) {
    this.#writeInputs(given, place);
    this.#now = this.#frame;
    this.#call("frame", `frame ${this.#frame}`, 0);
    this.#tellFrame(0);
    this.#frame += 1;
  }

  // A call of `frames` tells its frames at its marks.
  #block(given, place, count) {
    for (let entry = 0; entry < count; entry += 1) {
      for (const end of this.#streamInputs) this.#write(end, entry, given.get(end.number)?.[place + entry] ?? zerosOf(end));
    }
    for (const end of this.#valueInputs) this.#write(end, 0, this.#current[end.number]);
    this.#now = this.#frame;
    this.#call("frames", null, count, count);
    this.#frame += count;
  }

  #sendNow(end, scalars, given) {
    const number = this.endpoints.filter((other) => isInput(other, "event") && other.number < end.number).length;
    this.#writeInputs(given, 0);
    this.#write(end, 0, scalars);
    this.#now = this.#frame;
    this.#call(`e${number}`, `frame ${this.#frame}`, 0);
  }

  #call(name, part, marksDue, ...parameters) {
    if (!this.#live) throw new Error("a call of the module failed before");
    const first = this.#frame;
    this.#marks = 0;
    this.#marksDue = marksDue;
    this.#live = false;
    try {
      this.#exports[name](...parameters);
      if (this.#marks < marksDue) throw new Error("the call ended before its last mark");
    } catch (cause) {
      throw new CallError(part ?? `frame ${first + Math.min(this.#marks, marksDue - 1)}`, this.#taken(), cause);
    }
    this.#live = true;
  }

  #emit(number) {
    const end = this.endpoints[number];
    if (end !== undefined && end.flow === "output" && end.kind === "event") {
      this.#items.push({ kind: "event", frame: this.#now, name: end.name, value: this.#read(end, 0) });
    } else if (number === MARK && this.#marks < this.#marksDue) {
      this.#tellFrame(this.#marks);
      this.#marks += 1;
      this.#now += 1;
    } else {
      throw new Error(`emit was called with ${number}`);
    }
  }

  #tellFrame(entry) {
    const outputs = new Map(this.#told.map((end) => [end.name, this.#read(end, end.kind === "stream" ? entry : 0)]));
    this.#items.push({ kind: "frame", frame: this.#now, outputs });
  }

  #taken() {
    const items = this.#items;
    this.#items = [];
    return items;
  }

  // ---- inputs

  #checkStarted() {
    if (!this.#started) throw new Error("the patch isn't started");
  }

  #input(name, kind) {
    const end = this.endpoints.find((other) => other.name === name && isInput(other, kind));
    if (end === undefined) throw new Error(`there is no ${kind} input ${name}`);
    return end;
  }

  // the scalars of streams by the number of their endpoint
  #given(streams, read) {
    return new Map(
      Object.entries(streams).map(([name, values]) => {
        const end = this.#input(name, "stream");
        return [end.number, read(end, values)];
      }),
    );
  }

  #writeInputs(given, place) {
    for (const end of this.endpoints) {
      if (isInput(end, "stream")) this.#write(end, 0, given.get(end.number)?.[place] ?? zerosOf(end));
      if (isInput(end, "value")) this.#write(end, 0, this.#current[end.number]);
    }
  }

  // ---- slots

  #write(end, entry, scalars) {
    let address = end.address + entry * end.entrySize;
    end.shape.forEach((scalar, i) => {
      if (scalar.type === "int64") this.#memory.setBigInt64(address, scalars[i], true);
      else this.#memory.setInt32(address, scalars[i], true);
      address += scalarSize(scalar);
    });
  }

  #read(end, entry) {
    let address = end.address + entry * end.entrySize;
    const scalars = end.shape.map((scalar) => {
      const here = address;
      address += scalarSize(scalar);
      if (scalar.type === "int64") return this.#memory.getBigInt64(here, true);
      const word = this.#memory.getInt32(here, true);
      return scalar.type === "int32" ? word : converted(scalar, BigInt(word));
    });
    return scalars.length === 1 ? scalars[0] : scalars;
  }
}

function isInput(end, kind) {
  return end.flow === "input" && end.kind === kind;
}
