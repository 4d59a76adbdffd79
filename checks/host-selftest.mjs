// Tests of the JavaScript host. The modules are made here by hand, so that no compiler is needed.
import assert from "node:assert/strict";
import { CallError, Patch, SectionError, converted, line } from "../examples/host/cmajor-host.mjs";
import { listedModule } from "./listed-module.mjs";

// ---- modules by hand

// a count or size below 16,384
const count = (n) => (n < 128 ? [n] : [128 + (n % 128), Math.floor(n / 128)]);
const vector = (...elements) => [...count(elements.length), ...elements.flat()];
const text = (word) => vector(...new TextEncoder().encode(word));
const sized = (bytes) => [...count(bytes.length), ...bytes];

const HEADER = [0x00, 0x61, 0x73, 0x6d, 0x01, 0x00, 0x00, 0x00];
const INT32 = [0x01, 0x01, 0x00]; // one run of one int32
const INT64 = [0x01, 0x01, 0x01];
const NO_PARAMETER = [0x00];

const STREAM = 0x00;
const VALUE = 0x01;
const EVENT = 0x02;
const input = (kind, name, address, shape, parameter = NO_PARAMETER) => [0x00, kind, ...text(name), address, ...shape, ...parameter];
const output = (kind, name, address, shape) => [0x01, kind, ...text(name), address, ...shape, ...NO_PARAMETER];

const body = (locals, ...code) => sized([...locals, ...code.flat(), 0x0b]);
const NO_LOCALS = [0x00];
const I32_LOCAL = [0x01, 0x01, 0x7f];

// Types 0, `emit` and `frames`, and 1, nothing to nothing. `functions` has a name, a type and a body each.
function moduleOf(functions, described) {
  const exports = functions.map(([name], i) => [...text(name), 0x00, i + 1]);
  return Uint8Array.from([
    ...HEADER,
    ...[0x01, ...sized([0x02, 0x60, 0x01, 0x7f, 0x00, 0x60, 0x00, 0x00])],
    ...[0x02, ...sized([0x01, ...text("host"), ...text("emit"), 0x00, 0x00])],
    ...[0x03, ...sized(vector(...functions.map(([, type]) => [type])))],
    ...[0x05, ...sized([0x01, 0x01, 0x01, 0x01])],
    ...[0x07, ...sized(vector([...text("memory"), 0x02, 0x00], ...exports))],
    ...[0x0a, ...sized(vector(...functions.map(([, , code]) => code)))],
    ...(described === null ? [] : [0x00, ...sized([...text("cmajor"), ...described])]),
  ]);
}

const NOTHING = body(NO_LOCALS);
const MARK = [0x41, 0x7f, 0x10, 0x00]; // i32.const -1, call emit

// ---- interface 2: blocks of at most four frames

const BLOCKS = [
  ...[0x02, 0x06, 0x04],
  ...vector(
    input(VALUE, "gain", 0, INT32, [0x01, 0x00, 0x0a, 0x03]),
    output(EVENT, "e", 4, INT32),
    input(STREAM, "in", 16, INT32),
    output(STREAM, "count", 32, INT32),
    output(STREAM, "same", 48, INT32),
  ),
];

const EMIT_GAIN = [
  ...[0x41, 0x00, 0x41, 0x00, 0x28, 0x02, 0x00, 0x36, 0x02, 0x04], // the slot of `e` = the slot of `gain`
  ...[0x41, 0x01, 0x10, 0x00], // i32.const 1, call emit
];

// For each frame: an event, `count` = the argument, `same` = `in`, a mark. After the last mark an event.
const blockFrames = (mark) =>
  body(
    I32_LOCAL,
    [0x03, 0x40], // loop
    EMIT_GAIN,
    [0x20, 0x01, 0x41, 0x02, 0x74, 0x20, 0x00, 0x36, 0x02, 0x20], // entry of `count` = local 0
    [0x20, 0x01, 0x41, 0x02, 0x74, 0x20, 0x01, 0x41, 0x02, 0x74, 0x28, 0x02, 0x10, 0x36, 0x02, 0x30], // entry of `same` = entry of `in`
    mark,
    [0x20, 0x01, 0x41, 0x01, 0x6a, 0x22, 0x01, 0x20, 0x00, 0x49, 0x0d, 0x00], // local 1 += 1, again while it is below local 0
    [0x0b],
    EMIT_GAIN,
  );

const blockModule = (mark) => moduleOf([["init", 1, NOTHING], ["frames", 0, blockFrames(mark)]], BLOCKS);

// ---- interface 1: events, an int64, and numbers outside their kinds

const KINDS = [
  ...[0x01, 0x00],
  ...vector(
    input(VALUE, "unused", 0, INT32),
    input(EVENT, "note", 8, INT64),
    output(VALUE, "last", 16, INT64),
    output(EVENT, "echo", 24, INT64),
    output(VALUE, "odd", 32, [0x03, 0x01, 0x02, 0x01, 0x03, 0x05, 0x01, 0x04, 0x05]), // bool, wrap<5>, clamp<5>
    output(VALUE, "none", 0, [0x00]),
    input(EVENT, "other", 64, [0x02, 0x01, 0x01, 0x01, 0x03, 0x05]), // int64, wrap<5>
    output(STREAM, "sum", 56, INT32),
    output(VALUE, "mixed", 16, [0x03, 0x01, 0x01, 0x01, 0x00, 0x02, 0x02]), // int64, int32, two bool
  ),
];

const storeMinusOne = (address) => [0x41, address, 0x41, 0x7f, 0x36, 0x02, 0x00];
const copyLong = (to, from) => [0x41, to, 0x41, from, 0x29, 0x03, 0x00, 0x37, 0x03, 0x00];

const kindsModule = (frameCode) =>
  moduleOf(
    [
      ["init", 1, body(NO_LOCALS, storeMinusOne(32), storeMinusOne(36), storeMinusOne(40), storeMinusOne(24))],
      ["frame", 1, body(NO_LOCALS, frameCode)],
      ["e0", 1, body(NO_LOCALS, copyLong(16, 8), copyLong(24, 8), [0x41, 0x03, 0x10, 0x00])],
      // `sum` = the two scalars of `other`, the first one cut to 32 bits
      ["e1", 1, body(NO_LOCALS, [0x41, 0x00, 0x41, 0x00, 0x28, 0x02, 0x40, 0x41, 0x00, 0x28, 0x02, 0x48, 0x6a, 0x36, 0x02, 0x38])],
    ],
    KINDS,
  );

// ---- interface 1: parameters

const PARAMETERS = [
  ...[0x01, 0x00],
  ...vector(
    input(EVENT, "go", 0, INT32, [0x01, 0x00, 0x0a, 0x03]),
    input(VALUE, "gain", 4, INT32, [0x01, 0x00, 0x0a, 0x02]),
    output(VALUE, "seen", 8, INT32),
    output(EVENT, "heard", 12, INT32),
  ),
];

const copyWord = (to, from) => [0x41, to, 0x41, from, 0x28, 0x02, 0x00, 0x36, 0x02, 0x00];
const EMIT_HEARD = [0x41, 0x03, 0x10, 0x00];

// `init` sends an event. `go` copies `gain` to `seen`, and itself to an event
const parametersModule = moduleOf(
  [
    ["init", 1, body(NO_LOCALS, EMIT_HEARD)],
    ["frame", 1, NOTHING],
    ["e0", 1, body(NO_LOCALS, copyWord(8, 4), copyWord(12, 0), EMIT_HEARD)],
  ],
  PARAMETERS,
);

// ---- tests

const lines = (items) => items.map(line);

async function runsTheListedModule() {
  const patch = await Patch.load(listedModule());
  assert.deepEqual(patch.start(), []);
  assert.equal(patch.latency, 0);
  assert.deepEqual(patch.endpoints.map((end) => [end.name, end.flow, end.kind]), [["in", "input", "stream"], ["out", "output", "stream"]]);
  assert.deepEqual(lines(patch.run(3, { in: [1, 2, 3] })), ["frame 0 out=1", "frame 1 out=2", "frame 2 out=3"]);
  assert.deepEqual(lines(patch.run(2, { in: [-2147483649n] })), ["frame 3 out=2147483647", "frame 4 out=0"]);
}

async function takesBlocks() {
  const patch = await Patch.load(blockModule(MARK));
  patch.start();
  assert.equal(patch.latency, 6);
  // six frames are a call of four and one of two; the event after the last mark belongs to the frame that follows
  assert.deepEqual(lines(patch.run(6, { in: [10, 11, 12, 13, 14] })), [
    "event 0 e=3",
    "frame 0 count=4 same=10",
    "event 1 e=3",
    "frame 1 count=4 same=11",
    "event 2 e=3",
    "frame 2 count=4 same=12",
    "event 3 e=3",
    "frame 3 count=4 same=13",
    "event 4 e=3",
    "event 4 e=3",
    "frame 4 count=2 same=14",
    "event 5 e=3",
    "frame 5 count=2 same=0",
    "event 6 e=3",
  ]);
  patch.set("gain", 99);
  assert.deepEqual(lines(patch.run(1)), ["event 6 e=10", "frame 6 count=1 same=0", "event 7 e=10"]);
}

async function restoresParameters() {
  const patch = await Patch.load(blockModule(MARK));
  patch.start({ gain: -7n, old: 1 });
  assert.deepEqual(lines(patch.run(1)).slice(0, 1), ["event 0 e=0"]);
}

async function startsParameters() {
  const patch = await Patch.load(parametersModule);
  // `gain` comes after `go`, so it is still 0 when `go` is delivered
  assert.deepEqual(lines(patch.start({ go: 2n ** 32n + 5n })), ["event 0 heard=0", "event 0 heard=10"]);
  assert.deepEqual(lines(patch.run(1)), ["frame 0 seen=0"]);
  assert.deepEqual(lines(patch.send("go", 2n ** 32n + 5n)), ["event 1 heard=5"]);
  assert.deepEqual(lines(patch.run(1)), ["frame 1 seen=2"]);
}

async function deliversEvents() {
  const patch = await Patch.load(kindsModule([]));
  patch.start();
  assert.deepEqual(lines(patch.run(1)), ["frame 0 last=0 odd=[1,4,0] none=[] sum=0 mixed=[0,-1,0,1]"]);
  assert.deepEqual(lines(patch.send("note", -9223372036854775808n)), ["event 1 echo=-9223372036854775808"]);
  assert.deepEqual(patch.send("other", [-1, 7]), []);
  const [frame] = patch.run(1);
  assert.equal(frame.outputs.get("last"), -9223372036854775808n);
  assert.equal(frame.outputs.get("sum"), 1);
}

async function refusesWrongUses() {
  const patch = await Patch.load(kindsModule([]));
  assert.throws(() => patch.run(1), /isn't started/);
  assert.throws(() => patch.set("unused", 1), /isn't started/);
  patch.start();
  assert.throws(() => patch.start(), /started before/);
  assert.throws(() => patch.set("note", 1), /no value input note/);
  assert.throws(() => patch.send("unused", 1), /no event input unused/);
  assert.throws(() => patch.run(1, { last: [1] }), /no stream input last/);
  assert.throws(() => patch.set("unused", 0.5), TypeError);
  assert.throws(() => patch.set("unused", 2n ** 63n), RangeError);
  assert.throws(() => patch.send("other", 1), TypeError);
  assert.equal(patch.live, true);
}

// the part at which a run fails, and what was told before
async function failure(bytes, count) {
  const patch = await Patch.load(bytes);
  patch.start();
  try {
    patch.run(count);
  } catch (error) {
    assert.ok(error instanceof CallError);
    assert.equal(patch.live, false);
    return [error.message, ...lines(error.items)];
  }
  assert.fail("the run ends");
}

async function endsAtFailedCalls() {
  // without marks; with two marks for each frame; a mark in interface 1; a number that is no output event
  assert.deepEqual(await failure(blockModule([]), 1), ["trapped frame 0", "event 0 e=3", "event 0 e=3"]);
  assert.deepEqual(await failure(blockModule([...MARK, ...MARK]), 1), ["trapped frame 0", "event 0 e=3", "frame 0 count=1 same=0"]);
  assert.deepEqual(await failure(kindsModule(MARK), 1), ["trapped frame 0"]);
  assert.deepEqual(await failure(kindsModule([0x41, 0x02, 0x10, 0x00]), 1), ["trapped frame 0"]);
  // unreachable, in the second frame
  const once = [0x41, 0x00, 0x28, 0x02, 0x38, 0x04, 0x40, 0x00, 0x0b, 0x41, 0x38, 0x41, 0x01, 0x36, 0x02, 0x00];
  assert.deepEqual(await failure(kindsModule(once), 2), ["trapped frame 1", "frame 0 last=0 odd=[1,4,0] none=[] sum=1 mixed=[0,-1,0,1]"]);
}

async function refusesSections() {
  const functions = [["init", 1, NOTHING], ["frame", 1, NOTHING]];
  const one = (end) => [0x01, 0x00, ...vector(end)];
  const wrong = {
    "no section": null,
    "another version": [0x03, 0x00, 0x00],
    "a number of six bytes": [0x01, 0x80, 0x80, 0x80, 0x80, 0x80, 0x00, 0x00],
    "a number past 32 bits": [0x01, 0x80, 0x80, 0x80, 0x80, 0x10, 0x00],
    "an end that comes early": [0x01, 0x00, 0x01, 0x00],
    "bytes after the end": [0x01, 0x00, 0x00, 0x00],
    "a block of no frame": [0x02, 0x00, 0x00, 0x00],
    "a block of 257 frames": [0x02, 0x00, 0x81, 0x02, 0x00],
    "a name that isn't UTF-8": one([0x00, 0x00, 0x01, 0xff, 0x00, ...INT32, 0x00]),
    "an empty run": one(input(VALUE, "a", 0, [0x01, 0x00, 0x00])),
    "too many scalars": one(input(VALUE, "a", 0, [0x01, 0x81, 0x80, 0x40, 0x00])),
    "a wrap of no number": one(input(VALUE, "a", 0, [0x01, 0x01, 0x03, 0x00])),
    "a stream that is a parameter": one(input(STREAM, "a", 0, INT32, [0x01, 0x00, 0x00, 0x00])),
    "an int64 that is a parameter": one(input(VALUE, "a", 0, INT64, [0x01, 0x00, 0x00, 0x00])),
    "a start out of its range": one(input(VALUE, "a", 0, INT32, [0x01, 0x00, 0x01, 0x02])),
    "one name twice": [0x01, 0x00, ...vector(input(VALUE, "a", 0, INT32), output(VALUE, "a", 4, INT32))],
    "a slot past the memory": one([0x00, 0x01, 0x01, 0x61, 0xfd, 0xff, 0x03, ...INT32, 0x00]),
  };
  for (const [what, described] of Object.entries(wrong)) {
    await assert.rejects(Patch.load(moduleOf(functions, described)), SectionError, what);
  }
  // the last four bytes of the page, and the longest spelling of a number
  await Patch.load(moduleOf(functions, one([0x00, 0x01, 0x01, 0x61, 0xfc, 0xff, 0x83, 0x80, 0x00, ...INT32, 0x00])));
  // a range with numbers of all lengths: -2147483648, 2147483647, -65
  const parameter = [0x01, 0x80, 0x80, 0x80, 0x80, 0x78, 0xff, 0xff, 0xff, 0xff, 0x07, 0xbf, 0x7f];
  const patch = await Patch.load(moduleOf(functions, one(input(VALUE, "a", 0, INT32, parameter))));
  assert.deepEqual(patch.endpoints[0].parameter, { min: -2147483648, max: 2147483647, init: -65 });
}

function convertsNumbers() {
  const rows = [
    [{ type: "int32" }, 2147483648n, -2147483648],
    [{ type: "int64" }, -1n, -1n],
    [{ type: "bool" }, -2n, 1],
    [{ type: "bool" }, 0n, 0],
    [{ type: "wrap", count: 5 }, -1n, 4],
    [{ type: "wrap", count: 5 }, 5n, 0],
    [{ type: "clamp", count: 5 }, -1n, 0],
    [{ type: "clamp", count: 5 }, 5n, 4],
    [{ type: "clamp", count: 5 }, 3n, 3],
  ];
  for (const [kind, whole, expected] of rows) assert.equal(converted(kind, whole), expected);
}

await runsTheListedModule();
await takesBlocks();
await restoresParameters();
await startsParameters();
await deliversEvents();
await refusesWrongUses();
await endsAtFailedCalls();
await refusesSections();
convertsNumbers();
