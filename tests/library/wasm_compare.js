// The module beside the program's answers, in Node and in browsers. For `wasm.py`, which says what is tried.
import { Puzzles } from "./puzzles.js";

const CALLED = { solve_each: "solveEach" }, PAINT = 0xa5, TRIED = ["pattern", "5x1:1/1//1/1/2.2"], TOLD = "one\n##.##\n";
const WILD = 0xfffffff0n; // an address beyond the memory
const SOME = 500; // calls whose stack is looked at
const TIMES = 20; // that a thing is timed, last of all: at first a browser has much else to do
const Real = WebAssembly.Instance;
const bytes = (text) => Uint8Array.from(text, (sign) => sign.charCodeAt(0));

let last; // the exports of the instance that was made last
let changed = {}; // and calls that stand in the place of its own
WebAssembly.Instance = function Instance(module) {
  const { exports } = new Real(module);
  last = exports;
  return { exports: { ...exports, ...changed } };
};

function answer(puzzles, { call, game, text, grid, options }) {
  const { seed, ...more } = options;
  const words = { check: [bytes(grid)], generate: [seed, more] }[call] ?? [more];
  return puzzles[CALLED[call] ?? call](game, bytes(text), ...words);
}

function differing(puzzles, cases) {
  const said = cases.map((asked) => [asked, answer(puzzles, asked)]);
  return said.filter(([asked, { status, text }]) => status !== asked.status || text !== asked.answer)
    .map(([asked, { status, text }]) => `${asked.call} ${asked.game} ${asked.text.slice(0, 60)}: ${status} ${text.slice(0, 60)}`);
}

// Milliseconds of the processor that some turns of an act take, each.
async function cost(spent, act) {
  const before = await spent();
  for (let k = 0; k < TIMES; k += 1) await act();
  return (await spent() - before) / TIMES;
}

// Microseconds of a solve, after a first pass.
async function solveCost(spent, puzzles, cases) {
  const solves = cases.filter(({ call, status }) => call === "solve" && status !== 2);
  const pass = () => solves.forEach((asked) => answer(puzzles, asked));
  pass();
  return (await cost(spent, pass)) * 1000 / solves.length;
}

// The most bytes of its stack, which lies before all else, that a call uses.
function stackUsed(puzzles, cases, stack) {
  const used = cases.map((asked) => {
    const painted = new Uint8Array(last.memory.buffer, 0, stack).fill(PAINT);
    answer(puzzles, asked);
    const end = painted.length ? painted : new Uint8Array(last.memory.buffer, 0, stack); // a memory that grew has a new view
    const lowest = end.findIndex((byte) => byte !== PAINT);
    return lowest < 0 ? 0 : stack - lowest; // a call that was refused outside of the module uses none
  });
  return Math.max(...used);
}

// The status of a call with no memory to be had, of all that the module may have.
function fullStatus(puzzles) {
  const [game, id] = [1, bytes(TRIED[1])], { memory, malloc, puzzles_clear: clear } = last;
  clear();
  const place = malloc(BigInt(id.length)), output = malloc(64n), written = malloc(8n);
  new Uint8Array(memory.buffer).set(id, Number(place));
  for (let size = 2 ** 30; size >= 16; size /= 2) while (malloc(BigInt(size)));
  return last.puzzles_solve(game, place, BigInt(id.length), 1n, output, 64n, written) & 255;
}

const isWell = (puzzles) => puzzles.solve(...TRIED).text === TOLD;
const sentence = (call) => call().then(() => "no fault", (fault) => fault.message);

// A call that stops in the module, one for which its memory is too small, and each time the next call.
async function broken(load) {
  changed = { puzzles_solve: (game, place, ...more) => last.puzzles_solve(game, WILD, ...more) };
  const puzzles = await load();
  changed = {};
  const stopped = await sentence(async () => puzzles.solve(...TRIED)), isWellThen = isWell(puzzles);
  changed = { malloc: () => 0n };
  const full = await load();
  changed = {};
  return [stopped.startsWith("the module stopped in solve: "), isWellThen, full.solve(...TRIED).status, isWell(full)];
}

// Arguments that the program has no words for are refused, and so are what is no module and one of another version.
async function refused(puzzles, load) {
  const faults = [puzzles.solve("chess", "2x2:p"), puzzles.solve("solo"), puzzles.solve(undefined, "2x2:p"),
    puzzles.solve("solo", 5), puzzles.check("solo", "2x2:p", 5n),
    puzzles.solve("solo", "2x2:p", { budget: -1 }), puzzles.solve("solo", "2x2:p", { budget: 2n ** 64n }),
    puzzles.solve("solo", "2x2:p", { budget: 0.5 }), puzzles.generate("tents", "5x5", 1, { black: 5 }),
    puzzles.generate("pattern", "5x5", 1, { black: 256 }), puzzles.generate("pattern", "5x5", "x"),
    puzzles.generate("pattern", "5x5", 1, { tries: 2 ** 32 })];
  changed = { puzzles_version: () => 2 };
  const other = await sentence(load);
  changed = {};
  const long = puzzles.solve("solo", new Uint8Array(1e8)), empty = Uint8Array.of(0, 97, 115, 109, 1, 0, 0, 0);
  const modules = [new Uint8Array(9), empty, "text", undefined];
  const said = await Promise.all(modules.map((module) => sentence(() => Puzzles.load(module))));
  return [faults.every(({ text }) => text === "refused: words\n"), long.text, puzzles.solve("solo", "").text, isWell(puzzles),
    said.every((text) => text.startsWith("puzzles.wasm can't be loaded: ")),
    other === "puzzles.wasm can't be loaded: a module of version 2, and not 1"];
}

// What `wasm.py` wants to know. `source` gives the module, as `Puzzles.load` takes it, and `spent` the milliseconds of the
// processor that were taken so far.
export async function tried(source, spent, { cases, stack }) {
  const load = () => Puzzles.load(source()), puzzles = await load();
  const some = cases.filter((_, k) => k % Math.ceil(cases.length / SOME) === 0);
  return {
    count: cases.length, differing: differing(puzzles, cases),
    stack: stackUsed(puzzles, some, stack), memory: last.memory.buffer.byteLength,
    full: [fullStatus(puzzles), isWell(puzzles)], broken: await broken(load), refused: await refused(await load(), load),
    start: await cost(spent, load), solve: await solveCost(spent, await load(), cases),
  };
}
