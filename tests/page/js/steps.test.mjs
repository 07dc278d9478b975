// Hints by example: the simplest first and near, notes that are used, cells that are tried out, and names.
import assert from "node:assert/strict";
import test from "node:test";
import { hint } from "../../../page/web/hints/hint.js";
import { technique } from "../../../page/web/hints/lines.js";
import { nameOf } from "../../../page/web/hints/names.js";
import { laid } from "../../../page/web/hints/pattern.js";
import de from "../../../page/web/languages/de.js";
import en from "../../../page/web/languages/en.js";
import { presses } from "../../../page/web/presses.js";
import { read, start } from "../../../page/web/puzzle.js";

const SOLVED = "534678912672195348198342567859761423426853791713924856961537284287419635345286179"; // a published example
const GIVENS = "53..7....6..195....98....6.8...6...34..8.3..17...2...6.6....28....419..5....8..79";

function sudoku(signs) {
  const puzzle = read("solo", "3x3:zzzc");
  return [puzzle, [...signs], [...SOLVED]];
}
const without = (...cells) => [...SOLVED].map((sign, cell) => (cells.includes(cell) ? "." : sign)).join("");
const step = (told) => told.steps.at(-1).why;

test("the last digit of a house is told before all else", () => {
  const [puzzle, signs, solution] = sudoku([...GIVENS].map((sign, cell) => (cell < 8 ? SOLVED[cell] : sign)).join(""));
  const told = hint(puzzle, signs, solution);
  assert.deepEqual([nameOf(step(told)), told.cells, told.values], ["last", [8], [2]]);
});

test("of two steps that are alike the one near the last move is told", () => {
  const [puzzle, signs, solution] = sudoku(without(0, 80));
  assert.deepEqual(hint(puzzle, signs, solution, { last: 70 }).cells, [80]);
  assert.deepEqual(hint(puzzle, signs, solution, { last: 10 }).cells, [0]);
});

test("what bars the others are filled cells with the number", () => {
  const [puzzle, signs, solution] = sudoku(GIVENS), told = hint(puzzle, signs, solution), { why, witness } = told.steps[0];
  assert.equal(nameOf(why), "hiddenSingle");
  assert.ok(witness.length > 0 && witness.every((cell) => Number(signs[cell]) === why.number));
});

test("notes that agree are used and said, and those that don't agree are not", () => {
  const [puzzle, signs, solution] = sudoku(without(0, 1, 9, 10, 4, 5, 13, 14, 27, 28)), notes = [];
  const plain = hint(puzzle, signs, solution);
  assert.ok(plain.steps.every(({ isNoted }) => !isNoted));
  const puzzle2 = read("solo", "2x2:p"), right = [..."1234341221434321"];
  const blank = Array(16).fill(".");
  assert.equal(hint(puzzle2, blank, right).kind, "guess"); // an empty grid shows nothing
  notes[0] = [1, 2];
  notes[1] = [1, 2];
  notes[2] = [3, 4];
  notes[3] = [1, 3, 4];
  notes[4] = [3, 4];
  notes[5] = [1, 2, 3, 4];
  const told = hint(puzzle2, [...".....4.........."], right, { notes });
  assert.equal(told.kind, "step");
  assert.ok(told.steps.some(({ isNoted }) => isNoted));
  assert.ok(presses(en, puzzle2, told).some(({ text }) => text.includes("your notes")));
  const wrong = notes.map((numbers) => numbers.filter((number) => number > 2)); // no 1 where a 1 stands
  assert.deepEqual(hint(puzzle2, [...".....4.........."], right, { notes: [wrong[0]] }).cells,
    hint(puzzle2, [...".....4.........."], right).cells);
});

test("a step that only a step rests on which isn't needed is left out too", () => {
  const puzzle = read("solo", "3x3x:l9e9c3e3a2f8a7e2_7_6_1d3_7a8d5_4d1b7c4c3b");
  const solution = [..."367451892852976431941832765439265187185743926276198543718329654593614278624587319"];
  const signs = [..."3........8..9...3.9.1.3.....3.2......8.7.3...2761....37183...54.93.1..7..24...31."];
  const told = hint(puzzle, signs, solution);
  assert.deepEqual([told.kind, told.cells, told.values], ["step", [43], [2]]);
  assert.deepEqual(told.steps.map(({ why }) => nameOf(why)), ["nakedTriple", "nakedPair", "hiddenSingle"]);
});

test("a cell that is tried out shows what follows, cell by cell", () => {
  const puzzle = read("lightup", "3x3:aBBa1aBb"), told = hint(puzzle, start(puzzle), [...".##O1.#.O"]);
  assert.equal(told.kind, "trial");
  const all = presses(en, puzzle, told);
  assert.match(all[1].text, /^Step 1 of \d+\. Suppose row/);
  assert.match(all.at(-2).text, /But then the 1 at row 2, column 2 has too many bulbs\. So it isn’t true/);
  assert.deepEqual([told.cells, told.values], [[8], [1]]);
});

test("each step has a press, in both languages, with its name at the head", () => {
  const puzzle = read("solo", "3x3:zzzc");
  for (const [words, name] of [[en, "Hidden single: "], [de, "Versteckter Einer: "]]) {
    const told = presses(words, puzzle, { kind: "step", cells: [5], values: [7], look: { why: { kind: "place",
      house: ["block", 2], number: 7 },
      house: [3, 4, 5] }, steps: [{ why: { kind: "place", house: ["block", 2], number: 7 }, house: [3, 4, 5],
        witness: [], struck: [] }] });
    assert.equal(told.length, 2);
    assert.ok(told[1].text.startsWith(name), told[1].text);
  }
});

test("names of chains by how their lines lie", () => {
  const chain = (bys, via, numbers = [5, 5, 5, 5]) => ({ kind: "chain", chain: numbers.map((number, k) => ({ cell: k, number,
    by: k % 2 ? bys[(k - 1) / 2] : undefined, via: k === 2 ? via : [] })) });
  assert.equal(nameOf(chain([["row", 1], ["row", 5]], ["column"])), "skyscraper");
  assert.equal(nameOf(chain([["row", 1], ["column", 5]], ["block"])), "kite");
  assert.equal(nameOf(chain([["block", 1], ["row", 5]], ["column"])), "turbot");
  assert.equal(nameOf(chain([undefined, undefined], ["row"], [1, 2, 2, 1])), "xychain");
  assert.equal(nameOf(chain([undefined, ["row", 2]], ["row"], [1, 2, 2, 2])), "aic");
  assert.equal(nameOf({ kind: "diagonal", house: ["block", 5], other: ["diagonal", 1] }), "pointing");
});

test("names of lines of Pattern: overlap, edge, glue, complete, out of reach", () => {
  const named = (line, clue) => {
    const cans = [...line].map((sign) => new Set({ ".": [0, 1], "#": [1], x: [0] }[sign]));
    return technique(cans, laid(cans, clue).left, clue);
  };
  assert.equal(named(".....", [3]), "overlap");
  assert.equal(named("#....", [3]), "edge");
  assert.equal(named("x#......", [3]), "edge");
  assert.equal(named(".#......", [3]), "glue");
  assert.equal(named("##..#", [2, 1]), "complete");
  assert.equal(named("...#......", [2]), "reach");
});
