// What the page says and reads: each language has each word of the other, and an ID is read as the program reads it.
import assert from "node:assert/strict";
import fs from "node:fs";
import { test } from "node:test";
import de from "../../../page/web/languages/de.js";
import en from "../../../page/web/languages/en.js";
import { progress } from "../../../page/web/standing.js";
import { LEVELS, blackOf, levelOf } from "../../../page/web/levels.js";
import { kindOf, places, print, read, scan, start, written } from "../../../page/web/puzzle.js";

function shape(told) {
  return told && typeof told === "object" && !Array.isArray(told)
    ? Object.fromEntries(Object.keys(told).sort().map((name) => [name, shape(told[name])])) : typeof told;
}

test("both languages have the same words", () => assert.deepEqual(shape(de), shape(en)));

test("each refusal of the program has words in both languages", () => {
  const formats = fs.readFileSync(new URL("../../../docs/FORMATS.md", import.meta.url), "utf8");
  const [, table] = formats.match(/\| Refusal \| Text \|\n\|---\|---\|\n((?:\|.*\n)+)/);
  const kinds = table.trim().split("\n").map((row) => row.match(/\| `([^`]+)` \|$/)[1].replace(/ at p$| l too full$/, ""));
  assert.ok(kinds.length > 10);
  for (const kind of kinds) for (const words of [en, de]) assert.ok(words.refusals[kind], kind);
  assert.deepEqual(["bad byte at 4", "line 3 too full", "too few"].map(kindOf), ["bad byte", "line", "too few"]);
});

test("how far a puzzle is: what its clues count, or cells that are lit", () => {
  const far = (game, id, signs) => progress(read(game, id), [...signs]);
  assert.deepEqual(far("tents", "3x3:aaaaa,2,0,2,2,0,2", "^T•T.T••."), [1, 4]);
  assert.deepEqual(far("pattern", "5x1:1/1//1/1/2.2", "##•.."), [2, 4]);
  assert.deepEqual(far("solo", "2x2:1b4i3_2a", "1..434.......32."), [2, 12]);
  assert.deepEqual(far("lightup", "3x2:1e", "1..O.."), [3, 5]);
});

const IDS = { solo: ["2x2:1b4i3_2a", "2x3x:zj"], pattern: ["5x1:1/1//1/1/2.2", "1x1:/"], lightup: ["3x3:aBBa1aBb"],
  tents: ["2x2:_c,0,1,1,0", "5x5:y,0,0,0,0,0,0,0,0,0,0"] };
for (const [game, ids] of Object.entries(IDS)) {
  test(`${game}: an ID is read cell by cell, and its start is printed and scanned again`, () => {
    for (const id of ids) {
      const puzzle = read(game, id), rows = print(puzzle, start(puzzle)).trimEnd().split("\n");
      assert.equal(puzzle.fixed.length, puzzle.w * puzzle.h);
      assert.deepEqual(scan(puzzle, rows), start(puzzle));
      if (game === "solo") assert.equal(written(puzzle.size, puzzle.fixed), id);
    }
  });
}

test("levels: a rule set's own, and a search by what it needs", () => {
  assert.equal(levelOf("solo", "singles"), "easy");
  assert.equal(levelOf("solo", "search 3", { trial: 0 }), "hard");
  assert.equal(levelOf("tents", "search 3", { trial: 0 }), "medium");
  assert.equal(levelOf("pattern", "search 9", { trial: 3 }), "medium");
  assert.equal(levelOf("pattern", "search 9", { trial: 4 }), "hard");
  assert.equal(levelOf("tents", "search 3", { guess: 1 }), "hard");
  assert.deepEqual(LEVELS, ["easy", "medium", "hard"]);
  assert.deepEqual(blackOf("solo", "3x3"), {});
});

test("a broken rule names its cells", () => {
  const puzzle = read("lightup", "2x2:2c");
  assert.deepEqual(places(puzzle, "seen 1,0"), [1]);
  assert.deepEqual(places(puzzle, "row 1"), [2, 3]);
  assert.deepEqual(places(puzzle, "match"), []);
});
