// The page's hints: made puzzles are played by them alone, to the end, and what they need is compared with the program's grade.
//
// Of each puzzle these have to be so:
// - each hint is right: what it says of a cell stands in the only solution;
// - each hint has words in each language, and all but a guess tell first where to look;
// - each of its steps holds, by a reading of its own (hints_check.mjs), none can be left out, and each is told by itself;
// - where one step is enough one is told, and of these the simplest: the last digit of a house, a number's one place in a block,
//   a cell's one number, a number's one place in a line;
// - if the grade is a rule set, the steps that it knows lead to the end; if it is `search n` they don't;
// - the weakest rule set that settles the puzzle by these rules is the grade.
// The rules of the hints (page/web/hints/) are a program of its own. COUNT puzzles of a rule set are played of each game.
import assert from "node:assert/strict";
import { execFileSync } from "node:child_process";
import { existsSync } from "node:fs";
import { test } from "node:test";
import { fileURLToPath } from "node:url";
import de from "../../../page/web/languages/de.js";
import en from "../../../page/web/languages/en.js";
import { hint, rulesOf, valueIn } from "../../../page/web/hints/hint.js";
import { SIMPLE, without } from "../../../page/web/hints/steps.js";
import { read, scan, start } from "../../../page/web/puzzle.js";
import { worded } from "../../../page/web/worded.js";
import { checkPresses, checkSolo, checkTrial, looksNear } from "./hints_check.mjs";

const PROGRAM = process.env.PUZZLES || fileURLToPath(new URL("../../../crates/puzzles/out/puzzles", import.meta.url));
const COUNT = Number(process.env.COUNT || 10);
const SIZES = { solo: ["3x3", "3x3x", "3x3", "3x4"], pattern: ["10x10", "15x15"], lightup: ["7x7", "10x10"],
  tents: ["8x8", "10x10"] };
const KINDS = ["step", "trial", "guess"];
const BEYOND = { singles: [], houses: ["sets"], crossings: ["sets", "crossings"] }; // what Solo's rule sets look at
const RULE_SETS = { solo: Object.keys(BEYOND), pattern: ["lines"], lightup: ["local"], tents: ["local"] };
const OF_GRADES = [...SIMPLE, "naked", "hidden", "crossing"]; // the kinds of steps that rule sets know

function ask(...words) {
  try {
    return execFileSync(PROGRAM, words, { encoding: "utf8", timeout: 600_000, stdio: ["ignore", "pipe",
      "pipe"] }).trimEnd().split("\n");
  } catch (fault) {
    if (fault.status > 0 && fault.status <= 4) return fault.stdout.trimEnd().split("\n");
    throw fault;
  }
}

// The weakest rule set that leaves one value in each cell.
function settledBy(puzzle) {
  return RULE_SETS[puzzle.game].find((ruleSet) => {
    const rules = rulesOf(puzzle), cans = rules.cans(start(puzzle));
    const further = () => (BEYOND[ruleSet] || []).flatMap((name) => [...rules[name](cans)]).map(([, one]) => one);
    for (;;) {
      const simple = rules.simple(cans), steps = simple.length ? simple : further();
      if (!steps.length) return cans.every((can) => can.size === 1);
      for (const { strikes } of steps) without(cans, strikes);
    }
  }) || "search";
}

// What is wrong with a hint, as hints_check.mjs sees it.
function faultsOf(puzzle, signs, told, solution) {
  const words = [en, de].flatMap((each) => checkPresses(each, puzzle, told)), rules = rulesOf(puzzle);
  const values = solution.map((sign) => valueIn(puzzle, rules, sign));
  return [...words, ...(puzzle.block ? checkSolo : looksNear)(puzzle, signs, told, values), ...checkTrial(puzzle, signs, told)];
}

// Plays a puzzle by its hints, and looks at each. Gives whether all steps were those that rule sets know, and how many hints.
function played(id, puzzle, solution) {
  const signs = start(puzzle);
  let last;
  for (let isKnown = true, hints = 0; ; hints += 1) {
    const told = hint(puzzle, signs, solution, { last });
    if (told.kind === "done") return [isKnown, hints];
    assert(KINDS.includes(told.kind), `${id}: ${told.kind}`);
    assert(told.cells.length && told.cells.every((cell) => signs[cell] === "."), `${id}: a hint that leads nowhere`);
    const reasons = told.steps.map(({ why }) => why);
    assert.deepEqual(faultsOf(puzzle, signs, told, solution), [], `${id}: ${JSON.stringify(reasons)}`);
    for (const language of [en, de]) {
      assert(language.hint(worded(puzzle, { ...told, reasons }), puzzle.game), `${id}: no words`);
      if (told.kind !== "guess") assert(language.look(worded(puzzle, told.look.why)), `${id}: nowhere to look`);
    }
    isKnown &&= told.kind === "step" && reasons.every(({ kind }) => OF_GRADES.includes(kind));
    told.cells.forEach((cell, k) => {
      const shown = puzzle.block ? String(told.values[k]) : told.values[k] ? told.sign : "x";
      assert.equal(shown.replace("x", "."), solution[cell], `${id}: a wrong hint for cell ${cell}`);
      signs[cell] = shown;
    });
    [last] = told.cells;
  }
}

for (const game of Object.keys(SIZES)) {
  test(`${game}: hints lead to the end, and agree with grades`, { skip: !existsSync(PROGRAM) && "no built program" }, (test) => {
    let all = 0;
    for (let seed = 1, found = 0; found < COUNT; seed += 1) {
      const [id, ...grid] = ask("generate", game, SIZES[game][seed % SIZES[game].length], "--seed", String(seed),
        "--budget", "1000");
      if (id === "exhausted") continue;
      const [grade] = ask("grade", game, "--", id)[0].split(" "), puzzle = read(game, id);
      const [isKnown, hints] = played(id, puzzle, scan(puzzle, grid));
      assert.equal(isKnown, grade !== "search", `${id}: grade ${grade}`);
      assert.equal(settledBy(puzzle), grade, id);
      found += grade !== "search";
      all += hints;
    }
    test.diagnostic(`${all} hints`);
  });
}
