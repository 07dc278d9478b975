// What a puzzle needs from its first cell to its last: which kinds of steps beyond the simple ones,
// and how often; how many cells have to be tried out; and how many only the solution tells.
import { start } from "../puzzle.js";
import { rulesOf, valueIn } from "./hint.js";
import { without } from "./steps.js";
import { tried } from "./trial.js";

export function needs(puzzle, solution) {
  const rules = rulesOf(puzzle), cans = rules.cans(start(puzzle)), counts = {};
  const values = solution.map((sign) => valueIn(puzzle, rules, sign));
  const count = (kind) => { counts[kind] = (counts[kind] || 0) + 1; };
  for (;;) {
    const simple = rules.simple(cans), harder = simple.length ? [] : rules.harder(cans).slice(0, 1);
    for (const { strikes } of [...simple, ...harder]) without(cans, strikes);
    harder.forEach(({ why }) => count(why.kind));
    if (simple.length || harder.length) continue;
    const open = cans.flatMap((can, cell) => (can.size > 1 ? cell : []));
    if (!open.length) return counts;
    const trial = tried(rules, cans, values, new Set(open)), cell = trial ? trial.cell : open[0];
    count(trial ? "trial" : "guess");
    cans[cell] = new Set([values[cell]]);
  }
}
