// The next step of a player, and why.
//
// What is proved: whether a filled cell is wrong, and what stands in the cells of a hint. For they
// are compared with the solution that the program proved to be the only one. The reason is the
// page's own. One that leads elsewhere is never told.
import { LightUp } from "./lightup.js";
import { Pattern } from "./pattern.js";
import { Solo } from "./solo.js";
import { cellOf, distance, hold, needed, valueOf, without } from "./steps.js";
import { Tents } from "./tents.js";
import { refuted, tried } from "./trial.js";
import { barring } from "./witness.js";

const RULES = { solo: Solo, pattern: Pattern, lightup: LightUp, tents: Tents };
export const rulesOf = (puzzle) => new RULES[puzzle.game](puzzle);

// What stands in a cell as a value: a number, or 1 for filled and 0 for not.
export const valueIn = (puzzle, rules, sign) => (puzzle.block ? Number(sign) : Number(sign === rules.sign));

// A hint in parts, for a player's signs: "." for blank, "x" for "none here". `notes` has for a cell the numbers that the player
// thinks it can have, and `last` is the cell that was changed last. `kind` is "wrong", "done", "step", "trial" or "guess";
// `cells` has the cells that it is about, `values` what stands there; `steps` what leads there, one after another, each with the
// cells that it looks at, the candidates that it strikes, and the cells that bar the others; `look` what a player looks at first.
export function hint(puzzle, signs, solution, { notes = [], last = undefined } = {}) {
  const rules = rulesOf(puzzle), value = (sign) => valueIn(puzzle, rules, sign), values = solution.map(value);
  const wrong = signs.flatMap((sign, cell) => (sign !== "." && value(sign) !== values[cell] ? cell : []));
  if (wrong.length) return { kind: "wrong", cells: wrong.slice(0, 1), more: wrong.length - 1, steps: [] };
  const blank = new Set(signs.flatMap((sign, cell) => (sign === "." ? cell : [])));
  if (![...blank].some((cell) => values[cell])) return { kind: "done", cells: [], steps: [] };
  const view = new View(rules, signs, notes, values), cans = view.cans(), found = nextSteps(view, cans, blank, last);
  const told = (kind, cells, more) => ({ kind, cells, values: cells.map((cell) => values[cell]), sign: rules.sign, ...more });
  if (found && isRight(found.steps, cans, values)) {
    return told("step", found.cells, { steps: view.told(found.steps), look: lookOf(rules, found.steps) });
  }
  const trial = trialOf(view, cans, values, blank, found);
  if (trial) {
    const { cell, house, why, cases, before } = trial;
    return told("trial", [cell], { steps: [...view.told(before), { why, house, struck: [], witness: [] }], cases,
      look: { why, house: [cell] } });
  }
  const open = [...blank].filter((cell) => values[cell]), plain = rules.cans(signs);
  return told("guess", open.sort((a, b) => plain[a].size - plain[b].size || a - b).slice(0, 1), { steps: [] });
}

// What a player sees: the signs, and the notes of a cell that agree with the solution and leave several numbers.
class View {
  constructor(rules, signs, notes, values) {
    this.rules = rules;
    this.signs = signs;
    this.plain = rules.cans(signs);
    this.noted = rules.cans(signs);
    for (const [cell, numbers] of notes.entries()) {
      if (!(numbers?.length > 1) || signs[cell] !== "." || !numbers.includes(values[cell])) continue;
      for (const number of this.plain[cell]) if (!numbers.includes(number)) this.noted[cell].delete(number);
    }
    rules.isAway = this.isAway = (at) => !this.noted[cellOf(at)].has(valueOf(at));
  }

  cans() { return this.noted.map((can) => new Set(can)); }

  // The steps as they are told. `isNoted` says that one rests on the player's notes.
  told(steps) {
    const gone = new Set();
    return steps.map((one) => {
      const { why, cells, strikes, rests } = one;
      const isNoted = [...rests].some((at) => !gone.has(at) && this.plain[cellOf(at)].has(valueOf(at)));
      const struck = [...strikes].filter((at) => !this.isAway(at) && !gone.has(at));
      strikes.forEach((at) => gone.add(at));
      return { why, house: cells, isNoted, witness: barring(this.rules, this.signs, one),
        struck: struck.map((at) => [cellOf(at), valueOf(at)]) };
    });
  }
}

// Where a player looks first: at the first step. A cell with one number left is sought in its house.
function lookOf(rules, [{ why, cells }]) {
  if (why.kind !== "single") return { why, house: cells };
  const [{ name, cells: house }] = rules.housesOf[why.cell];
  return { why: { ...why, house: name }, house };
}

// Whether nothing was taken away that stands in the solution.
function isRight(steps, cans, values) {
  const isKept = (struck) => valueOf(struck) !== values[cellOf(struck)];
  return values.every((value, cell) => cans[cell].has(value)) && steps.every(({ strikes }) => [...strikes].every(isKept));
}

// The steps that decide a blank cell, without those that they don't rest on, and what they decide;
// nothing if there are none. `cans` has what a player sees at a glance, so in a game with two values
// a cell that it decides needs no hint. Of several the one with the fewest steps is told, then the simplest, then the nearest.
function nextSteps(view, cans, blank, last) {
  const { rules, isAway } = view, taken = [];
  const far = (cells) => (last === undefined ? 0 : Math.min(...cells.map((cell) => distance(rules.puzzle, cell, last))));
  for (;;) {
    const found = rules.deciding(cans, blank).flatMap(([one, decided, rank]) => {
      const cells = [...new Set(decided)].filter((cell) => blank.has(cell)).sort((a, b) => a - b);
      return cells.length ? [{ one, cells, order: [rank, far(cells)] }] : [];
    });
    for (const each of found) each.steps = needed([...taken, each.one], isAway);
    const isBefore = (a, b) => a.steps.length - b.steps.length || a.order[0] - b.order[0] || a.order[1] - b.order[1];
    if (found.length) return found.reduce((best, each) => (isBefore(each, best) < 0 ? each : best));
    const further = rules.further(cans);
    if (!further.length) return undefined;
    for (const one of further) {
      taken.push(one);
      without(cans, one.strikes);
    }
  }
}

// A cell that is tried out: by what stands there, and else with all that steps take away. Of these those are told that it rests
// on.
function trialOf({ rules, signs, isAway, noted }, cans, values, blank, found) {
  const plain = tried(rules, rules.cans(signs), values, blank);
  if (plain || found) return plain && { ...plain, before: [] };
  const taken = allSteps(rules, noted.map((can) => new Set(can))), late = noted.map((can) => new Set(can));
  taken.forEach(({ strikes }) => without(late, strikes));
  const trial = tried(rules, late, values, blank);
  if (!trial) return undefined;
  let kept = { trial, before: taken };
  for (const one of [...taken].reverse()) {
    const before = kept.before.filter((other) => other !== one), now = noted.map((can) => new Set(can));
    if (!hold(before, isAway)) continue;
    before.forEach(({ strikes }) => without(now, strikes));
    const wrong = [...now[trial.cell]].filter((value) => value !== values[trial.cell]);
    const again = refuted(rules, now, trial.cell, wrong);
    if (again) kept = { trial: again, before };
  }
  return { ...kept.trial, before: kept.before };
}

// All steps that only take something away.
function allSteps(rules, cans) {
  const taken = [];
  for (let further = rules.further(cans); further.length; further = rules.further(cans)) {
    for (const one of further) {
      taken.push(one);
      without(cans, one.strikes);
    }
  }
  return taken;
}
