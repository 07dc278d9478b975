// The words of hints in English: what stands in the cells, why, and where to look first. `cell` and `cells` have a row and
// a column each.
import { nameOf } from "../hints/names.js";

export const line = (kind, k) => `${kind} ${k}`;
const house = ([kind, k]) => line(kind, k);
export const at = ([row, column]) => `row ${row}, column ${column}`;
const big = (text) => text[0].toUpperCase() + text.slice(1);
export const listed = (words) => (words.length === 1 ? `${words[0]}` : `${words.slice(0, -1).join(", ")} ` +
  `and ${words.at(-1)}`);
export const count = (number, one, many) => `${number} ${number === 1 ? one : many}`;
export const clue = (numbers) => `(${[numbers].flat().join(" ") || 0})`;
export const several = (number) => (number > 1e6 ? "more than a million" : number.toLocaleString("en-US"));

const STANDS = { solo: ["is", "are"], pattern: ["is", "are"], lightup: ["has", "have"],
  tents: ["has", "have"] };
const VALUES = { pattern: ["white", "black"], lightup: ["no bulb", "a bulb"], tents: ["no tent", "a tent"] };
const SIDES = { row: "columns", column: "rows" };

// Cells of a house of Solo: by their columns in a row, by their rows in a column, and else by both.
function places([kind], cells) {
  if (SIDES[kind]) return `${SIDES[kind]} ` +
    `${listed(cells.map(([row, column]) => (kind === "row" ? column : row)))}`;
  return listed(cells.map(([row, column]) => `row ${row} column ${column}`));
}

// The names of steps that players know.
const NAMES = { last: "Last digit", hiddenSingle: "Hidden single", nakedSingle: "Naked single", pointing: "Pointing",
  claiming: "Claiming", nakedPair: "Naked pair", nakedTriple: "Naked triple", nakedQuad: "Naked quad", nakedSet: "Naked set",
  hiddenPair: "Hidden pair", hiddenTriple: "Hidden triple", hiddenQuad: "Hidden quad", hiddenSet: "Hidden set",
  xwing: "X-wing", swordfish: "Swordfish", xywing: "XY-wing", skyscraper: "Skyscraper", kite: "Two-string kite",
  turbot: "Turbot fish", xchain: "X-chain", xychain: "XY-chain", aic: "Alternating chain",
  complete: "Complete", overlap: "Overlap", edge: "Edge", glue: "Glue", reach: "Out of reach" };
const named = (reason) => (NAMES[nameOf(reason)] ? `${NAMES[nameOf(reason)]}: ` : "");

// A link of a chain, in the short form that players know: a candidate that holds, since the one before doesn't, or one that
// doesn't, since the one before holds. r5c9 is row 5, column 9.
const short = ({ cell: [row, column] }) => `r${row}c${column}`;
function link(one, k, chain) {
  if (k % 2 === 0) return `${short(one)} isn’t ${one.number}`;
  const isSame = short(chain[k - 1]) === short(one);
  return `${short(one)} is ${one.number}${isSame ? "" : ` (only place in ${house(one.by)})`}`;
}

// Why a step holds.
const REASONS = {
  last: ({ house: of }) => `It is the last cell of ${house(of)}.`,
  single: () => "No other number is left for it.",
  place: ({ house: of, number }) => `In ${house(of)}, ${number} fits in no other cell.`,
  crossing: ({ house: of, other, number }) =>
    `In ${house(of)}, ${number} fits in ${house(other)} alone, so it stands nowhere else in ${house(other)}.`,
  naked: ({ house: of, cells, numbers }) =>
    `In ${house(of)}, ${places(of, cells)} can only be ${listed(numbers)}, so ${listed(numbers)} stand ` +
      `nowhere else in ${house(of)}.`,
  hidden: ({ house: of, cells, numbers }) =>
    `In ${house(of)}, ${listed(numbers)} fit only at ${places(of, cells)}, so nothing else stands there.`,
  diagonal: (of) => REASONS.crossing(of),
  seen: ({ house: of, number, cells, targets }) =>
    `In ${house(of)}, ${number} fits only at ${places(of, cells)}, so it doesn’t stand at ` +
      `${places(["cell"], targets)}, which ${targets.length === 1 ? "sees" : "see"} all of these.`,
  xwing: ({ number, lines, others }) =>
    `In ${listed(lines.map(house))}, ${number} fits in ${listed(others.map(house))} alone, so it ` +
      `stands nowhere else in these.`,
  swordfish: ({ number, lines, others }) =>
    `In ${listed(lines.map(house))}, ${number} fits in ${listed(others.map(house))} alone, so it ` +
      `stands nowhere else in these.`,
  xywing: ({ pivot, wings, number }) =>
    `Whichever number ${at(pivot)} has, ${at(wings[0])} or ${at(wings[1])} is ${number}, so no ` +
      `cell that sees both is ${number}.`,
  chain: ({ chain, struck }) =>
    `If ${chain.map(link).join(", ")}. Either way ${listed(struck.map((one) => `${short(one)} isn’t ${one.number}`))}.`,
  laid: ({ house: of, clue: numbers, ways }) =>
    `${big(house(of))} ${clue(numbers)}: its runs can be laid in ${ways === 1 ? "one way alone."
    : `${several(ways)} ways, and these cells are alike in all of them.`}`,
  hasBulbs: ({ number, cell }) => `The ${number} at ${at(cell)} has its bulbs.`,
  needsBulbs: ({ number, cell, count: left }) =>
    `The ${number} at ${at(cell)} needs a bulb in ${left === 1 ? "the one cell left" : "each cell left"}.`,
  lit: () => "A bulb lights these cells.",
  oneLight: ({ cell }) => `The cell at ${at(cell)} has to be lit, and one cell alone is left for it.`,
  tooFew: ({ cell, broken }) => `With a bulb at ${at(cell)}, ${BREAKS[broken.kind](broken)}.`,
  oneTent: ({ cell }) => `The tree at ${at(cell)} has one cell left for its tent.`,
  hasTents: ({ house: of, clue: number }) => `${big(house(of))} ${clue(number)} has all its tents.`,
  needsTents: ({ house: of, clue: number, count: left }) =>
    `${big(house(of))} ${clue(number)} needs a tent in ${left === 1 ? "the one cell left" : "each cell left"}.`,
  touch: () => "Tents may not touch.",
  placed: ({ house: of, clue: number, ways }) =>
    `${big(house(of))} ${clue(number)}: its tents can be put in ${ways === 1 ? "one way alone."
    : `${ways} ways, and that is so in all of them.`}`,
  trial: ({ cases }, game) => `Tried out: ` +
    `${cases.map(({ value, broken }) => `with ${game === "solo" ? value : VALUES[game][value]} there, ` +
    `${BREAKS[broken.kind](broken)}`).join("; ")}.`,
};

export const why = (reason, game) => `${named(reason)}${REASONS[reason.kind](reason, game)}`;

// What breaks, if a cell has another value.
const BREAKS = {
  none: ({ cell }) => `${at(cell)} has no number left`,
  noPlace: ({ house: of, number }) => `${house(of)} has no place for ${number}`,
  runs: ({ house: of }) => `${house(of)} can’t hold its runs`,
  bulbs: ({ number, cell, isTooMuch }) =>
    `the ${number} at ${at(cell)} has too ${isTooMuch ? "many bulbs" : "few cells left"}`,
  dark: ({ cell }) => `nothing can light the cell at ${at(cell)}`,
  seen: ({ house: of }) => `two bulbs see each other in ${house(of)}`,
  tree: ({ cell }) => `the tree at ${at(cell)} has no cell for its tent`,
  tents: ({ house: of, clue: number, isTooMuch }) =>
    `${house(of)} ${clue(number)} has too ${isTooMuch ? "many tents" : "few cells left"}`,
  touching: ({ cell }) => `two tents touch at ${at(cell)}`,
};

// Where to look, before the cell is told.
export const LOOKS = {
  single: ({ house: of }) => `Look at ${house(of)}: one of its cells has a single number left.`,
  place: ({ house: of }) => `Look at ${house(of)}: a number has a single place left.`,
  last: ({ house: of }) => `Look at ${house(of)}: a single cell is left.`,
  crossing: ({ house: of, other }) =>
    `Look at ${house(of)} where it crosses ${house(other)}: a number fits there alone.`,
  diagonal: (look) => LOOKS.crossing(look),
  seen: ({ house: of }) => `Look at ${house(of)}: a number fits in few cells, and others see them all.`,
  naked: ({ house: of, cells }) => `Look at ${house(of)}: ${cells.length} cells share ${cells.length} numbers.`,
  hidden: ({ house: of, cells }) =>
    `Look at ${house(of)}: ${cells.length} numbers share ${cells.length} cells.`,
  xwing: ({ number }) => `Look for an X-wing on ${number}: two lines have it in the same two places.`,
  swordfish: ({ number }) => `Look for a swordfish on ${number}: three lines have it in the same three places.`,
  xywing: ({ pivot }) =>
    `Look for an XY-wing: three cells with two numbers each, the middle one at ${at(pivot)}.`,
  chain: ({ chain: [{ cell, number }] }) => `Follow a chain: what if ${at(cell)} isn’t ${number}?`,
  laid: ({ house: of }) => `Look at ${house(of)}: some of its cells are alike in each way to lay its runs.`,
  tooFew: () => "Look at the marked cells: a bulb beside them would leave too few of them.",
  oneLight: () => "Look at the marked cells: one of them has to be lit.",
  placed: ({ house: of }) => `Look at ${house(of)}, and at each way to put its tents.`,
  needsTents: ({ house: of }) => `Look at ${house(of)}, and count the cells that are left.`,
  hasTents: ({ house: of }) => `Look at ${house(of)}, and count its tents.`,
  oneTent: ({ cell }) => `Look at the tree at ${at(cell)}.`,
  needsBulbs: ({ number, cell }) => `Look at the ${number} at ${at(cell)}, and count the cells that are left.`,
  hasBulbs: ({ number, cell }) => `Look at the ${number} at ${at(cell)}, and count its bulbs.`,
  trial: () => "No single step leads on. Try out the marked cell: one of its values breaks a rule soon.",
};

export const NEEDS = { diagonal: ["step along a diagonal", "steps along a diagonal"],
  seen: ["cell that sees all places", "cells that see all places"], crossing: ["block against a line", "blocks against lines"],
naked: ["set of numbers", "sets of numbers"],
  hidden: ["set of places", "sets of places"], xwing: ["X-wing", "X-wings"],
  swordfish: ["swordfish", "swordfishes"],
  xywing: ["XY-wing", "XY-wings"], chain: ["chain", "chains"],
  tooFew: ["step one bulb ahead", "steps one bulb ahead"],
  placed: ["line seen in all its ways", "lines seen in all their ways"], trial: ["cell tried out", "cells tried out"],
  guess: ["cell that only a longer search finds", "cells that only a longer search finds"] };

// What stands in some cells, in sentences.
function stands(cells, values, game) {
  const [one, many] = STANDS[game], name = (value) => (game === "solo" ? value : VALUES[game][value]);
  const kinds = [...new Set(values)].sort((a, b) => b - a).map((value) => cells.filter((_, k) => values[k] === value));
  const told = kinds.map((some) => (some.length === 1 ? `${at(some[0])} ${one}` : `${some.length} cells ${many}`));
  return told.map((text, k) => `${text} ${name(values[cells.indexOf(kinds[k][0])])}`);
}

// What stands in the cells of a hint, and why. The name of its step is its head.
export function hint({ kind: of, cells, values, reasons, more }, game) {
  if (of === "wrong") return `${big(at(cells[0]))} is ` +
    `wrong.${more ? ` ${count(more, "more is", "more are")} wrong.` : ""}`;
  const guess = of === "guess" ? ["No step that the page knows shows it: it is found by trying."] : [];
  const [head = ""] = reasons.slice(-1).map(named), told = stands(cells, values, game).map((text) => `${big(text)}.`);
  return head + [...told, ...reasons.slice(-1).map((reason) => REASONS[reason.kind](reason, game)), ...guess].join(" ");
}

// A cell that is tried out, what follows from it, and what breaks in the end.
const first = (cell, value, game) => stands([cell], [value], game)[0];
export const suppose = (cell, value, game) => `Suppose ${first(cell, value, game)}.`;
export const follows = (cells, values, reason, game) =>
  `Then ${listed(stands(cells, values, game))}. ${REASONS[reason.kind](reason, game)}`;
export const breaks = (broken, cell, value, game) => `But then ${BREAKS[broken.kind](broken)}. So it isn’t true that ` +
  `${first(cell, value, game)}.`;
