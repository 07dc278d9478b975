// Levels of difficulty: what puzzles of each need, and puzzles that need it. The grade is the program's. What one with the grade
// `search n` needs is told by the reasoner: whether its steps lead to the end, and how many cells have to be tried out.
import { LEVEL_OF } from "./grades.js";
import { range, read, scan, written } from "./puzzle.js";

export const LEVELS = ["easy", "medium", "hard"];
const FEW = { solo: 0, pattern: 3, lightup: 0, tents: 0 }; // cells that a medium puzzle has tried out
const LATE = ["clock", "busy"]; // why there is no answer yet
const SECONDS = 3, LAST_SEED = (1n << 64n) - 1n, MAKING_BUDGET = "1000";

// How hard a puzzle is for a player, by its grade and what it needs beyond.
export function levelOf(game, grade, needs) {
  const level = LEVEL_OF[grade?.split(" ")[0]] || "hard", tried = (needs?.trial || 0) + (needs?.guess ? Infinity : 0);
  return level === "hard" && needs && game !== "solo" && tried <= FEW[game] ? "medium" : level;
}

const isHarder = (grade, level) => !grade || LEVELS.indexOf(levelOf("solo", grade)) > LEVELS.indexOf(level);
const isDeduced = (game, level) => level === "easy" || (level === "medium" && game === "solo");

// The grade of a puzzle, and what it needs if no rule set is enough. That is left out if it takes too long to see.
export async function gradeOf(call, reason, { game, id }, solution = undefined) {
  const { verdict, grade, ...fault } = await call("grade", { game, id });
  if (!grade?.startsWith("search")) return { verdict, grade, ...fault };
  const puzzle = read(game, id), grid = solution || (await call("solve", { game, id })).grids?.[0];
  const needs = grid && await reason("needs", puzzle, scan(puzzle, grid));
  return { verdict, grade, needs: needs?.failed ? undefined : needs };
}

// The share of black cells that a Light Up of a size is asked for: with fewer a large one has several solutions.
export function blackOf(game, size) {
  const side = parseInt(size, 10);
  return game === "lightup" ? { black: side < 10 ? "20" : side < 14 ? "25" : side < 30 ? "30" : "35" } : {};
}

// The first puzzle of a level from a seed on, or if no level is wanted the seed's own; so many seeds are tried at a time. It goes
// on until there is one or `isOver` says so; then `next` is the seed from which on none was tried.
export async function make(call, reason, { seed, level, ...asked }, atOnce = 1, isOver = within(SECONDS)) {
  const maker = { call, reason, asked, level };
  let next = BigInt(seed), told;
  do {
    const seeds = range(level ? atOnce : 1, (k) => next + BigInt(k)).filter((one) => one <= LAST_SEED || one === next);
    const all = await Promise.all(seeds.map((one) => made(maker, String(one))));
    told = all.find(({ isOf, refused, failed }) => isOf || refused || (failed && failed !== "clock"));
    next += BigInt(seeds.length);
  } while (!told && level && next <= LAST_SEED && !isOver());
  return told || { verdict: "exhausted", next: String(next) };
}

// Says when so many seconds are over.
export function within(seconds) {
  const end = performance.now() + seconds * 1000;
  return () => performance.now() >= end;
}

// The puzzle of one seed that is known to have the level, the same on each machine: a call that the clock ended is made again.
export function makeKnown(call, reason, { seed, level, ...asked }, isOver = () => false) {
  const patient = async (...words) => {
    for (;;) {
      const told = await call(...words);
      if (!LATE.includes(told.failed) || isOver()) return told;
    }
  };
  return made({ call: patient, reason, asked, level }, seed);
}

// The puzzle of one seed, if there is one, and whether it has the level.
async function made({ call, reason, asked, level }, seed) {
  const { game, size } = asked, isCrossed = game === "solo" && size.endsWith("x"); // whose filling is a search
  const budget = isDeduced(game, level) && !isCrossed ? "0" : MAKING_BUDGET;
  const told = await call("generate", { ...asked, seed, budget });
  if (!told.id || !level) return { ...told, isOf: Boolean(told.id) };
  let { id } = told, { grade, needs, failed } = await gradeOf(call, reason, { game, id }, told.grids[0]);
  if (game === "solo" && isDeduced(game, level) && isHarder(grade, level)) {
    ({ id, grade } = await eased(call, id, told.grids[0], seed, level));
  }
  const isOf = Boolean(grade) && levelOf(game, grade, needs) === level; // without a grade the clock was met
  return { ...told, id, grade, needs, isOf, failed };
}

// A Solo with as few more givens, in a drawn order, as bring it down to a level, and its grade. More givens take no solution
// away that there was, for they are the only solution's; and they make no step impossible.
async function eased(call, text, solution, seed, level) {
  const puzzle = read("solo", text), right = scan(puzzle, solution), draw = drawn(seed);
  const blank = range(puzzle.fixed.length).filter((place) => !puzzle.fixed[place]).map((place) => [draw(), place]);
  const order = blank.sort(([a], [b]) => a - b).map(([, place]) => place);
  let low = 0, high = order.length, best = { id: text };
  while (low <= high) {
    const middle = (low + high) >> 1, put = new Set(order.slice(0, middle));
    const id = written(puzzle.size, puzzle.fixed.map((sign, place) => (put.has(place) ? right[place] : sign)));
    const { grade } = await call("grade", { game: "solo", id });
    if (isHarder(grade, level)) low = middle + 1;
    else [best, high] = [{ id, grade }, middle - 1];
  }
  return best;
}

// Numbers from 0 to 1 that a seed gives (mulberry32).
function drawn(seed) {
  let state = Number(BigInt(seed) % 4294967291n) | 0;
  return () => {
    state = (state + 0x6d2b79f5) | 0;
    let mixed = Math.imul(state ^ (state >>> 15), 1 | state);
    mixed = (mixed + Math.imul(mixed ^ (mixed >>> 7), 61 | mixed)) ^ mixed;
    return ((mixed ^ (mixed >>> 14)) >>> 0) / 4294967296;
  };
}
