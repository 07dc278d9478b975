// What each hint has to be, seen anew: the rules of Solo and the counts of the other games are read here by their definitions,
// and none of the reasoner's own findings is taken over. For hints.test.mjs. Each check gives texts of what is wrong.
import { nameOf } from "../../../page/web/hints/names.js";
import { presses } from "../../../page/web/presses.js";
import { around, beside, blocksOf, columnsOf, diagonalsOf, isNumber, range, rowsOf,
  stretches } from "../../../page/web/puzzle.js";

const LONGEST = 800; // characters of one press
const RANK = { last: 0, place: 3, single: 2 };

// The houses of Solo by their names, and who sees whom.
export function housesOf(puzzle) {
  const named = { row: rowsOf(puzzle), column: columnsOf(puzzle), block: blocksOf(puzzle), diagonal: diagonalsOf(puzzle) };
  const all = Object.entries(named).flatMap(([kind, lines]) => lines.map((cells, k) => ({ kind, k: k + 1, cells })));
  return { all, cells: ([kind, k]) => named[kind][k - 1], sees: (a, b) => a !== b
    && all.some(({ cells }) => cells.includes(a) && cells.includes(b)) };
}

// The numbers that no filled cell bars, cell by cell.
export function seen(puzzle, houses, signs) {
  const numbers = range(puzzle.w, (k) => k + 1);
  return signs.map((sign, cell) => {
    if (sign !== ".") return new Set([Number(sign)]);
    const near = new Set(houses.all.filter(({ cells }) => cells.includes(cell)).flatMap(({ cells }) =>
      cells.map((at) => signs[at])));
    return new Set(numbers.filter((number) => !near.has(String(number))));
  });
}

// Whether a step of Solo holds for these candidates: by its kind, from what it names.
export function holds(puzzle, houses, cans, signs, { why, struck, cells = [] }) {
  const places = (name, number) => houses.cells(name).filter((cell) => cans[cell].has(number));
  const seeAll = (from) => struck.every(([cell]) => from.every((at) => houses.sees(cell, at)));
  const one = (number) => struck.every(([, each]) => each === number);
  const KINDS = {
    last: () => houses.cells(why.house).filter((cell) => signs[cell] === ".").join() === cells.join(),
    place: () => places(why.house, why.number).join() === cells.join(),
    single: () => cells.length === 1 && cans[cells[0]].size === 1,
    crossing: () => one(why.number) && places(why.house, why.number).every((cell) => houses.cells(why.other).includes(cell))
      && struck.every(([cell]) => houses.cells(why.other).includes(cell) && !houses.cells(why.house).includes(cell)),
    diagonal: () => KINDS.crossing(),
    seen: () => one(why.number) && seeAll(places(why.house, why.number)),
    naked: () => new Set(why.cells.flatMap((cell) => [...cans[cell]])).size === why.cells.length
      && struck.every(([cell, number]) => why.numbers.includes(number) && houses.cells(why.house).includes(cell)
        && !why.cells.includes(cell)),
    hidden: () => why.numbers.length === why.cells.length
      && why.numbers.every((number) => places(why.house, number).every((cell) => why.cells.includes(cell)))
      && struck.every(([cell, number]) => why.cells.includes(cell) && !why.numbers.includes(number)),
    xwing: () => one(why.number) && why.lines.length === why.others.length
      && why.lines.every((line) => places(line, why.number).every((cell) => why.others.some((other) =>
        houses.cells(other).includes(cell))))
      && struck.every(([cell]) => why.others.some((other) => houses.cells(other).includes(cell))
        && !why.lines.some((line) => houses.cells(line).includes(cell))),
    swordfish: () => KINDS.xwing(),
    xywing: () => one(why.number) && cans[why.pivot].size === 2 && why.wings.every((wing) => houses.sees(wing, why.pivot))
      && [...cans[why.pivot]].every((number) => why.wings.some((wing) => [...cans[wing]].every((each) => [number,
        why.number].includes(each))))
      && seeAll(why.wings),
    chain: () => linked(houses, cans, why.chain) && why.struck.every((each) =>
      [why.chain[0], why.chain.at(-1)].every((end) => bars(houses, end, each))),
  };
  return Boolean(KINDS[why.kind]?.());
}

const bars = (houses, a, b) => (a.cell === b.cell ? a.number !== b.number : a.number === b.number && houses.sees(a.cell, b.cell));

// Of each two candidates in a row one holds if the other doesn't, and doesn't if the other holds, in turn.
function linked(houses, cans, chain) {
  return chain.every((next, k) => {
    const before = chain[k - 1];
    if (!before) return true;
    if (k % 2 === 0) return bars(houses, before, next);
    const isOnly = (cells) => cells.filter((cell) => cans[cell].has(next.number)).length === 2;
    return before.cell === next.cell ? cans[next.cell].size === 2
      : houses.all.some(({ cells }) => cells.includes(before.cell) && cells.includes(next.cell) && isOnly(cells));
  });
}

// All steps of a hint of Solo in order, and again with each of them left out: then one that comes later must not hold.
export function checkSolo(puzzle, signs, told, values) {
  const houses = housesOf(puzzle), fresh = seen(puzzle, houses, signs);
  const steps = told.steps.map((step, k) => (k === told.steps.length - 1 ? { ...step, cells: told.cells } : step));
  const replay = (left) => {
    const cans = fresh.map((can) => new Set(can));
    return steps.filter((_, k) => k !== left).every((step) => {
      const isGood = step.why.kind === "trial" ? false : holds(puzzle, houses, cans, signs, step);
      step.struck.forEach(([cell, number]) => cans[cell].delete(number));
      return isGood;
    });
  };
  const faults = [];
  if (told.kind === "step" && !replay(-1)) faults.push("a step doesn't hold");
  if (told.kind === "step") steps.slice(0, -1).forEach((step, k) => replay(k) && faults.push(`step ${k + 1} isn't needed`));
  const isStruck = steps.some(({ struck }) => struck.some(([cell, number]) => values[cell] === number));
  if (isStruck) faults.push("the solution is struck");
  return [...faults, ...simplest(houses, fresh, signs, told), ...witnessed(houses, signs, steps)];
}

// If one step is enough one is told, and of these the simplest kind.
function simplest(houses, cans, signs, told) {
  const blank = (cell) => signs[cell] === ".", ranks = [];
  for (const { kind, cells } of houses.all) {
    if (cells.filter(blank).length === 1) ranks.push(0);
    for (const number of new Set(cells.flatMap((cell) => [...cans[cell]]))) {
      const places = cells.filter((cell) => cans[cell].has(number));
      if (places.length === 1 && blank(places[0])) ranks.push(kind === "block" ? 1 : 3);
    }
  }
  if (cans.some((can, cell) => blank(cell) && can.size === 1)) ranks.push(2);
  if (!ranks.length) return [];
  const { why } = told.steps.at(-1) || {}, rank = why?.kind === "place" && why.house[0] === "block" ? 1 : RANK[why?.kind] ?? 9;
  const least = Math.min(...ranks), count = told.steps.length;
  return count === 1 && rank === least ? [] : [`rank ${rank} of ${count} steps, and ${least} is there`];
}

// What bars the others: filled cells, of which each sees a blank one, and in a first step all are seen.
function witnessed(houses, signs, steps) {
  return steps.flatMap(({ why, witness, cells = [] }, k) => {
    if (witness.some((cell) => signs[cell] === ".")) return ["a blank cell as a witness"];
    if (k || why.kind !== "place" || steps.length > 1) return [];
    const others = houses.cells(why.house).filter((cell) => signs[cell] === "." && !cells.includes(cell));
    const isSeen = (cell) => witness.some((at) => Number(signs[at]) === why.number && houses.sees(at, cell));
    return others.every(isSeen) ? [] : ["a cell that nothing bars"];
  });
}

// Of each game: one step at each press, none of them long, each with its words; the steps' names where players have some.
export function checkPresses(words, puzzle, told) {
  const all = presses(words, puzzle, told), count = told.steps.length;
  const tried = (told.cases || []).reduce((sum, { path }) => sum + path.length + 1, 0);
  const isPoor = (text) => text.length > LONGEST || /undefined|NaN|\[object/.test(text);
  const faults = all.filter(({ text }) => isPoor(text)).map(({ text }) => `words: ${text}`);
  const isStep = ["step", "trial"].includes(told.kind);
  if (isStep && all.length !== 1 + count + tried) faults.push(`${all.length} presses for ${count} steps`);
  for (const { text, marked, house, shown } of all.slice(1)) {
    if (!marked.length || (!house.length && !shown.length)) faults.push(`nothing is lit: ${text}`);
  }
  const named = told.steps.filter(({ why }) => puzzle.block && why.kind !== "trial");
  return [...faults, ...named.filter(({ why }) => !nameOf(why)).map(({ why }) => `${why.kind} has no name`)];
}

// What follows from a value that is tried out: each cell by the rules of its game, from those before alone.
export function checkTrial(puzzle, signs, told) {
  return (told.cases || []).flatMap(({ path, value }) => {
    const [first] = path, faults = [];
    if (first.cells.join() !== told.cells.join() || first.values[0] !== value) faults.push("another cell is tried out");
    if (value === told.values[0]) faults.push("the right value is tried out");
    const put = path.flatMap(({ cells }) => cells);
    if (new Set(put).size !== put.length || put.some((cell) => signs[cell] !== ".")) faults.push("a cell follows twice");
    return faults;
  });
}

// A house of Light Up or Tents that decides a cell by itself is told before one that looks further.
export function looksNear(puzzle, signs, told) {
  const kind = told.steps.at(-1)?.why.kind;
  if (!["tooFew", "placed", "trial"].includes(kind) && told.kind !== "guess") return [];
  const found = { lightup: full, tents: counted }[puzzle.game]?.(puzzle, signs) || [];
  return found.length ? [`${kind}, and ${found[0]} decides a cell`] : [];
}

// Numbers of Light Up that have all their bulbs or need each cell left. A lit cell holds no bulb.
function full(puzzle, signs) {
  const isLit = litBy(puzzle, signs);
  return range(signs.length).filter((cell) => isNumber(puzzle.fixed[cell])).filter((cell) => {
    const near = beside(puzzle, cell).filter((at) => !puzzle.fixed[at]), bulbs = near.filter((at) => signs[at] === "O").length;
    const open = near.filter((at) => signs[at] === "." && !isLit.has(at)).length, number = Number(puzzle.fixed[cell]);
    return open && (bulbs === number || bulbs + open === number);
  });
}

function litBy(puzzle, signs) {
  const runs = [...rowsOf(puzzle), ...columnsOf(puzzle)].flatMap((line) => stretches(puzzle, line));
  return new Set(runs.filter((run) => run.some((cell) => signs[cell] === "O")).flat());
}

// Lines of Tents that have all their tents or need each cell left. Beside a tent there is none, and away from trees neither.
function counted(puzzle, signs) {
  const isOpen = (cell) => signs[cell] === "." && beside(puzzle, cell).some((at) => puzzle.fixed[at] === "T")
    && !around(puzzle, cell).some((at) => signs[at] === "^");
  const lines = [...columnsOf(puzzle), ...rowsOf(puzzle)], clues = [...puzzle.columns, ...puzzle.rows];
  return lines.flatMap((cells, k) => {
    const tents = cells.filter((cell) => signs[cell] === "^").length, open = cells.filter(isOpen).length, [clue] = clues[k];
    return open && (tents === clue || tents + open === clue) ? [`line ${k}`] : [];
  });
}
