// A hint as it is told, one step at each press of its button: first where to look, then each step with its house, what it strikes
// and what bars the others, and at last the cells. Of a cell that is tried out each cell that follows is a step.
import { worded } from "./worded.js";

const marks = (cells, why) => cells.map((cell) => [cell, why]);

// What a hint shows of its steps, press by press: `text` and `note`, and what is pointed out on the board. `strikes` are
// candidates that are away from the next press on.
export function presses(words, puzzle, told) {
  const { kind, steps, sign, look } = told, signOf = (value) => (puzzle.block ? String(value) : value ? sign : "•");
  if (!steps.length) return [last(words, puzzle, told, signOf)];
  const before = steps.slice(0, -1), cases = kind === "trial" ? told.cases : [];
  const tried = cases.flatMap((one) => followed(words, puzzle, told, one, signOf)), count = before.length + tried.length;
  const all = [...before.map((step) => shown(words, puzzle, step)), ...tried].map(({ text, ...more }, k) =>
    ({ ...more, text: words.step(k + 1, count + 1, text), note: k + 1 < count ? words.said.nextStep : words.said.hintMore }));
  const more = count ? words.stepsMore(count + 1) : words.said.hintMore;
  const first = { text: words.look(worded(puzzle, look.why)), note: more, house: look.house, marked: [], shown: [] };
  const end = last(words, puzzle, told, signOf);
  return [first, ...all, count ? { ...end, text: words.step(count + 1, count + 1, end.text) } : end];
}

// A step that only takes numbers away.
function shown(words, puzzle, { why, house, struck, witness, isNoted }) {
  const byCell = new Map();
  for (const [cell, number] of struck) byCell.set(cell, [...(byCell.get(cell) || []), number]);
  const text = words.why(worded(puzzle, why), puzzle.game) + (isNoted ? ` ${words.said.byNotes}` : "");
  const marked = marks([...byCell.keys()], "struck");
  return { text, house, witness, marked, struck: [...byCell], shown: ghosts(why), strikes: struck };
}

// The numbers that hold along a chain.
const ghosts = ({ kind, chain }) =>
  (kind === "chain" ? chain.filter((_, k) => k % 2).map(({ cell, number }) => [cell, String(number)]) : []);

// What follows from a value that is tried out, cell by cell, and what breaks.
function followed(words, puzzle, { cells: [cell] }, { value, broken, path, at }, signOf) {
  const { game } = puzzle, put = [], place = worded(puzzle, { cell }).cell;
  const entries = path.map(({ cells, values, why }) => {
    put.push(...cells.map((one, k) => [one, signOf(values[k])]));
    const parts = worded(puzzle, { cells, why });
    const text = why.kind === "tried" ? words.suppose(place, value, game) : words.follows(parts.cells, values, parts.why, game);
    return { text, house: [], marked: [[cell, "tried"], ...marks(cells.filter((one) => one !== cell), "then")], shown: [...put] };
  });
  const end = words.breaks(worded(puzzle, broken), place, value, game);
  return [...entries, { text: end, house: at, marked: [[cell, "tried"]], shown: [...put] }];
}

// The cells that the hint is about, with what stands there.
function last(words, puzzle, { kind, cells, values = [], steps, more }, signOf) {
  const isWrong = kind === "wrong", { house = [], witness = [], isNoted } = steps.at(-1) || {};
  const told = { kind, cells, values, more, reasons: steps.map(({ why }) => why) };
  const text = words.hint(worded(puzzle, told), puzzle.game) + (isNoted ? ` ${words.said.byNotes}` : "");
  return { text, note: words.because[kind], isWrong, isLast: true, house, witness, focus: cells[0],
    marked: marks(cells, isWrong ? "wrong" : "hint"), shown: values.map((value, k) => [cells[k], signOf(value)]) };
}
