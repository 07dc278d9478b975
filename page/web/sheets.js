// How a board is put on paper, so that each cell has 5 mm at least.
import { range } from "./puzzle.js";

const WIDTH = 176, HEIGHT = 225, LEAST = 5; // millimetres that every usual paper has, and of a cell

// What the clues of rows are wide and those of columns are tall at most, in cells.
const most = (lists, of) => (lists.length ? Math.max(1, ...lists.map((list) => list.reduce((sum, n) => sum + of(n), 0.4))) : 0);
export const beside = ({ rows }) => most(rows, (number) => 0.15 + 0.28 * String(number).length);
export const above = ({ columns }) => most(columns, () => 0.54);

// Ranges of lines, as few and as equal as have room, each of so many cells at most.
export function ranges(count, most) {
  const parts = Math.ceil(count / Math.max(1, Math.floor(most))), size = Math.ceil(count / parts);
  return range(parts, (k) => [k * size, Math.min(count, (k + 1) * size)]).filter(([from, to]) => from < to);
}

// How a board is put on paper: as it stands, turned, or over sheets, each a range of columns and one of rows.
export function layout(puzzle, [width, height] = [WIDTH, HEIGHT]) {
  const { w, h } = puzzle, wide = w + beside(puzzle), tall = h + above(puzzle);
  if (Math.min(width / wide, height / tall) >= LEAST) return { kind: "whole" };
  const turned = Math.min(width / tall, height / wide);
  if (turned >= LEAST) return { kind: "turned", cell: turned, length: turned * wide };
  const xs = ranges(w, width / LEAST - beside(puzzle)), ys = ranges(h, height / LEAST - above(puzzle));
  return { kind: "sheets", sheets: ys.flatMap((y) => xs.map((x) => ({ x, y }))) };
}
