// Puzzles without a page: an ID as cells and clues, the printed form of a grid, and its lines.
// An ID is read here only after the program has taken it, so no fault is looked for.
//
// A state has a sign for each cell, as in a printed grid: "." for blank, "•" for a visitor's mark
// "none here", and "'1 4" for the notes 1 and 4. A puzzle has `fixed`: the sign of each cell that
// the puzzle itself fills, and "" of the others.

const blanks = (letter) => Array(letter.charCodeAt(0) - 96).fill("");
const CELLS = { // what a piece of a description says of its cells
  solo: (piece) => (/\d/.test(piece) ? String(Number(piece)) : blanks(piece)),
  pattern: () => [],
  lightup: (piece) => (/[a-z]/.test(piece) ? blanks(piece) : piece.replace("B", "#")),
  tents: (piece) => (piece === "z" ? blanks("y") : piece === "_" ? "T" : [...blanks(piece), "T"]),
};

export const range = (count, of = (k) => k) => Array.from({ length: count }, (_, k) => of(k));

export function read(game, text) {
  const [, first, second = first, crossed, description] = text.match(/^(\d+)(?:x(\d+))?(x?):(.*)$/);
  const a = Number(first), b = Number(second), solo = game === "solo";
  const [w, h] = solo ? [a * b, a * b] : [a, b], [cells, ...counts] = description.split(",");
  const shown = (cells.match(solo ? /[a-z]|\d+/g : /./g) || []).flatMap(CELLS[game]);
  const fixed = range(w * h, (place) => shown[place] || ""); // Tents has a tree after the last cell
  const numbers = (clue) => (clue.match(/\d+/g) || []).map(Number);
  const clues = (game === "pattern" ? cells.split("/") : counts).map(numbers);
  return { game, size: `${a}x${b}${crossed}`, w, h, fixed, crossed, columns: clues.slice(0, w),
    rows: clues.slice(w), block: solo && { w: b, h: a } };
}

// The ID of a Solo of a size with these givens.
export function written(size, givens) {
  let text = "", blank = 0;
  const letter = (count) => String.fromCharCode(97 + ((count - 1) % 26));
  const run = () => (blank ? "z".repeat(Math.floor((blank - 1) / 26)) + letter(blank) : "");
  for (const sign of givens) {
    if (sign) text += run() + (text && !blank ? "_" : "") + sign;
    blank = sign ? 0 : blank + 1;
  }
  return `${size}:${text}${run()}`;
}

export const rowsOf = (p) => range(p.h, (y) => range(p.w, (x) => y * p.w + x));
export const columnsOf = (p) => range(p.w, (x) => range(p.h, (y) => y * p.w + x));
export const diagonalsOf = (p) =>
  (p.crossed ? [range(p.w, (k) => k * p.w + k), range(p.w, (k) => k * p.w + p.w - 1 - k)] : []);

export function blocksOf(p) {
  if (!p.block) return [];
  const { w, h } = p.block, across = p.w / w;
  const corner = (k) => Math.floor(k / across) * h * p.w + (k % across) * w;
  return range(p.w, (k) => range(p.w, (c) => corner(k) + Math.floor(c / w) * p.w + (c % w)));
}

// The stretches of a line between cells that the puzzle fills.
export function stretches(p, line) {
  const found = [[]];
  for (const place of line) {
    if (p.fixed[place]) found.push([]);
    else found.at(-1).push(place);
  }
  return found.filter((cells) => cells.length);
}

const near = (p, place, steps) => {
  const x = place % p.w, y = Math.floor(place / p.w);
  return steps.map(([a, b]) => [x + a, y + b])
    .filter(([a, b]) => a >= 0 && a < p.w && b >= 0 && b < p.h).map(([a, b]) => b * p.w + a);
};
const SIDES = [[0, -1], [-1, 0], [1, 0], [0, 1]], CORNERS = [[-1, -1], [1, -1], [-1, 1], [1, 1]];
export const beside = (p, place) => near(p, place, SIDES);
export const around = (p, place) => near(p, place, [...SIDES, ...CORNERS]);

export const start = (p) => p.fixed.map((sign) => sign || ".");
export const isFilled = (sign) => sign[0] !== "." && sign[0] !== "'";
// The numbers of a cell's notes, if it has some.
export const noted = (sign) => (sign[0] === "'" ? sign.slice(1).split(" ").map(Number) : undefined);
export const isNumber = (sign) => sign >= "0" && sign < ":";

export const scan = (p, rows) => rows.flatMap((row) => row.split(p.block ? " " : ""));
export function print(p, state) {
  const sign = (place) => (isFilled(state[place]) ? state[place].replace("•", ".") : ".");
  return rowsOf(p).map((line) => line.map(sign).join(p.block ? " " : "") + "\n").join("");
}

// The cells that the text of a broken rule names.
export function places(p, fault) {
  const [kind, where = ""] = fault.split(" "), [x, y] = where.split(",").map(Number);
  const houses = { row: rowsOf, column: columnsOf, diagonal: diagonalsOf, block: blocksOf }[kind];
  return houses ? houses(p)[x] : where ? [y * p.w + x] : [];
}

// The kind of a refused ID, without its place.
export const kindOf = (why) => why.replace(/ (at )?\d.*/, "");
