// Links of other players' pages: sudokus of f-puzzles (and SudokuPad, which takes them), sudokus and akari of puzz.link.
import { written } from "./puzzle.js";

const KEYS = "ABCDEFGHIJKLMNOPQRSTUVWXYZabcdefghijklmnopqrstuvwxyz0123456789+/=";
const SIZES = { 4: "2x2", 6: "2x3", 9: "3x3", 16: "4x4" };
const PLAIN = ["size", "title", "author", "ruleset", "grid", "solution", "highlightConflicts", "successMessage", "metadata",
  "diagonal+", "diagonal-"]; // what doesn't change the rules, and the two diagonals

const parsed = (text) => { try { return JSON.parse(text); } catch { return undefined; } };

// What LZ-string packed, in its form of base 64; nothing if it can't be.
export function unpacked(text) {
  let at = 0, left = 0, value = 0;
  const bits = (count) => {
    let got = 0;
    for (let k = 0; k < count; k += 1) {
      if (!left) [value, left, at] = [KEYS.indexOf(text[at]), 6, at + 1];
      left -= 1;
      got += ((value >> left) & 1) * 2 ** k;
    }
    return got;
  };
  const known = [undefined, undefined, undefined], letter = (kind) => String.fromCharCode(bits(kind ? 16 : 8));
  let [width, room] = [3, 4], before = "", told = "";
  const add = (entry) => {
    known.push(entry);
    room -= 1;
    if (!room) [room, width] = [2 ** width, width + 1];
  };
  const first = bits(2);
  if (first > 1) return first === 2 ? "" : undefined;
  before = told = letter(first);
  known.push(before);
  while (at <= text.length) {
    let code = bits(width);
    if (code === 2) return told;
    if (code < 2) {
      add(letter(code));
      code = known.length - 1;
    }
    const entry = known[code] ?? (code === known.length ? before + before[0] : undefined);
    if (entry === undefined) return undefined;
    told += entry;
    add(before + entry[0]);
    before = entry;
  }
  return undefined;
}

function fPuzzle(text) {
  const found = parsed(unpacked(text.replaceAll(" ", "+")) || ""), { size, grid } = found || {};
  if (!SIZES[size] || grid?.flat?.().length !== size * size) return undefined;
  const isRegion = grid.flat().some((cell) => cell?.region !== undefined), both = [found["diagonal+"], found["diagonal-"]];
  const others = Object.keys(found).filter((key) => !PLAIN.includes(key) && [found[key]].flat().some(Boolean));
  if (others.length || isRegion || Boolean(both[0]) !== Boolean(both[1])) return { isVariant: true };
  const givens = grid.flat().map((cell) => (cell?.given && cell.value ? String(cell.value) : ""));
  return { game: "solo", id: written(`${SIZES[size]}${both[0] ? "x" : ""}`, givens) };
}

// The cells of a text of puzz.link: a letter from g on is a run of blank ones.
function cellsOf(text, count, numbered) {
  const cells = [];
  for (let k = 0; k < text.length; k += 1) {
    const value = parseInt(text[k], 36);
    if (value > 15) cells.push(...Array(value - 15).fill(""));
    else k += numbered(cells, text, k);
  }
  return cells.length >= count ? cells.slice(0, count) : [...cells, ...Array(count - cells.length).fill("")];
}

function puzzLink(kind, wide, high, text) {
  const count = wide * high;
  if (kind === "sudoku" && SIZES[wide] && wide === high) {
    const cells = cellsOf(text, count, (all, body, k) => {
      const isLong = body[k] === "-", number = parseInt(isLong ? body.slice(k + 1, k + 3) : body[k], 16);
      all.push(number ? String(number) : "");
      return isLong ? 2 : 0;
    });
    return { game: "solo", id: written(SIZES[wide], cells) };
  }
  if (!["akari", "lightup"].includes(kind) || !count) return undefined;
  const cells = cellsOf(text, count, (all, body, k) => {
    const value = parseInt(body[k], 16);
    all.push(...(body[k] === "." ? ["B"] : [String(value % 5), ...Array(Math.floor(value / 5)).fill("")]));
    return 0;
  });
  const runs = cells.map((cell) => cell || " ").join("").replace(/ {1,26}/g, (run) => String.fromCharCode(96 + run.length));
  return { game: "lightup", id: `${wide}x${high}:${runs}` };
}

// The game and the ID that a link names, or that it is of a variant that isn't here; nothing if it is none of these links.
export function linked(text) {
  const load = text.match(/[?&]load=([A-Za-z0-9+/= %]+)/)?.[1];
  if (load) return fPuzzle(decodeURIComponent(load));
  const [, kind, wide, high, body] = text.match(/\bp(?:\.html)?\?([a-z]+)\/(\d{1,2})\/(\d{1,2})\/([0-9a-z.\-]*)/) || [];
  return kind && puzzLink(kind, Number(wide), Number(high), body);
}
