// What a player means by a text: a link, also of other pages, a sudoku of so many characters as it has cells, or an ID.
import { isGame } from "./games.js";
import { linked } from "./links.js";
import { written } from "./puzzle.js";

const LONGEST = 30; // characters of a game's name that are told

export const plain = (text) => { try { return decodeURIComponent(text); } catch { return text; } };
export const parts = (name) => name.match(/^(\w*)\/(.*)$/s) || [name, "", name];

// Sudokus in a line: "." and "0", "_" and "*" are blank, and a letter is a number from 10 on.
const SUDOKUS = { 16: "2x2", 36: "2x3", 81: "3x3", 256: "4x4" };
const numberOf = (sign) => (/[.0_*]/.test(sign) ? "" : String(parseInt(sign, 36)));

// A game and its ID, which is of the game that is chosen if the text names none. Or else a fault by its name: a variant, a drawing
// of penpa, which tells no rules, a link of no game, or a game that isn't here, with what it is called.
export function meant(text, game) {
  const [, named, id] = parts(plain(text.match(/(?:^|#)([a-z]+(\/|%2F).*)$/is)?.[1] || ""));
  const cells = text.replace(/\s/g, ""), other = linked(text), isLink = /^https?:/i.test(text);
  if (isGame(named)) return { game: named, text: id.trim() };
  if (other) return other.isVariant ? { fault: "variant" } : { game: other.game, text: other.id };
  if (/^[\w.*]+$/.test(cells) && SUDOKUS[cells.length]) {
    return { game: "solo", text: written(SUDOKUS[cells.length], [...cells].map(numberOf)) };
  }
  if (isLink && /\bpenpa/i.test(text)) return { fault: "drawing" };
  const called = named || text.match(/\bp(?:\.html)?\?([a-z]+)\//)?.[1];
  if (called) return { fault: "unknown", called: called.slice(0, LONGEST) };
  return isLink ? { fault: "link" } : { game, text };
}
