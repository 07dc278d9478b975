// The cells of Solo that bar the others: of filled cells with a number as few as see all cells in which a step has it away.
import { cellOf, valueOf } from "./steps.js";

const KINDS = ["place", "single", "crossing", "diagonal", "seen", "xwing", "swordfish"];

export function barring(rules, signs, { why, rests }) {
  if (!rules.peers || !KINDS.includes(why.kind)) return [];
  const open = new Set([...rests].filter((at) => signs[cellOf(at)] === ".")), chosen = [];
  const filled = signs.flatMap((sign, cell) => (sign === "." ? [] : cell));
  const bars = (cell) => [...open].filter((at) => valueOf(at) === Number(signs[cell]) && rules.peers[cell].has(cellOf(at)));
  while (open.size) {
    const [most, cell] = filled.reduce((best, one) => (bars(one).length > best[0] ? [bars(one).length, one] : best), [0]);
    if (!most) break; // notes and steps before bar the rest
    chosen.push(cell);
    bars(cell).forEach((at) => open.delete(at));
  }
  return chosen;
}
