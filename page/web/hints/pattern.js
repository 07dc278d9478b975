// Steps in Pattern: a line, and what is alike in each way to lay its runs.
import { columnsOf, range, rowsOf } from "../puzzle.js";
import { technique } from "./lines.js";
import { candidate, cellOf, houses, step } from "./steps.js";
import { leading } from "./trial.js";

export class Pattern {
  constructor(puzzle) {
    this.puzzle = puzzle;
    this.sign = "#";
    const clues = [...puzzle.columns, ...puzzle.rows];
    const all = [...houses("column", columnsOf(puzzle)), ...houses("row", rowsOf(puzzle))];
    this.lines = all.map((line, k) => ({ ...line, clue: clues[k] }));
    this.linesOf = puzzle.fixed.map(() => []);
    for (const line of this.lines) for (const cell of line.cells) this.linesOf[cell].push(line);
  }

  cans(signs) {
    return signs.map((sign) => new Set(sign === "." ? [0, 1] : [Number(sign === this.sign)]));
  }

  // The lines that decide something, with their rank: those with few ways first, and of these the one that
  // says most.
  deciding(cans) {
    const found = [];
    for (const { name, cells, clue } of this.lines) {
      if (cells.every((cell) => cans[cell].size === 1)) continue;
      const { ways, left } = laid(cells.map((cell) => cans[cell]), clue);
      const struck = (cell, k) => [...cans[cell]].filter((value) => !left[k].has(value));
      const strikes = cells.flatMap((cell, k) => struck(cell, k).map((value) => candidate(cell, value)));
      if (!strikes.length) continue;
      const how = technique(cells.map((cell) => cans[cell]), left, clue);
      found.push(step(cells, { kind: "laid", house: name, clue, ways, how }, strikes));
    }
    const rank = ({ why }) => Math.ceil(Math.log2(why.ways));
    found.sort((a, b) => rank(a) - rank(b) || b.strikes.size - a.strikes.size);
    return found.map((one) => [one, [...new Set([...one.strikes].map(cellOf))], rank(one)]);
  }

  simple(cans) { return this.deciding(cans).map(([one]) => one); }

  harder() { return []; }

  further() { return []; }

  // The line that can't be laid if a cell has a value, by lines alone, after how many cells, and what leads there.
  follow(cans, cell, value, most) {
    const now = new Map([[cell, new Set([value])]]), fresh = new Set(this.linesOf[cell]);
    const entries = [{ cells: [cell], values: [value], why: { kind: "tried" }, from: [] }], can = (at) => now.get(at) ?? cans[at];
    for (const line of fresh) { // grows as it goes
      fresh.delete(line);
      const { ways, left } = laid(line.cells.map(can), line.clue), from = line.cells.filter((at) => now.has(at));
      const broken = { kind: "runs", house: line.name };
      if (!ways) return { broken, cells: now.size, house: line, path: leading(entries, line.cells) };
      const settled = line.cells.flatMap((at, k) => (can(at).size === 2 && left[k].size === 1 ? [[at, left[k]]] : []));
      for (const [at, one] of settled) {
        now.set(at, one);
        this.linesOf[at].forEach((other) => fresh.add(other));
      }
      const why = { kind: "laid", house: line.name, clue: line.clue, ways };
      const cells = settled.map(([at]) => at), values = settled.map(([, one]) => [...one][0]);
      if (settled.length) entries.push({ cells, values, why, from });
      if (now.size > most) return undefined;
    }
    return undefined;
  }
}

// In how many ways the runs of a clue can be laid, and the values that each cell has in some way.
export function laid(cans, clue) {
  const cells = cans.length, runs = clue.length, next = following(cans, clue);
  const after = range(cells + 1, () => Array(runs + 1).fill(0)); // ways from a cell on, by runs before
  after[cells][runs] = 1;
  for (let at = cells - 1; at >= 0; at -= 1) {
    for (let run = 0; run <= runs; run += 1) {
      const then = next(at, run);
      after[at][run] = (cans[at].has(0) ? after[at + 1][run] : 0) + (then < 0 ? 0 : after[then][run + 1]);
    }
  }
  return { ways: after[0][0], left: reachable(cans, clue, next, after) };
}

// Gives the cell after a run that begins at a cell, and after the white cell behind it; -1 if it
// can't begin there.
function following(cans, clue) {
  const cells = cans.length, solid = Array(cells + 1).fill(0); // how many from here on can be black
  for (let at = cells - 1; at >= 0; at -= 1) solid[at] = cans[at].has(1) ? solid[at + 1] + 1 : 0;
  return (at, run) => {
    const end = at + clue[run];
    const fits = run < clue.length && end <= cells && solid[at] >= clue[run] && (end === cells || cans[end].has(0));
    return fits ? Math.min(end + 1, cells) : -1;
  };
}

function reachable(cans, clue, next, after) {
  const left = cans.map(() => new Set()), reached = range(cans.length + 1, () => new Set());
  reached[0].add(0);
  for (let at = 0; at < cans.length; at += 1) {
    for (const run of reached[at]) {
      if (cans[at].has(0) && after[at + 1][run]) {
        left[at].add(0);
        reached[at + 1].add(run);
      }
      const then = next(at, run);
      if (then < 0 || !after[then][run + 1]) continue;
      for (let cell = at; cell < then; cell += 1) left[cell].add(cell < at + clue[run] ? 1 : 0);
      reached[then].add(run + 1);
    }
  }
  return left;
}
