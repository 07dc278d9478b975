// Steps in Tents: trees and lines by their counts, and all the ways to put the tents of a line.
import { around, beside, columnsOf, range, rowsOf } from "../puzzle.js";
import { Counts } from "./counts.js";
import { candidate, houses, step } from "./steps.js";

const MOST_WAYS = 2000;

export class Tents extends Counts {
  found() {
    const { fixed, columns, rows } = this.puzzle, clues = [...columns, ...rows];
    const all = [...houses("column", columnsOf(this.puzzle)), ...houses("row", rowsOf(this.puzzle))];
    this.lines = all.map((line, k) => ({ ...line, count: clues[k][0] }));
    const trees = fixed.flatMap((sign, place) => (sign ? place : [])).map((cell) => {
      const cells = [cell, ...beside(this.puzzle, cell).filter((near) => !fixed[near])];
      return { cells, least: 1, most: 4, short: { kind: "oneTent", cell }, broken: { kind: "tree", cell } };
    });
    const counted = this.lines.map(({ name, cells, count }) => ({ cells, least: count, most: count,
      full: { kind: "hasTents", house: name, clue: count }, short: { kind: "needsTents", house: name, clue: count },
      broken: { kind: "tents", house: name, clue: count } }));
    return [...trees, ...counted, ...this.squares()];
  }

  // Four cells that touch have one tent at most.
  squares() {
    const { w, h } = this.puzzle;
    return range(h - 1).flatMap((y) => range(w - 1, (x) => y * w + x)).map((corner) => ({
      cells: [corner, corner + 1, corner + w, corner + w + 1], least: 0, most: 1, isSeen: true,
      full: { kind: "touch" }, broken: { kind: "touching", cell: corner } }));
  }

  barred() {
    const isLone = (cell) => beside(this.puzzle, cell).every((near) => this.puzzle.fixed[near] !== "T");
    return [...super.barred(), ...range(this.puzzle.fixed.length).filter(isLone)];
  }

  // A line, and what is alike in each way to put its tents, in the lines beside it too.
  beyond(cans) {
    /** @type {any[]} */
    const found = [];
    for (const { name, cells, count } of this.lines) {
      const ways = cells.some((cell) => cans[cell].size === 2) ? placed(cells.map((cell) => cans[cell]), count) : [];
      const alike = ways.length ? this.alike(cans, cells, ways) : [];
      if (!alike.length) continue;
      const why = { kind: "placed", house: name, clue: count, ways: ways.length };
      found.push([ways.length, step(cells, why, alike.map(([cell, value]) => candidate(cell, 1 - value))),
        alike.map(([cell]) => cell)]);
    }
    found.sort(([a], [b]) => a - b);
    return found.map(([ways, one, decided]) => [one, decided, ways]);
  }

  // Cells that have the same value in each of some ways, with it.
  alike(cans, cells, ways) {
    const isOpen = (cell) => cans[cell].size === 2;
    const same = cells.flatMap((cell, k) => {
      const tents = isOpen(cell) ? ways.filter((way) => way.includes(k)).length : 1;
      return tents === 0 ? [[cell, 0]] : isOpen(cell) && tents === ways.length ? [[cell, 1]] : [];
    });
    const touched = (way) => new Set(way.flatMap((k) => around(this.puzzle, cells[k])));
    const all = ways.map(touched), first = [...all[0]].filter((cell) => isOpen(cell) && !cells.includes(cell));
    return [...same, ...first.filter((cell) => all.every((some) => some.has(cell))).map((cell) => [cell, 0])];
  }
}

// The ways to put so many tents that don't touch into a line, as lists of positions; none if there
// are too many ways.
function placed(cans, count) {
  let ways = [[]];
  for (const [k, can] of cans.entries()) {
    ways = ways.flatMap((way) => {
      const mayFill = can.has(1) && way.length < count && way.at(-1) !== k - 1;
      return [...(can.has(0) ? [way] : []), ...(mayFill ? [[...way, k]] : [])];
    }).filter((way) => 2 * (count - way.length) <= cans.length - k);
    if (ways.length > MOST_WAYS) return [];
  }
  return ways.filter((way) => way.length === count);
}
