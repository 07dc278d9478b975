// What Light Up and Tents share: houses that say how many of their cells are filled, at least and
// at most. A house has `full`, the reason why no more of them is filled, and `short`, the reason why
// all that are left are filled. One that `isSeen` says what a player sees at a glance.
import { GAMES } from "../games.js";
import { candidate, step } from "./steps.js";
import { leading } from "./trial.js";

const isSure = (can) => can.size === 1 && can.has(1);

export class Counts {
  constructor(puzzle) {
    this.puzzle = puzzle;
    this.sign = GAMES[puzzle.game].sign;
    this.houses = /** @type {any} */ (this).found().filter(({ cells }) => cells.length);
    this.housesOf = puzzle.fixed.map(() => []);
    for (const house of this.houses) for (const cell of house.cells) this.housesOf[cell].push(house);
  }

  // What stands, and what a player sees of it at a glance.
  cans(signs) {
    const cans = signs.map((sign) => new Set(sign === "." ? [0, 1] : [Number(sign === this.sign)]));
    for (const cell of this.barred()) cans[cell].delete(1);
    for (const { cells, most, isSeen } of this.houses) {
      if (!isSeen || cells.filter((cell) => isSure(cans[cell])).length !== most) continue;
      for (const cell of cells) if (cans[cell].size === 2) cans[cell].delete(1);
    }
    return cans;
  }

  // Cells that are never filled.
  barred() { return this.puzzle.fixed.flatMap((sign, cell) => (sign ? cell : [])); }

  // Steps with the cells that they decide and their rank: those of one house, and else those that look further.
  deciding(cans, blank) {
    const single = this.single(cans), isAny = single.some(([, cells]) => cells.some((cell) => blank.has(cell)));
    return isAny ? single : /** @type {any} */ (this).beyond(cans);
  }

  simple(cans) { return this.single(cans).map(([one]) => one); }

  harder(cans) { return /** @type {any} */ (this).beyond(cans).map(([one]) => one); }

  // First those that fill cells, then those that leave cells empty.
  single(cans) {
    const filled = [], empty = [];
    for (const { cells, least, most, full, short } of this.houses) {
      const blank = cells.filter((cell) => cans[cell].size === 2);
      if (!blank.length) continue;
      const sure = cells.filter((cell) => isSure(cans[cell])).length;
      const told = (why, value) => [step(cells, why, blank.map((cell) => candidate(cell, value))), blank, value];
      if (sure + blank.length === least) filled.push(told({ ...short, count: blank.length }, 0));
      else if (sure === most) empty.push(told(full, 1));
    }
    return [...filled, ...empty];
  }

  further() { return []; }

  // The house that breaks if a cell has a value, by the houses alone, after how many cells, and what leads there.
  // Nothing, if none does within so many cells.
  follow(cans, cell, value, most) {
    const now = new Map([[cell, value]]), fresh = [cell];
    const entries = [{ cells: [cell], values: [value], why: { kind: "tried" }, from: [] }];
    const has = (at) => now.get(at) ?? (cans[at].size === 2 ? undefined : Number(isSure(cans[at])));
    const told = (broken, house) => ({ broken, cells: now.size, house, path: leading(entries, house.cells) });
    while (fresh.length && now.size <= most) {
      for (const house of this.housesOf[fresh.shift()]) {
        const open = house.cells.filter((at) => has(at) === undefined);
        const sure = house.cells.filter((at) => has(at) === 1).length;
        if (sure > house.most) return told({ ...house.broken, isTooMuch: true }, house);
        if (sure + open.length < house.least) return told(house.broken, house);
        const then = sure === house.most ? 0 : sure + open.length === house.least ? 1 : undefined;
        if (then === undefined || !open.length) continue;
        const why = then ? { ...house.short, count: open.length } : house.full, from = house.cells.filter((at) => now.has(at));
        entries.push({ cells: open, values: open.map(() => then), why, from });
        for (const at of open) {
          now.set(at, then);
          fresh.push(at);
        }
      }
    }
    return undefined;
  }
}
