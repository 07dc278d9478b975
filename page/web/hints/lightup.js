// Steps in Light Up: numbers, cells that have to be lit, and bulbs that would leave either too little.
import { beside, columnsOf, isNumber, rowsOf, stretches } from "../puzzle.js";
import { Counts } from "./counts.js";
import { candidate, houses, step } from "./steps.js";

export class LightUp extends Counts {
  found() {
    return [...this.numbers(), ...this.stretches(), ...this.lights()];
  }

  numbers() {
    const { fixed } = this.puzzle, at = fixed.flatMap((sign, place) => (isNumber(sign) ? place : []));
    return at.map((place) => {
      const cells = [place, ...beside(this.puzzle, place).filter((near) => !fixed[near])];
      const number = Number(fixed[place]), named = { number, cell: place };
      return { cells, least: number, most: number, full: { kind: "hasBulbs", ...named },
        short: { kind: "needsBulbs", ...named }, broken: { kind: "bulbs", ...named } };
    });
  }

  // In a stretch of white cells one bulb is enough to light all.
  stretches() {
    const lines = [...houses("column", columnsOf(this.puzzle)), ...houses("row", rowsOf(this.puzzle))];
    return lines.flatMap(({ name, cells: line }) => stretches(this.puzzle, line).map((cells) =>
      ({ cells, least: 0, most: 1, isSeen: true, full: { kind: "lit" }, broken: { kind: "seen", house: name } })));
  }

  lights() {
    this.seen = this.puzzle.fixed.map(() => new Set());
    for (const { cells } of this.stretches()) {
      for (const cell of cells) cells.forEach((other) => this.seen[cell].add(other));
    }
    return this.seen.map((seen, cell) => {
      const cells = [...seen].sort((a, b) => a - b);
      return { cells, least: 1, most: cells.length, short: { kind: "oneLight", cell }, broken: { kind: "dark", cell } };
    });
  }

  // A cell whose bulb would leave a number, or a cell that is dark, too few cells. The house with the
  // fewest cells left is the simplest to see.
  beyond(cans) {
    const found = [];
    for (const { cells, least, isSeen, broken } of this.houses) {
      if (isSeen) continue;
      const left = cells.filter((cell) => cans[cell].has(1)), taken = new Map();
      for (const cell of left) {
        for (const other of this.seen[cell]) if (other !== cell) taken.set(other, (taken.get(other) || 0) + 1);
      }
      for (const [cell, count] of taken) {
        if (cans[cell].size === 2 && left.length - count < least && !(broken.kind === "dark" && cells.includes(cell))) {
          const why = { kind: "tooFew", cell, broken };
          found.push([left.length, step([...new Set([...cells, cell])], why, [candidate(cell, 1)]), [cell]]);
        }
      }
    }
    found.sort(([a], [b]) => a - b);
    return found.map(([size, one, decided]) => [one, decided, size]);
  }
}
