// Steps in Solo: one number left, one place left, a block against a line, cells that share their
// numbers; and behind these the steps of fish.js and chains.js.
import { blocksOf, columnsOf, diagonalsOf, range, rowsOf } from "../puzzle.js";
import { chains, wings } from "./chains.js";
import { fish } from "./fish.js";
import { Follow } from "./follow.js";
import { closedSets } from "./sets.js";
import { candidate, houses, step } from "./steps.js";

export class Solo {
  constructor(puzzle) {
    this.puzzle = puzzle;
    this.numbers = range(puzzle.w, (k) => k + 1);
    this.blocks = houses("block", blocksOf(puzzle));
    this.lines = [...houses("row", rowsOf(puzzle)), ...houses("column", columnsOf(puzzle))];
    this.houses = [...this.blocks, ...this.lines, ...houses("diagonal", diagonalsOf(puzzle))];
    this.peers = puzzle.fixed.map(() => new Set());
    this.housesOf = puzzle.fixed.map(() => []);
    for (const house of this.houses) {
      for (const cell of house.cells) {
        this.housesOf[cell].push(house);
        house.cells.forEach((peer) => peer !== cell && this.peers[cell].add(peer));
      }
    }
  }

  // The numbers that each cell can have; what stands in its houses is away at once, as a player sees.
  cans(signs) {
    const cans = signs.map((sign) => new Set(sign === "." ? this.numbers : [Number(sign)]));
    signs.forEach((sign, cell) => {
      if (sign !== ".") this.peers[cell].forEach((peer) => cans[peer].delete(Number(sign)));
    });
    return cans;
  }

  // The candidates of a cell that aren't there.
  missing(cell, can) {
    return this.numbers.filter((number) => !can.has(number)).map((number) => candidate(cell, number));
  }

  // Steps with the cells that they decide, as players look for them: the last blank cell of a house, a
  // number with one place in a block, a cell with one number, a number with one place in a line.
  deciding(cans, blank = new Set()) {
    const found = [...this.lasts(cans, blank)];
    for (const [one, [cell]] of this.hidden(cans)) found.push([one.why.house[0] === "block" ? 1 : 3, one, cell]);
    for (const [cell, can] of cans.entries()) {
      if (can.size === 1) found.push([2, step([cell], { kind: "single", cell }, [], this.missing(cell, can)), cell]);
    }
    return found.sort(([a], [b]) => a - b).map(([rank, one, cell]) => [one, [cell], rank]);
  }

  * lasts(cans, blank) {
    for (const { name, cells } of this.houses) {
      const [cell, ...others] = cells.filter((at) => blank.has(at));
      if (cell === undefined || others.length || cans[cell].size !== 1) continue;
      yield [0, step(cells, { kind: "last", house: name, cell }, [], this.missing(cell, cans[cell])), cell];
    }
  }

  * hidden(cans) {
    for (const { name, cells } of this.houses) {
      for (const number of this.numbers) {
        const places = cells.filter((cell) => cans[cell].has(number)), [place] = places;
        if (places.length !== 1) continue;
        const strikes = [...cans[place]].filter((other) => other !== number).map((other) => candidate(place, other));
        const rests = cells.filter((cell) => cell !== place).map((cell) => candidate(cell, number));
        yield [step(cells, { kind: "place", house: name, number }, strikes, rests), places];
      }
    }
  }

  simple(cans) { return [...this.singles(cans)]; }

  harder(cans) { return this.further(cans); }

  // Steps of single numbers and places that take something away.
  * singles(cans) {
    for (const [one] of this.hidden(cans)) if (one.strikes.size) yield one;
    for (const [cell, can] of cans.entries()) {
      if (can.size !== 1) continue;
      const [number] = can, peers = [...this.peers[cell]].filter((peer) => cans[peer].has(number));
      const strikes = peers.map((peer) => candidate(peer, number));
      if (strikes.length) yield step([cell], { kind: "single", cell }, strikes, this.missing(cell, can));
    }
  }

  // A number that a house has only where it crosses another one stands nowhere else in that one.
  * crossings(cans) {
    for (const block of this.blocks) {
      for (const line of this.lines) {
        const both = block.cells.filter((cell) => line.cells.includes(cell));
        if (both.length < 2) continue;
        yield* this.crossing(cans, both, block, line);
        yield* this.crossing(cans, both, line, block);
      }
    }
  }

  * crossing(cans, both, house, other) {
    const outside = house.cells.filter((cell) => !both.includes(cell));
    const beyond = other.cells.filter((cell) => !both.includes(cell));
    for (const number of this.numbers) {
      if (outside.some((cell) => cans[cell].has(number))) continue;
      const strikes = beyond.filter((cell) => cans[cell].has(number)).map((cell) => candidate(cell, number));
      const why = { kind: "crossing", house: house.name, other: other.name, number };
      const rests = outside.map((cell) => candidate(cell, number));
      if (strikes.length) yield [1, step([...house.cells, ...beyond], why, strikes, rests)];
    }
  }

  // With diagonals: a number has places in a house, and cells outside see them all.
  * diagonals(cans) {
    for (const { name, cells } of this.puzzle.crossed ? this.houses : []) {
      for (const number of this.numbers) {
        const places = cells.filter((cell) => cans[cell].has(number));
        if (places.length < 2) continue;
        const [first, ...others] = places.map((cell) => this.peers[cell]);
        const seen = [...first].filter((cell) => !cells.includes(cell) && cans[cell].has(number)
          && others.every((peers) => peers.has(cell)));
        const rests = cells.filter((cell) => !places.includes(cell)).map((cell) => candidate(cell, number));
        const along = this.houses.find((other) => other.name[0] === "diagonal" && other.name !== name
          && [...places, ...seen].every((cell) => other.cells.includes(cell)));
        const why = along ? { kind: "diagonal", house: name, other: along.name, number }
          : { kind: "seen", house: name, number, cells: places, targets: seen };
        if (seen.length) yield [1, step([...new Set([...cells, ...(along ? along.cells : [])])], why,
          seen.map((cell) => candidate(cell, number)), rests)];
      }
    }
  }

  // In a house, cells that have as few numbers as they are.
  * sets(cans) {
    for (const house of this.houses) {
      for (const closed of closedSets(house.cells, cans)) {
        const numbers = new Set(closed.flatMap((cell) => [...cans[cell]]));
        const outside = house.cells.filter((cell) => !closed.includes(cell));
        const struck = (cell) => [...cans[cell]].filter((number) => numbers.has(number));
        const strikes = outside.flatMap((cell) => struck(cell).map((number) => candidate(cell, number)));
        if (strikes.length) yield this.closed(house, closed, outside, numbers, strikes);
      }
    }
  }

  // The same step is seen by these cells or by the others: the fewer are told.
  closed({ name, cells }, closed, outside, numbers, strikes) {
    const own = this.numbers.filter((number) => numbers.has(number));
    const left = this.numbers.filter((number) => !numbers.has(number));
    const rests = closed.flatMap((cell) => left.map((number) => candidate(cell, number)));
    const isFew = closed.length <= outside.length;
    const why = isFew ? { kind: "naked", house: name, cells: closed, numbers: own }
      : { kind: "hidden", house: name, cells: outside, numbers: left };
    return [why.cells.length + (isFew ? 0 : 0.5), step(cells, why, strikes, rests)];
  }

  // The simplest steps that only take numbers away: a block against a line, then sets by their size, then along diagonals, and
  // then the others.
  further(cans) {
    const least = (found) => found.filter(([rank]) => rank === Math.min(...found.map(([other]) => other))).map(([, one]) => one);
    for (const found of [[...this.crossings(cans), ...this.sets(cans)], [...this.diagonals(cans)]]) {
      if (found.length) return least(found);
    }
    for (const seek of [(now) => fish(this, now, 2), (now) => wings(this, now), (now) => fish(this, now, 3),
      (now) => chains(this, now)]) {
      const one = seek(cans);
      if (one) return [one];
    }
    return [];
  }

  // What breaks if a cell has a number, by single numbers and places alone: the cell or house, and the cells that lead there.
  follow(cans, cell, value, most) { return new Follow(this, cans).from(cell, value, most); }
}
