// What comes of a number that is tried out in Solo, by single numbers and places alone, until a cell or a house breaks.
import { candidate } from "./steps.js";

export class Follow {
  constructor(rules, cans) {
    this.rules = rules;
    this.now = cans.map((can) => new Set(can));
    this.fresh = [];
    this.placed = new Map();
    this.gone = new Map();
  }

  // The cell or house that breaks, after how many cells, and those of the cells that lead there, each with its reason. Nothing
  // if none breaks within so many cells.
  from(cell, value, most) {
    this.put(cell, value, { kind: "tried" }, []);
    while (this.fresh.length && this.placed.size <= most) {
      const at = this.fresh.shift(), broken = this.spread(at) || this.fill(at);
      if (broken) return this.told(broken);
    }
    return undefined;
  }

  // Puts a number, for a reason that rests on candidates that are gone.
  put(at, number, why, rests) {
    for (const other of this.now[at]) if (other !== number) this.gone.set(candidate(at, other), at);
    this.now[at] = new Set([number]);
    this.placed.set(at, { number, why, rests });
    this.fresh.push(at);
  }

  // Takes a number away from the peers of its cell.
  spread(at) {
    const [number] = this.now[at];
    for (const peer of this.rules.peers[at]) {
      const can = this.now[peer];
      if (!can.delete(number)) continue;
      this.gone.set(candidate(peer, number), at);
      const rests = can.size > 1 ? [] : this.rules.missing(peer, can);
      if (!can.size) return { why: { kind: "none", cell: peer }, house: [peer], rests };
      if (can.size === 1 && !this.placed.has(peer)) this.put(peer, [...can][0], { kind: "single" }, rests);
    }
    return undefined;
  }

  // Puts what the houses around have one place for, and gives what has no place.
  fill(at) {
    const { peers, housesOf, numbers } = this.rules;
    for (const { name, cells } of new Set([...peers[at], at].flatMap((near) => housesOf[near]))) {
      for (const number of numbers) {
        const places = cells.filter((cell) => this.now[cell].has(number)), [place] = places;
        const isNew = places.length === 1 && this.now[place].size > 1 && !this.placed.has(place);
        if (places.length && !isNew) continue;
        const rests = cells.filter((cell) => cell !== place).map((cell) => candidate(cell, number));
        if (!places.length) return { why: { kind: "noPlace", house: name, number }, house: cells, rests };
        this.put(place, number, { kind: "place", house: name, number }, rests);
      }
    }
    return undefined;
  }

  // Of all that was put, what the break rests on, in order.
  told({ why: broken, house, rests }) {
    const wanted = new Set(), open = [...rests];
    while (open.length) {
      const at = this.gone.get(open.pop());
      if (at === undefined || wanted.has(at)) continue;
      wanted.add(at);
      open.push(...this.placed.get(at).rests);
    }
    const [tried] = this.placed.keys(), path = [...this.placed].filter(([at]) => at === tried || wanted.has(at));
    return { broken, cells: this.placed.size, house: { cells: house },
      path: path.map(([at, { number, why }]) => ({ cells: [at], values: [number], why })) };
  }
}
