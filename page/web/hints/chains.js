// Steps over several houses of Solo: two wings of a cell with two numbers, and chains of candidates
// of which one holds if the one before it doesn't.
import { candidate, cellOf, step, valueOf } from "./steps.js";

const LONGEST = 12; // candidates of a chain, more than which nobody follows

// An XY-wing: a cell with the numbers a and b sees one with a and c, and one with b and c. One of
// the two has c, so no cell that sees both has it.
export function wings(rules, cans) {
  const pairs = cans.flatMap((can, cell) => (can.size === 2 ? cell : []));
  for (const pivot of pairs) {
    const near = pairs.filter((cell) => rules.peers[pivot].has(cell));
    for (const [k, first] of near.entries()) {
      for (const second of near.slice(k + 1)) {
        const number = shared(cans, pivot, first, second);
        const struck = number ? common(rules, cans, first, second, number).filter((cell) => cell !== pivot) : [];
        if (!struck.length) continue;
        const cells = [pivot, first, second], why = { kind: "xywing", pivot, wings: [first, second], number };
        const rests = cells.flatMap((cell) => rules.missing(cell, cans[cell]));
        return step(cells, why, struck.map((cell) => candidate(cell, number)), rests);
      }
    }
  }
  return undefined;
}

const common = (rules, cans, a, b, number) =>
  [...rules.peers[a]].filter((cell) => rules.peers[b].has(cell) && cans[cell].has(number));

// The number of both wings, if with the pivot they have three numbers, each twice.
function shared(cans, pivot, first, second) {
  const numbers = [...cans[first]].filter((number) => cans[second].has(number));
  const all = new Set([pivot, first, second].flatMap((cell) => [...cans[cell]]));
  return numbers.length === 1 && all.size === 3 && !cans[pivot].has(numbers[0]) ? numbers[0] : undefined;
}

// The shortest chain whose ends leave a candidate no place: either end holds, and it fits with neither.
export function chains(rules, cans) {
  const links = new Links(rules, cans);
  let best;
  for (const [cell, can] of cans.entries()) {
    if (can.size < 2) continue;
    for (const number of can) {
      const found = links.from(candidate(cell, number), best ? best.chain.length - 1 : LONGEST);
      if (found) best = found;
    }
  }
  if (!best) return undefined;
  return told(rules, best);
}

// A chain as a step. Where a link can be seen in several ways, `choices` has them, and `choose` makes the step of some.
function told(rules, { chain, struck, choices }) {
  const cells = [...new Set(chain.map(cellOf))], named = (at) => ({ cell: cellOf(at), number: valueOf(at) });
  const both = (a, b) => rules.housesOf[a].filter(({ cells: own }) => own.includes(b)).map(({ name: [kind] }) => kind);
  const via = (at, k) => (k && k % 2 === 0 ? both(cellOf(chain[k - 1]), cellOf(at)) : []); // what the two share
  const strikes = new Set(struck);
  const choose = (ways) => {
    const links = chain.map((at, k) => ({ ...named(at), by: k % 2 ? ways[(k - 1) / 2].by : undefined, via: via(at, k) }));
    const why = { kind: "chain", chain: links, struck: struck.map(named) };
    const made = step(cells, why, struck, ways.flatMap(({ rests }) => rests));
    return { ...made, strikes, choices, choose };
  };
  return choose(choices.map(([first]) => first));
}

class Links {
  constructor(rules, cans) {
    this.rules = rules;
    this.cans = cans;
    this.weakOf = new Map();
    this.strongOf = new Map();
  }

  // The candidates that don't hold if this one does.
  weak(at) {
    if (!this.weakOf.has(at)) {
      const cell = cellOf(at), number = valueOf(at);
      const own = [...this.cans[cell]].filter((other) => other !== number).map((other) => candidate(cell, other));
      const peers = [...this.rules.peers[cell]].filter((peer) => this.cans[peer].has(number));
      this.weakOf.set(at, new Set([...own, ...peers.map((peer) => candidate(peer, number))]));
    }
    return this.weakOf.get(at);
  }

  // The candidates that hold if this one doesn't, each with the ways to see it: what has to be away for that, and the house whose
  // only other place it is; without a house it is the cell's only other number.
  strong(at) {
    if (!this.strongOf.has(at)) this.strongOf.set(at, this.seek(cellOf(at), valueOf(at)));
    return this.strongOf.get(at);
  }

  seek(cell, number) {
    const found = new Map(), can = this.cans[cell];
    for (const { name, cells } of this.rules.housesOf[cell]) {
      const places = cells.filter((other) => other !== cell && this.cans[other].has(number)), [place] = places;
      const rests = cells.filter((other) => other !== cell && other !== place).map((other) => candidate(other, number));
      if (places.length !== 1) continue;
      const at = candidate(place, number), ways = found.get(at) || [];
      found.set(at, [...ways, { rests, by: name }]);
    }
    const others = [...can].filter((other) => other !== number);
    if (others.length === 1) found.set(candidate(cell, others[0]), [{ rests: this.rules.missing(cell, can) }]);
    return found;
  }

  // The shortest chain from a candidate, of so many at most.
  from(first, most) {
    let last = [{ at: first, before: undefined }]; // none of which holds if the first doesn't
    const seen = new Set([first]);
    for (let length = 2; length <= most && last.length; length += 2) {
      const holding = [];
      for (const link of last) {
        for (const [at, ways] of this.strong(link.at)) {
          if (seen.has(at)) continue;
          seen.add(at);
          const next = { at, before: link, ways };
          const struck = [...this.weak(first)].filter((other) => other !== at && this.weak(at).has(other) && !isIn(other, next));
          if (struck.length) return { ...linksTo(next), struck };
          holding.push(next);
        }
      }
      last = this.denied(holding, seen);
    }
    return undefined;
  }

  denied(holding, seen) {
    const found = [];
    for (const link of holding) {
      for (const at of this.weak(link.at)) {
        if (seen.has(-at - 1)) continue;
        seen.add(-at - 1);
        found.push({ at, before: link });
      }
    }
    return found;
  }
}

function isIn(at, link) {
  for (let now = link; now; now = now.before) if (now.at === at) return true;
  return false;
}

function linksTo(end) {
  const links = [];
  for (let now = end; now; now = now.before) links.unshift(now);
  return { chain: links.map(({ at }) => at), choices: links.flatMap(({ ways }) => (ways ? [ways] : [])) };
}
