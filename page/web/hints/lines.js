// What players call a step in a line of Pattern, by what it says: names only, for the step itself is all ways to lay the runs.

const isKnown = (can, value) => can.size === 1 && can.has(value);

// `left` has the values that each cell has in some way. "complete": all black cells are there. "overlap": a run covers cells
// wherever it lies between the white cells. "edge": a black run at an edge goes on. "glue": one near an edge is stretched.
// "reach": no run reaches a cell. "line" is the rest.
export function technique(cans, left, clue) {
  const fresh = (value) => cans.flatMap((can, k) => (can.size === 2 && isKnown(left[k], value) ? k : []));
  const black = fresh(1), known = cans.map((can) => isKnown(can, 1));
  if (known.filter(Boolean).length === clue.reduce((a, b) => a + b, 0)) return "complete";
  if (!black.length) return known.some(Boolean) ? "reach" : "line";
  const overlaps = new Set(overlapping(cans, clue));
  if (black.every((k) => overlaps.has(k))) return "overlap";
  return joined(cans, black, known);
}

// Whether the fresh black cells go on from black ones at an edge or near one.
function joined(cans, black, known) {
  const isBlack = cans.map((_, k) => known[k] || black.includes(k)), kinds = new Set();
  for (const k of black) {
    let [from, to] = [k, k];
    while (isBlack[from - 1]) from -= 1;
    while (isBlack[to + 1]) to += 1;
    const isOld = (at) => at >= from && at <= to && known[at];
    if (!known.some((is, at) => is && isOld(at))) return "line";
    const isWall = (at) => at < 0 || at >= cans.length || isKnown(cans[at], 0);
    kinds.add((isOld(from) && isWall(from - 1)) || (isOld(to) && isWall(to + 1)) ? "edge" : "glue");
  }
  return kinds.size === 1 ? [...kinds][0] : "line";
}

// The cells that each run covers both as far left and as far right as the white cells let it.
function overlapping(cans, clue) {
  const first = starts(cans, clue), last = starts([...cans].reverse(), [...clue].reverse());
  if (!first || !last) return [];
  return clue.flatMap((length, run) => {
    const from = cans.length - last[clue.length - 1 - run] - length, to = first[run] + length;
    return Array.from({ length: Math.max(0, to - from) }, (_, k) => from + k);
  });
}

// Where each run begins if all lie as far left as the white cells let them.
function starts(cans, clue) {
  const found = [];
  let at = 0;
  for (const length of clue) {
    for (let k = at; k < at + length; k += 1) if (k < cans.length && isKnown(cans[k], 0)) at = k + 1;
    if (at + length > cans.length) return undefined;
    found.push(at);
    at += length + 1;
  }
  return found;
}
