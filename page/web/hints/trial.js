// Where no step leads on, one cell is tried out: with another value there a house breaks. Of all such
// cells the one is told whose consequence is seen soonest.

const MOST = 4000; // trials for one hint

export function tried(rules, cans, values, blank) {
  const open = [...blank].filter((cell) => cans[cell].size > 1).sort((a, b) => cans[a].size - cans[b].size || a - b);
  let best, left = MOST;
  for (const cell of open) {
    if ((best && cans[cell].size > 2) || left <= 0) break; // a cell with two values is simpler to try
    const wrong = [...cans[cell]].filter((value) => value !== values[cell]);
    left -= wrong.length;
    const found = refuted(rules, cans, cell, wrong, best ? best.cells - 1 : Infinity);
    if (found) best = found;
  }
  return best;
}

// All wrong values of a cell, if each breaks a house within so many cells. Each case has the cells that lead there.
export function refuted(rules, cans, cell, wrong, most = Infinity) {
  const all = [];
  for (const value of wrong) {
    const found = rules.follow(cans, cell, value, most);
    if (!found || found.cells > most) return undefined;
    all.push({ ...found, value });
  }
  const longest = Math.max(...all.map(({ cells }) => cells));
  const cases = all.map(({ value, broken, path, house }) => ({ value, broken, path, at: house.cells }));
  return { cell, cells: longest, house: [...new Set(all.flatMap(({ house }) => house.cells))],
    why: { kind: "trial", cell, cases: cases.map(({ value, broken }) => ({ value, broken })) }, cases };
}

// Of what followed in order, each entry from a house, what leads to the house that breaks.
export function leading(entries, house) {
  const wanted = new Set(house), kept = [];
  for (const entry of [...entries].reverse()) {
    const some = entry.cells.flatMap((cell, k) => (wanted.has(cell) ? k : []));
    if (!some.length && entry !== entries[0]) continue;
    kept.unshift({ ...entry, cells: some.map((k) => entry.cells[k]), values: some.map((k) => entry.values[k]) });
    entry.from.forEach((cell) => wanted.add(cell));
  }
  const [first] = entries; // what is tried out is told, whatever it leads to
  return [{ cells: first.cells, values: first.values, why: first.why }, ...kept.slice(1).map(({ from, ...told }) => told)];
}
