// Sets of cells with as many numbers as cells, the smallest that a cell is in. A matching gives each
// cell a number of its own. Then one cell leads to another if it can have that one's number, and what
// a cell reaches is such a set.
export function closedSets(cells, cans) {
  const holder = matched(cells, cans), found = new Map();
  for (const cell of holder ? cells : []) {
    const reached = new Set([cell]);
    for (const at of reached) cans[at].forEach((number) => reached.add(holder.get(number))); // grows as it goes
    const closed = [...reached].sort((a, b) => a - b);
    if (closed.length < cells.length) found.set(closed.join(), closed);
  }
  const first = (a, b) => a.length - b.length || a.reduce((told, cell, k) => told || cell - b[k], 0);
  return [...found.values()].sort(first);
}

// A cell for each number, so that each cell has one; nothing if that can't be.
function matched(cells, cans) {
  const holder = new Map();
  const place = (cell, seen) => [...cans[cell]].some((number) => {
    if (seen.has(number)) return false;
    seen.add(number);
    if (holder.has(number) && !place(holder.get(number), seen)) return false;
    holder.set(number, cell);
    return true;
  });
  return cells.every((cell) => place(cell, new Set())) ? holder : undefined;
}
