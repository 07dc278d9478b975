// The names by which players know steps, as keys of the words of a language. A step without one has none.

const SETS = { 2: "Pair", 3: "Triple", 4: "Quad" };
const LINES = ["row", "column"];

export function nameOf({ kind, house, cells, chain, how }) {
  if (kind === "crossing" || kind === "diagonal") return house[0] === "block" ? "pointing" : "claiming";
  if (kind === "naked" || kind === "hidden") return `${kind}${SETS[cells.length] || "Set"}`;
  if (kind === "chain") return chainName(chain);
  if (kind === "laid") return how;
  return { last: "last", single: "nakedSingle", place: "hiddenSingle", seen: "pointing", xwing: "xwing", swordfish: "swordfish",
    xywing: "xywing" }[kind];
}

// A chain of one number over two links is named by how its lines lie; a longer one by what it is made of.
function chainName(chain) {
  const links = chain.flatMap(({ by }, k) => (k % 2 ? [by] : []));
  const isOne = chain.every(({ number }) => number === chain[0].number);
  if (isOne && chain.length === 4) {
    const [first, second] = links.map(([kind]) => kind), { via } = chain[2];
    if (first === second && LINES.includes(first) && via.some((kind) => LINES.includes(kind))) return "skyscraper";
    const isKite = first !== second && LINES.includes(first) && LINES.includes(second) && via.includes("block");
    return isKite ? "kite" : "turbot";
  }
  if (isOne) return "xchain";
  return links.every((by) => !by) ? "xychain" : "aic";
}
