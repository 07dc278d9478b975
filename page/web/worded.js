// What the reasoner tells, as the words of a language take it: each cell as its row and its column, counted from 1.
const ONE = ["cell", "pivot"], SOME = ["cells", "wings", "targets"];

export function worded({ w }, told) {
  const at = (cell) => [Math.floor(cell / w) + 1, (cell % w) + 1];
  const turned = (value, key) => {
    if (ONE.includes(key)) return at(value);
    if (SOME.includes(key) && Array.isArray(value)) return value.map(at);
    if (Array.isArray(value)) return value.map((part) => turned(part));
    if (typeof value !== "object" || value === null) return value;
    return Object.fromEntries(Object.entries(value).map(([name, part]) => [name, turned(part, name)]));
  };
  return turned(told);
}
