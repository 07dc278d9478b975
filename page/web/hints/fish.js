// An X-wing, and with three lines a swordfish: a number that some rows have in as many columns alone,
// so that other rows haven't it there; or the same of columns and rows.
import { candidate, step } from "./steps.js";

export function fish(rules, cans, size) {
  const { w } = rules.puzzle, rows = rules.lines.slice(0, w), columns = rules.lines.slice(w);
  for (const number of rules.numbers) {
    const found = across(cans, size, number, rows, columns) || across(cans, size, number, columns, rows);
    if (found) return found;
  }
  return undefined;
}

function across(cans, size, number, lines, others) {
  const has = ({ cells }) => cells.flatMap((cell, k) => (cans[cell].has(number) ? k : []));
  const few = lines.map((line) => [line, has(line)]).filter(([, at]) => at.length > 1 && at.length <= size);
  for (const some of choices(few, size)) {
    const at = [...new Set(some.flatMap(([, found]) => found))], own = some.map(([line]) => line);
    if (at.length !== size) continue;
    const inside = new Set(own.flatMap(({ cells }) => cells));
    const struck = at.flatMap((k) => others[k].cells).filter((cell) => !inside.has(cell) && cans[cell].has(number));
    if (!struck.length) continue;
    const why = { kind: size === 2 ? "xwing" : "swordfish", number, lines: own.map(({ name }) => name),
      others: at.sort((a, b) => a - b).map((k) => others[k].name) };
    const rests = [...inside].filter((cell) => !at.some((k) => others[k].cells.includes(cell)));
    return step([...inside], why, struck.map((cell) => candidate(cell, number)), rests.map((cell) => candidate(cell, number)));
  }
  return undefined;
}

function* choices(list, count, from = 0) {
  if (!count) yield [];
  else {
    for (let k = from; k <= list.length - count; k += 1) {
      for (const rest of choices(list, count - 1, k + 1)) yield [list[k], ...rest];
    }
  }
}
