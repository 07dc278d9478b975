// A drawn grid: its cells with their names, its clues, and what stands there.
import { language, words } from "./language.js";
import { isNumber, range, rowsOf } from "./puzzle.js";
import { Standing } from "./standing.js";

export function element(name, attributes, ...inside) {
  const made = document.createElement(name);
  for (const [key, value] of Object.entries(attributes)) made.setAttribute(key, value);
  made.append(...inside);
  return made;
}

// The notes of a cell of Solo, each at its own place. If numbers have two digits, or if there are notes in the corners too, there
// is no room for that.
function noteText(p, notes, corners) {
  if (p.w > 9 || corners) return notes.join(p.w > 9 ? " " : "");
  const { w, h } = p.block, number = (k) => (notes.includes(String(k)) ? k : "\u2007");
  return range(h, (y) => range(w, (x) => number(y * w + x + 1)).join(" ")).join("\n");
}

export class Board {
  // The clues of Tents stand at the right and below, those of Pattern at the left and above.
  constructor(puzzle, name) {
    const p = this.puzzle = puzzle, isTents = p.game === "tents";
    const beside = (clues, inside) => (isTents ? [...inside, ...clues] : [...clues, ...inside]);
    const row = (label, clues, inside) => element("div", { role: "row", "aria-label": label }, ...beside(clues, inside));
    this.cells = [];
    this.places = new Map();
    this.shown = [];
    this.pointed = new Set();
    this.standing = new Standing(p);
    this.columns = this.clues(p.columns, "columnheader", "column");
    this.rows = this.clues(p.rows, "rowheader", "row");
    const run = (line) => element("div", { role: "presentation", class: "run" }, ...line.map((place) => this.cell(place)));
    const lines = rowsOf(p).map((line, y) => row(words.line("row", y + 1), this.rows.slice(y, y + 1), [run(line)]));
    const corner = element("div", { role: "presentation", class: "corner" });
    const heads = this.columns.length ? [row(words.columns, [corner], this.columns)] : [];
    const named = { role: "grid", class: `board ${p.game}`, "aria-label": name, lang: language };
    this.grid = element("div", named, ...beside(heads, lines), element("div", { role: "presentation", class: "frame" }));
    const room = (lists) => (lists.length ? 0.4 + 0.6 * Math.max(...lists.map((list) => list.length)) : 0); // in cells
    this.grid.style = `--cells: ${p.w}; --columns: ${p.w + Number(isTents)}; --wide: ${p.w + room(p.rows)};
      --tall: ${p.h + room(p.columns)}`;
    if (p.block && p.w > 9) this.grid.style.setProperty("--sign", .52); // for two digits
    if (p.w > 40 || p.h > 40) this.grid.classList.add("large");
  }

  clues(lists, role, side) {
    const numbers = (list) => (list.length ? list : [0]).map((number) => element("span", {}, number));
    return lists.map((list, k) => {
      const label = `${words.line(side, k + 1)}: ${list.join(" ") || words.none}`;
      const made = element("div", { role, class: "clue" }, ...numbers(list));
      [...made.children].forEach((span, at) => { span.dataset.key = `${side} ${k + 1}.${at}`; });
      made.dataset.label = made.ariaLabel = label;
      return made;
    });
  }

  cell(place) {
    const p = this.puzzle, thick = p.block || (p.game === "pattern" ? { w: 5, h: 5 } : p), edge = (on) => (on ? "2px" : "0px");
    const made = element("div", { role: "gridcell", tabindex: -1 }), x = place % p.w, y = Math.floor(place / p.w);
    made.style = `--left: ${edge(x % thick.w === 0)}; --right: ${edge(x === p.w - 1)}; --top: ${edge(y % thick.h === 0)};
      --bottom: ${edge(y === p.h - 1)}`;
    if (p.block && p.fixed[place]) made.ariaReadOnly = "true";
    this.places.set(made, place);
    return (this.cells[place] = made);
  }

  // Puts what stands there into the grid. Of what is pointed out `marked` has cells, each with a word of why; `house` those that
  // a hint looks at; `shown` the signs that it tells; `struck` the numbers that it takes away; `witness` what bars others; `near`
  // the lines of the chosen cell, `same` those with its number, and `chosen` more cells that are chosen. With the places that
  // changed only what they touch is looked at again.
  paint(play, pointed, changed) {
    const { state, extras } = play, { marked, house, shown, struck, witness, near, same, chosen, isChecked } = pointed;
    const all = [marked, house, shown, struck, witness, near, same, chosen];
    const points = new Set(all.flatMap((some) => [...(some?.keys() || [])]));
    const touched = new Set([...this.standing.update(state, changed), ...this.pointed, ...points]);
    this.pointed = points;
    for (const place of touched) {
      this.paintCell(place, state[place], extras[`colour ${place}`] || "", extras[`corner ${place}`] || "", pointed);
    }
    for (const k of this.linesOf(changed)) this.paintClue(k, extras, isChecked);
  }

  // The lines with clues, the columns first: those of some places, or all.
  linesOf(places) {
    const { w } = this.puzzle, all = this.columns.length + this.rows.length;
    if (!all || !places) return range(all);
    return new Set(places.flatMap((place) => [place % w, w + Math.floor(place / w)]));
  }

  paintCell(place, sign, colour, corners, { marked, house, shown, struck, witness, near, same, chosen, isChecked }) {
    const p = this.puzzle, x = place % p.w, y = Math.floor(place / p.w), { standing } = this;
    const is = { crossed: p.crossed && (x === y || x === p.w - 1 - y), fixed: p.fixed[place] !== "", note: sign[0] === "'",
      lit: standing.isLit(place), met: standing.isMet(place), broken: isChecked && standing.isBroken(place),
      near: near?.has(place), same: same?.has(place), house: house?.has(place), marked: marked?.has(place),
      chosen: chosen?.has(place), witness: witness?.has(place), [marked?.get(place)]: true };
    const names = Object.keys(is).filter((name) => is[name] && name !== "undefined").join(" "), why = marked?.get(place);
    const told = shown?.get(place) || "", gone = struck?.get(place)?.join(" ") || "";
    const look = `${sign} ${names} ${told} ${gone} ${colour} ${corners}`;
    if (look === this.shown[place]) return;
    this.shown[place] = look;
    const cell = this.cells[place], notes = is.note ? sign.slice(1).split(" ") : [];
    cell.className = `cell ${names}`;
    Object.assign(cell.dataset, { sign: is.note ? "." : sign, shown: told, colour, struck: gone });
    const text = is.note ? noteText(p, notes, corners) : /\d/.test(sign) ? sign : "";
    if (cell.textContent !== text) cell.textContent = text;
    if (p.block) paintCorners(cell, told || text === sign ? [] : corners.split(" ").filter(Boolean));
    cell.ariaLabel = this.name(place, this.content(sign, notes, is, colour, corners, why, told, gone));
  }

  // What a screen reader says of a cell: first what stands there, then where it is.
  content(sign, notes, is, colour, corners, why, told, gone) {
    const { signs, states } = words, black = this.puzzle.game === "lightup" && isNumber(sign);
    const what = is.note ? `${words.notes} ${notes.join(" ")}` : signs[sign] || (black ? `${signs["#"]} ${sign}` : sign);
    const more = [is.fixed && this.puzzle.block && states.given, is.met && states.met, is.lit && states.lit,
      is.broken && states.broken, corners && `${words.corners} ${corners}`, colour && `${words.page.colour} ${colour}`,
      is.witness && states.witness, why && states[why], gone && words.struck(gone), told && words.shown(signs[told] || told)];
    return [what, ...more.filter(Boolean)].join(", ");
  }

  name(place, what) {
    const p = this.puzzle, x = place % p.w, y = Math.floor(place / p.w);
    const [row, column] = [words.line("row", y + 1), words.line("column", x + 1)];
    return `${what}; ${row}${clueWords(p.rows[y])}, ${column}${clueWords(p.columns[x])}`;
  }

  paintClue(k, extras, isChecked) {
    const { w } = this.puzzle, head = k < w ? this.columns[k] : this.rows[k - w], { isMet, isBroken } = this.standing.line(k);
    head.classList.toggle("met", isMet);
    head.classList.toggle("broken", Boolean(isChecked && isBroken));
    for (const span of head.children) span.classList.toggle("off", Boolean(extras[span.dataset.key]));
    const { met, broken } = words.states;
    head.ariaLabel = [head.dataset.label, isMet && met, isChecked && isBroken && broken].filter(Boolean).join(", ");
  }

  // Lights the clues of a cell, and no others; of no cell none.
  point(place) {
    const { w } = this.puzzle, heads = [this.columns[place % w], this.rows[Math.floor(place / w)]].filter(Boolean);
    this.lit?.forEach((head) => head.classList.remove("at"));
    heads.forEach((head) => head.classList.add("at"));
    this.lit = heads;
  }
}

// Notes in the corners of a cell: the first two at the top, the next two below, and more between them.
function paintCorners(cell, numbers) {
  const half = Math.max(2, Math.ceil(numbers.length / 2)), lines = { top: numbers.slice(0, half), low: numbers.slice(half) };
  for (const [name, line] of Object.entries(lines)) {
    if (numbers.length) cell.dataset[name] = line.join(" ");
    else delete cell.dataset[name];
  }
}

const clueWords = (clue) => (clue ? ` (${words.clue} ${clue.join(" ") || 0})` : "");
