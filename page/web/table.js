// What lies on the table: the puzzle that is played, its board, what is chosen, and what is pointed out.
import { Board, element } from "./board.js";
import { words } from "./language.js";
import { Play } from "./play.js";
import { isNumber, range } from "./puzzle.js";
import { settings } from "./settings.js";

const COLOURS = 6, LONG = 200; // and characters of a text that is set smaller on a phone
export const MODES = ["notes", "corners", "colours"]; // what a number is, if it isn't one for the cell
/** @type {(id: string) => any} */
export const $ = (id) => document.getElementById(id);

// `at` is the chosen cell, and `chosen` all that are, if they are several. `mode` is one of MODES, or nothing. `number` is one
// that was chosen first, and goes into each cell that is clicked.
export const table = { play: undefined, board: undefined, at: 0, chosen: new Set(), mode: "", number: "", marks: {},
  changed: () => {} };

// What the page says. A note below it says less loudly what else there is.
export function say(text, kind = "", note = "") {
  $("answer").replaceChildren(text, ...(note ? [element("small", {}, note)] : []));
  $("answer").className = text.length > LONG ? `${kind} long` : kind;
  $("end").hidden = $("rest").hidden = true;
}

export function lay(puzzle, id) {
  const { block } = puzzle;
  Object.assign(table, { play: new Play(puzzle, id), board: new Board(puzzle, words.games[puzzle.game].name) });
  Object.assign(table, { at: Math.max(0, puzzle.fixed.indexOf("")), chosen: new Set(), number: "", marks: {} });
  table.board.cells[table.at].tabIndex = 0;
  $("rule").textContent = words.rule(puzzle);
  $("stage").replaceChildren(table.board.grid);
  $("keys").textContent = words.keys(puzzle, matchMedia("(pointer: coarse)").matches);
  for (const name of [...MODES, "allNotes"]) $(name).hidden = !block;
  $("solutions").replaceChildren();
  setMode("");
}

// The buttons of the numbers, or of the colours.
function layPad() {
  const { puzzle } = table.play, isColours = table.mode === "colours", count = isColours ? COLOURS : puzzle.block ? puzzle.w : 0;
  const button = (k) => element("button", isColours ? { value: k, "data-colour": k } : { value: k }, k, element("small", {}));
  $("pad").replaceChildren(...range(count, (k) => button(k + 1)));
  const inRows = (most) => (count > most ? Math.ceil(count / 2) : count); // in one row or two; the second is for a phone
  $("pad").style = `--numbers: ${inRows(9)}; --across: ${inRows(6)}`;
}

export function setMode(mode) {
  table.mode = mode;
  for (const name of MODES) $(name).ariaPressed = String(mode === name);
  layPad();
  point(table.marks);
}

// The cells in which a number stands, and those that share a line with the chosen one.
function lights() {
  const { play, board, at, number } = table, lit = number || play.state[at];
  if (!play.puzzle.block) return {};
  const same = isNumber(lit) ? range(play.state.length).filter((place) => play.state[place] === lit) : [];
  const near = settings.near ? board.standing.housesOf[at].flatMap((house) => board.standing.houses[house]) : [];
  return { same: new Set(same), near: new Set(near) };
}

// Paints the board, with what is pointed out on it. Without the places that changed all is looked at.
export function point(marks = {}, changed = undefined) {
  const { play, board } = table;
  table.marks = marks;
  board.grid.classList.toggle("hinted", Boolean(marks.isHint));
  board.paint(play, { ...lights(), ...marks, chosen: table.chosen, isChecked: settings.broken }, changed);
  board.point(settings.near ? table.at : undefined);
  $("undo").disabled = !play.done.length;
  $("redo").disabled = !play.undone.length;
  $("startOver").disabled = play.isBlank;
  $("back").disabled = !(play.done.length > play.mark);
  if (play.puzzle.block) countPad();
}

// How many of each number are left.
function countPad() {
  for (const button of table.mode === "colours" ? [] : $("pad").children) {
    const left = table.play.puzzle.w - table.play.state.filter((found) => found === button.value).length;
    button.lastChild.textContent = left;
    button.ariaLabel = words.left(button.value, left);
    button.classList.toggle("met", left <= 0);
    button.ariaPressed = String(table.number === button.value);
  }
}

export function choose(place, isFocused = true) {
  const { board } = table, isSame = table.at === place;
  board.cells[table.at].tabIndex = -1;
  board.cells[place].tabIndex = 0;
  if (isFocused) board.cells[place].focus({ preventScroll: false });
  if (isSame && !table.chosen.size) return;
  table.at = place;
  table.chosen = new Set();
  point(table.marks, []);
}

// One more cell is chosen beside those that are.
export function chooseMore(place) {
  table.chosen = new Set([...table.chosen, table.at, place]);
  table.board.cells[table.at].tabIndex = -1;
  table.board.cells[place].tabIndex = 0;
  table.board.cells[place].focus();
  table.at = place;
  point(table.marks, []);
}
