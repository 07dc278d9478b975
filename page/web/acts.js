// What a player does to the chosen cells. Each act is one step, which undo takes back.
import { GAMES } from "./games.js";
import { words } from "./language.js";
import { isFilled, isNumber, range } from "./puzzle.js";
import { settings } from "./settings.js";
import { point, say, table } from "./table.js";

const places = () => (table.chosen.size ? [...table.chosen] : [table.at]);
const placesOf = (step) => step.map(([key]) => key).filter((key) => typeof key === "number");
// An extra of a cell, or of a clue, leaves no cell to look at but its own.
const touched = (step) => [...new Set([...placesOf(step), ...step.flatMap(([key]) => besideOf(key))])];
const besideOf = (key) => (/^(colour|corner) /.test(key) ? [Number(key.split(" ")[1])] : []);

function stepped(step) {
  if (!step) return;
  say("");
  point({}, step.some(([key]) => /^(row|column)/.test(key)) ? undefined : touched(step));
  table.changed();
}

export function change(wanted, joins = false) {
  const step = table.play.change(wanted, joins);
  const dots = step && settings.dots ? finished(placesOf(step)) : [];
  stepped(dots.length ? [...step, ...table.play.change(dots, true)] : step);
}

// Dots for what is blank in the lines that a step has finished.
function finished(changed) {
  const { play: { puzzle, state }, board: { standing } } = table;
  if (!puzzle.columns.length || !changed.some((place) => isFilled(state[place]) && state[place] !== "•")) return [];
  standing.update(state, changed);
  const lines = new Set(changed.flatMap((place) => standing.housesOf[place]).filter((line) => standing.line(line).isMet));
  const blank = [...lines].flatMap((line) => standing.houses[line]).filter((place) => state[place] === ".");
  return [...new Set(blank)].map((place) => [place, "•"]);
}

export const undo = () => stepped(table.play.undo());
export const redo = () => stepped(table.play.redo());
export const back = () => stepped(table.play.back());

export function startOver() {
  const { state, extras } = table.play;
  change([...state.map((_, place) => [place, "."]), ...Object.keys(extras).map((key) => [key, ""])]);
  say(words.said.startedOver);
}

export function mark() {
  table.play.mark = table.play.done.length;
  table.play.keep();
  point(table.marks, []);
  say(words.said.marked);
}

// The notes of a cell of one kind, and the change that makes others of them. Those in the middle of a cell are its sign.
const listed = (numbers) => [...numbers].sort((a, b) => a - b).join(" ");
const noted = (numbers) => (numbers.size ? `'${listed(numbers)}` : ".");
const NOTES = {
  notes: { of: (place) => (table.play.state[place].match(/^'(.*)/)?.[1] || ""), to: (place, numbers) => [place, noted(numbers)] },
  corners: { of: (place) => table.play.of(`corner ${place}`), to: (place, numbers) => [`corner ${place}`, listed(numbers)] },
};
const numbersIn = (kind, place) => new Set(NOTES[kind].of(place).split(" ").filter(Boolean));

// A number that is put down takes its notes from its row, column and block along.
function tidied(place, number) {
  const { standing } = table.board, near = new Set(standing.housesOf[place].flatMap((house) => standing.houses[house]));
  near.delete(place);
  return Object.keys(NOTES).flatMap((kind) => [...near].filter((cell) => numbersIn(kind, cell).has(number)).map((cell) => {
    const numbers = numbersIn(kind, cell);
    numbers.delete(number);
    return NOTES[kind].to(cell, numbers);
  }));
}

export function put(sign) {
  const isTidy = settings.tidy && table.play.puzzle.block && isNumber(sign), own = places();
  const others = isTidy ? own.flatMap((place) => (table.play.puzzle.fixed[place] ? [] : tidied(place, sign))) : [];
  const corners = own.map((place) => [`corner ${place}`, ""]);
  change([...others.filter(([place]) => !own.includes(place)), ...own.map((place) => [place, sign]), ...corners]);
}

// A note of a number, or its end. Where a number stands there is no room for one.
export function note(number, kind) {
  const { state } = table.play, open = places().filter((place) => !isFilled(state[place]));
  const isThere = open.every((place) => numbersIn(kind, place).has(number));
  change(open.map((place) => {
    const numbers = numbersIn(kind, place);
    if (isThere) numbers.delete(number);
    else numbers.add(number);
    return NOTES[kind].to(place, numbers);
  }));
}

// Candidates that a hint has struck go out of the notes.
export function strike(candidates) {
  const gone = new Map();
  for (const [cell, number] of candidates) gone.set(cell, [...(gone.get(cell) || []), String(number)]);
  const wanted = [...gone].flatMap(([cell, numbers]) => Object.keys(NOTES).flatMap((kind) => {
    const there = numbersIn(kind, cell), isAny = numbers.some((number) => there.has(number));
    numbers.forEach((number) => there.delete(number));
    return isAny ? [NOTES[kind].to(cell, there)] : [];
  }));
  if (wanted.length) change(wanted);
}

// Notes of all numbers that a cell can have, in each cell that has none yet.
export function allNotes() {
  const { play: { puzzle, state }, board: { standing } } = table;
  const open = range(state.length).filter((place) => state[place] === ".");
  change(open.map((place) => {
    const near = new Set(standing.housesOf[place].flatMap((house) => standing.houses[house]).map((cell) => state[cell]));
    return [place, noted(new Set(range(puzzle.w, (k) => String(k + 1)).filter((number) => !near.has(number))))];
  }));
}

export function colour(number) {
  const keys = places().map((place) => `colour ${place}`), isThere = keys.every((key) => table.play.of(key) === number);
  change(keys.map((key) => [key, isThere ? "" : number]));
}

// A number in the mode that is on.
export function enter(number, mode = table.mode) {
  if (mode === "colours") colour(number);
  else if (mode) note(number, mode);
  else put(number);
}

export function erase() {
  change(places().flatMap((place) => [[place, "."], [`colour ${place}`, ""], [`corner ${place}`, ""]]));
}

// A number of a clue is crossed off by hand, or isn't any more.
export const cross = (key) => change([[key, table.play.of(key) ? "" : "x"]]);

// The next sign of the chosen cell; with a mark only blank and dot are in turn.
export function turn(isMark) {
  const { play, at } = table, turns = isMark ? [".", "•"] : [".", GAMES[play.puzzle.game].sign, "•"];
  change([[at, turns[(turns.indexOf(play.state[at]) + 1) % turns.length]]]);
}

// A number that is chosen first goes into each cell that is clicked, until it is let go.
export function hold(number) {
  table.number = table.number === number ? "" : number;
  point(table.marks, []);
  say(table.number ? words.held(number) : "");
}
