// Keys on the board.
import { change, enter, erase, redo, turn, undo } from "./acts.js";
import { close } from "./answers.js";
import { $, choose, chooseMore, table } from "./table.js";

const SOON = 1000; // milliseconds between two digits of one number
const BUTTONS = { h: "hint", c: "check", "?": "explain", "+": "larger", "-": "smaller" }, OF_SOLO = { n: "notes", k: "corners" };

/** @type {any} */
let typed = { text: "" };

// A number from a key: a digit, or a letter for 10 and more. Two digits soon after one another are one number.
function numberOf(event) {
  const { play, at } = table, mode = event.shiftKey ? "notes" : table.mode;
  const digit = /^Digit\d$/.test(event.code) ? event.code[5] : event.key;
  const letter = /^[a-zA-Z]$/.test(event.key) ? String(event.key.toLowerCase().charCodeAt(0) - 87) : "";
  const isSoon = typed.at === at && typed.mode === mode && event.timeStamp - typed.time < SOON, longer = typed.text + digit;
  const number = [letter, isSoon ? longer : "", digit].find((text) => /^[1-9]\d?$/.test(text) && Number(text) <= play.puzzle.w);
  if (number) typed = { text: number, at, mode, time: event.timeStamp, isLonger: number === longer && isSoon };
  return number;
}

function type(number, { mode, isLonger }) {
  const isNote = ["notes", "corners"].includes(mode);
  if (isNote && isLonger) enter(number.slice(0, -1), mode); // the first digit was taken for a note of its own
  enter(number, mode);
}

function arrow(event, next) {
  const { puzzle, state } = table.play, sign = state[table.at], isDrawing = event.shiftKey && puzzle.fixed[table.at] === "";
  if (event.shiftKey && puzzle.block) return chooseMore(next);
  choose(next);
  return isDrawing ? change([[next, sign]]) : undefined;
}

// Where a key leads: no further than the edge, and nowhere if it is a key of another kind.
function nextPlace(pressed) {
  const { w, h } = table.play.puzzle, { at } = table, x = at % w, y = Math.floor(at / w);
  const [a, b] = { ArrowLeft: [x - 1, y], ArrowRight: [x + 1, y], ArrowUp: [x, y - 1], ArrowDown: [x, y + 1],
    Home: [0, y], End: [w - 1, y] }[pressed] || [];
  if (a === undefined) return undefined;
  return a >= 0 && a < w && b >= 0 && b < h ? b * w + a : at;
}

// What a key does, if it does anything.
function actOf(event) {
  const pressed = event.key, { block } = table.play.puzzle, next = nextPlace(pressed), number = block && numberOf(event);
  const letter = event.shiftKey && pressed !== "?" && pressed !== "+" ? "" : pressed.toLowerCase();
  if (pressed === "Escape") return close;
  if (next !== undefined) return () => arrow(event, next);
  if (["Delete", "Backspace", "0"].includes(pressed)) return erase;
  if (number) return () => type(number, typed);
  if (!block && [" ", "Enter", "x"].includes(letter)) return () => event.repeat || turn(letter === "x");
  const button = BUTTONS[letter] || (block && OF_SOLO[letter]);
  return button && (() => event.repeat || $(button).click());
}

function key(event) {
  if (!table.play || event.target.closest("input, textarea, select, summary, dialog")) return;
  if (document.body.classList.contains("paused")) return;
  const isCommand = event.ctrlKey || event.metaKey;
  if (isCommand && !event.altKey && /^[zy]$/i.test(event.key)) {
    event.preventDefault();
    if (event.key.toLowerCase() === "y" || event.shiftKey) redo();
    else undo();
    return;
  }
  if (isCommand || event.altKey || (event.target.closest("button") && [" ", "Enter"].includes(event.key))) return;
  const act = actOf(event);
  if (!act) return;
  act();
  event.preventDefault();
}

export const listen = () => document.addEventListener("keydown", key);
