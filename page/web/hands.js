// Mouse and finger on the board.
//
// A mouse that is moved with its button down draws: cells that look as the first one did get its new sign, in one step of undo.
// In Solo it chooses several cells. A finger scrolls, as everywhere. After a short hold without moving it does what a mouse does.
// A tap is a click.
import { settings } from "./settings.js";
import { change, cross, enter, hold, turn } from "./acts.js";
import { $, MODES, choose, chooseMore, setMode, table } from "./table.js";

const HOLD = 250; // milliseconds
const STILL = 8; // pixels that a finger may move while it holds

let pointer = "", stroke, holding, down, held = "";

const placeOf = (target) => table.board && table.board.places.get(target.closest?.(".cell"));

function begin(place, isMark) {
  if (table.play.puzzle.block) {
    stroke = { place };
    return;
  }
  const before = table.play.state[place];
  turn(isMark);
  const sign = table.play.state[place];
  stroke = sign === before ? undefined : { before, sign, place };
}

// Goes on to a cell, over those between if the hand was fast.
function drawTo(place) {
  const { w, block } = table.play.puzzle, from = stroke.place;
  const across = (place % w) - (from % w), along = Math.floor(place / w) - Math.floor(from / w);
  const steps = Math.max(Math.abs(across), Math.abs(along)), wanted = [];
  for (let k = 1; k <= steps; k += 1) wanted.push(from + Math.round((across * k) / steps) + w * Math.round((along * k) / steps));
  stroke.place = place;
  if (block) return wanted.forEach(chooseMore);
  return change(wanted.filter((next) => table.play.state[next] === stroke.before).map((next) => [next, stroke.sign]), true);
}

// A cell of Solo is chosen, with those before it if Control is held; and gets the number that was chosen first.
function touchCell(place, isMore) {
  if (isMore) chooseMore(place);
  else choose(place);
  if (table.number && !isMore) enter(table.number);
}

function press(event) {
  const place = placeOf(event.target);
  pointer = event.pointerType;
  if (pointer === "touch" || place === undefined) return;
  if (table.play.puzzle.block) touchCell(place, event.ctrlKey || event.metaKey);
  else choose(place);
  begin(place, event.button === 2);
}

function move(event) {
  const place = placeOf(event.target);
  if (pointer === "touch" || event.pointerType === "touch") return;
  if (place !== undefined && settings.near && !table.play.puzzle.block) table.board.point(place);
  if (!stroke) return;
  if (!event.buttons) stroke = undefined;
  else if (place !== undefined && place !== stroke.place) drawTo(place);
}

// The number of a clue that is nearest, so that a finger needn't hit it.
function nearest(clue, { target, clientX, clientY }) {
  const far = (span) => {
    const { left, right, top, bottom } = span.getBoundingClientRect();
    return span === target ? -1 : Math.hypot((left + right) / 2 - clientX, (top + bottom) / 2 - clientY);
  };
  return [...clue.children].reduce((best, span) => (far(span) < far(best) ? span : best));
}

// A tap, or a click of a screen reader; a mouse has done its work when it was pressed. A number of a clue is crossed off.
function click(event) {
  const place = placeOf(event.target), clue = event.target.closest(".clue");
  if (clue) return cross(nearest(clue, event).dataset.key);
  if (place === undefined || (pointer !== "touch" && event.detail > 0)) return undefined;
  if (table.play.puzzle.block) return touchCell(place, false);
  choose(place);
  return turn(false);
}

function touchStart(event) {
  const place = placeOf(event.target), [{ clientX, clientY }] = event.touches;
  clearTimeout(holding);
  [stroke, down] = [undefined, { clientX, clientY }];
  if (place === undefined || event.touches.length > 1) return;
  holding = setTimeout(() => {
    choose(place);
    begin(place, false);
    if (/** @type {any} */ (navigator).userActivation?.hasBeenActive) navigator.vibrate?.(15);
  }, HOLD);
}

function touchMove(event) {
  const [{ clientX, clientY }] = event.touches;
  if (!stroke && Math.hypot(clientX - down.clientX, clientY - down.clientY) > STILL) clearTimeout(holding);
  if (!stroke || !event.cancelable) return;
  event.preventDefault(); // a finger that draws doesn't scroll
  const place = placeOf(document.elementFromPoint(clientX, clientY) || event.target);
  if (place !== undefined && place !== stroke.place) drawTo(place);
}

function touchEnd(event) {
  clearTimeout(holding);
  if (stroke && event.cancelable) event.preventDefault(); // no click comes of it
  stroke = undefined;
}

// A button of a number: a press puts it into the chosen cells, and a hold keeps it for the cells that are clicked next.
function pad({ target }) {
  const number = target.closest("button")?.value;
  if (!number || held === number) {
    held = "";
    return;
  }
  if (table.number) hold(number);
  else if (!table.mode && !table.chosen.size && number === table.play.state[table.at]) enter(".");
  else enter(number);
}

function padDown({ target }) {
  const number = target.closest("button")?.value;
  clearTimeout(holding);
  held = "";
  if (!number || table.mode === "colours") return;
  holding = setTimeout(() => {
    held = number;
    if (table.number !== number) hold(number);
  }, 2 * HOLD);
}

export function listen() {
  const stage = $("stage"), on = { pointerdown: press, pointermove: move, click, touchend: touchEnd, touchcancel: touchEnd };
  for (const [event, act] of Object.entries(on)) stage.addEventListener(event, act);
  stage.addEventListener("touchstart", touchStart, { passive: true });
  stage.addEventListener("touchmove", touchMove, { passive: false });
  stage.addEventListener("contextmenu", (event) => event.preventDefault());
  document.addEventListener("pointerup", () => {
    if (pointer !== "touch") stroke = undefined;
    clearTimeout(holding);
  });
  $("pad").addEventListener("click", pad);
  $("pad").addEventListener("pointerdown", padDown);
  $("pad").addEventListener("contextmenu", (event) => event.preventDefault());
  for (const mode of MODES) $(mode).addEventListener("click", () => setMode(table.mode === mode ? "" : mode));
}
