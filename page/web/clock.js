// The time that a puzzle takes, and what was solved. Both stay on the device.
import { element } from "./board.js";
import { mark } from "./days.js";
import { words } from "./language.js";
import { levelOf } from "./levels.js";
import { settings } from "./settings.js";
import { attempt, get, set } from "./storage.js";
import { $, table } from "./table.js";

const KEY = "puzzles solved", OFTEN = 10; // seconds between two times that the clock is kept

export const timeWords = (seconds) => {
  const two = (number) => String(number).padStart(2, "0"), minutes = Math.floor(seconds / 60);
  return `${minutes >= 60 ? `${Math.floor(minutes / 60)}:${two(minutes % 60)}` : minutes}:${two(Math.floor(seconds % 60))}`;
};

// While the clock is stopped the board is hidden, so that nobody thinks on.
export function pause(isPaused = !document.body.classList.contains("paused")) {
  document.body.classList.toggle("paused", isPaused);
  $("puzzle").inert = isPaused;
  $("pause").ariaPressed = String(isPaused);
  $("pause").textContent = isPaused ? words.page.goOn : words.page.pause;
}

export function show() {
  $("clock").hidden = $("pause").hidden = !settings.clock;
  $("clock").value = table.play ? timeWords(table.play.seconds) : "";
}

function tick() {
  const { play } = table, isPaused = document.body.classList.contains("paused");
  if (!play || document.hidden || isPaused || play.isSolved || play.isShown || play.isBlank) return;
  play.seconds += 1;
  if (play.seconds % OFTEN === 0) play.keep();
  show();
}

export function begin() {
  setInterval(tick, 1000);
  addEventListener("pagehide", () => table.play && !table.play.isBlank && table.play.keep());
}

const isRow = ([, row]) => [row?.count, row?.best ?? 0, row?.sum].every(Number.isFinite);
const rows = () => Object.fromEntries(Object.entries(attempt(() => JSON.parse(get(KEY))) || {}).filter(isRow));

// Counts a puzzle that was solved, once, and not if its solution was shown. The best time is one without hints.
export function solved(play) {
  if (play.isSolved || play.isShown) return;
  const { puzzle: { game, size }, seconds, hints, promise: { grade, needs, day } } = play;
  const kind = `${game} ${size} ${grade ? levelOf(game, grade, needs) : ""}`;
  const all = rows(), { count = 0, alone = count, best, sum = 0 } = all[kind] || {};
  const own = hints ? best ?? null : Math.min(best ?? Infinity, seconds);
  all[kind] = { count: count + 1, alone: alone + Number(!hints), best: own, sum: sum + seconds };
  attempt(() => set(KEY, JSON.stringify(all)));
  if (day) mark(day, kind, { seconds, hints });
  play.isSolved = true;
  play.keep();
  list();
}

// The table of what was solved.
export function list() {
  const line = (tag, texts) => element("tr", {}, ...texts.map((text) => element(tag, {}, text)));
  const body = Object.entries(rows()).map(([kind, { count, alone = count, best, sum }]) => {
    const [game, size, level] = kind.split(" ");
    const least = Number.isFinite(best) ? timeWords(best) : "–";
    return line("td", [words.kind(game, size, level), count, alone, least, timeWords(sum / count)]);
  });
  $("solved").hidden = !body.length;
  $("solved").querySelector("table").replaceChildren(line("th", words.solvedHeads), ...body);
}
