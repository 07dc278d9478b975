// The puzzles of the days: a button for today's, and a calendar of those before.
import { element } from "./board.js";
import { all, monthOf, nameOf, seedOf, streak, today } from "./days.js";
import { GAMES } from "./games.js";
import { language, words } from "./language.js";
import { known } from "./make.js";
import { $, say } from "./table.js";

let month; // a day of the month that is shown

const kind = () => {
  const game = $("game").value, level = $("difficulty").value || "medium";
  return { game, level, size: GAMES[game].usual };
};

// Opens the puzzle of a day, of the game and the difficulty that are chosen.
async function open(day) {
  const { game, size, level } = kind(), { SEEDS } = await import("./seeds.js");
  $("calendar").close();
  say(words.day(day));
  await known(game, size, level, seedOf(SEEDS[`${game} ${size} ${level}`], day), { day });
}

function dayButton({ name, number }, done, last) {
  const { game, size, level } = kind(), found = done[name] || {}, isDone = Boolean(found[`${game} ${size} ${level}`]);
  const made = element("button", { value: name, class: isDone ? "done" : Object.keys(found).length ? "some" : "" }, number);
  made.disabled = name > last;
  made.ariaLabel = words.dayName(name, isDone);
  if (name === last) made.ariaCurrent = "date";
  made.addEventListener("click", () => open(name));
  return made;
}

// The month, with a mark on each day whose puzzle was solved.
function lay() {
  const done = all(), last = today(), { game, size, level } = kind(), days = monthOf(month), rows = [[]];
  for (const day of days) {
    if (day.weekday === 0 && rows.at(-1).length) rows.push([]);
    rows.at(-1).push(day);
  }
  const cell = (day) => element("td", {}, day ? dayButton(day, done, last) : "");
  const line = (row) => element("tr", {}, ...Array.from({ length: 7 }, (_, k) => cell(row.find(({ weekday }) => weekday === k))));
  const named = new Intl.DateTimeFormat(language, { month: "long", year: "numeric", timeZone: "UTC" }).format(Date.parse(month));
  const heads = Array.from({ length: 7 }, (_, k) => new Intl.DateTimeFormat(language, { weekday: "short", timeZone: "UTC" })
    .format(Date.UTC(2024, 0, 1 + k)));
  $("month").textContent = named;
  $("days").replaceChildren(element("tr", {}, ...heads.map((text) => element("th", {}, text))), ...rows.map(line));
  $("later").disabled = month.slice(0, 7) >= last.slice(0, 7);
  const { now, most } = streak(done);
  $("streak").textContent = words.streak(now, most);
  $("kind").textContent = words.kind(game, size, level);
}

function move(step) {
  const [year, number] = month.split("-").map(Number);
  month = nameOf(new Date(year, number - 1 + step, 1));
  lay();
}

export function calendar() {
  month = today();
  lay();
  $("calendar").showModal();
}

export const todays = () => open(today());

export function listen() {
  $("earlier").addEventListener("click", () => move(-1));
  $("later").addEventListener("click", () => move(1));
}
