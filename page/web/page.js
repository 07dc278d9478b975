// The page: what each button does, and the first puzzle.
import * as answers from "./answers.js";
import * as days from "./calendar.js";
import * as clock from "./clock.js";
import * as end from "./end.js";
import { GAMES } from "./games.js";
import * as hands from "./hands.js";
import { help } from "./help.js";
import * as keys from "./keys.js";
import { fill, words } from "./language.js";
import { ahead, generate, picture } from "./make.js";
import { begun, change, enter, go } from "./open.js";
import * as panels from "./panels.js";
import * as paper from "./paper.js";
import { follow, setLevels, tellWanted } from "./show.js";
import { allNotes, back, erase, mark, redo, startOver, undo } from "./acts.js";
import { $, point, say, table } from "./table.js";
import { zoom } from "./zoom.js";

const { check, close, hint, rest, solve, grade } = answers, { share } = panels, { calendar, todays } = days;
const clicks = { check, close, hint, rest, solve, grade, generate, fresh: generate, picture, today: todays, enter, undo, redo,
  erase, allNotes, mark, back, startOver, share, paper: () => print(), next: generate, brag: () => end.share(say),
    others: calendar, "month-of": calendar, explain: help, pause: () => clock.pause(),
  smaller: () => zoom(-1), larger: () => zoom(1) };
const changes = { game: change, size: setLevels, difficulty: tellWanted, begun };

fill();
for (const [name, act] of Object.entries(clicks)) $(name).addEventListener("click", () => act());
for (const [name, act] of Object.entries(changes)) $(name).addEventListener("change", () => act());
$("game").append(...Object.keys(GAMES).map((game) => new Option(words.games[game].choice, game)));
$("seed").addEventListener("keydown", (event) => event.key === "Enter" && generate());
table.changed = () => {
  answers.watch();
  ahead();
};
hands.listen();
keys.listen();
panels.lay();
paper.listen();
days.listen();
for (const button of document.querySelectorAll("[data-close]")) {
  button.addEventListener("click", () => button.closest("dialog").close());
}
clock.begin();
follow(() => point());
addEventListener("popstate", go);
addEventListener("unkept", () => setTimeout(() => say(words.said.unkept, "bad")), { once: true });
await go();
