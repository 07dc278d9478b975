// The rules of the game on the table by a small example, and its keys.
import { Board, element } from "./board.js";
import { GAMES } from "./games.js";
import { words } from "./language.js";
import { read, start } from "./puzzle.js";
import { $, table } from "./table.js";

function example(game, signs, caption) {
  const puzzle = read(game, GAMES[game].example), board = new Board(puzzle, caption);
  board.paint({ state: signs || start(puzzle), extras: {} }, {});
  return element("figure", { inert: "" }, board.grid, element("figcaption", {}, caption));
}

export function help() {
  const game = table.play ? table.play.puzzle.game : $("game").value, { name } = words.games[game];
  $("helped").textContent = words.helpOf(name);
  $("rules").replaceChildren(...words.help[game].map((text) => element("p", {}, text)));
  const [given, found] = words.examples;
  $("examples").replaceChildren(example(game, undefined, given), example(game, [...GAMES[game].solved], found));
  const rows = words.shortcuts[game === "solo" ? "solo" : "others"];
  const line = ([keys, act]) => element("tr", {}, element("th", {}, keys), element("td", {}, act));
  $("shortcuts").replaceChildren(...rows.map(line));
  $("help").showModal();
}
