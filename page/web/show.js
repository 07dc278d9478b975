// A puzzle comes into play: onto the table, and into the address, the boxes and the list of those that were begun.
import { element } from "./board.js";
import * as clock from "./clock.js";
import { GAMES, isGame } from "./games.js";
import { keyOf, list, parts } from "./kept.js";
import { words } from "./language.js";
import { LEVELS, levelOf } from "./levels.js";
import { read } from "./puzzle.js";
import { refusal } from "./refusal.js";
import { progress } from "./standing.js";
import { attempt, named } from "./storage.js";
import { $, lay, say, table } from "./table.js";
import { zoom } from "./zoom.js";

// `promise` is what was told of its difficulty. The address is a new entry of the history, if not it named the puzzle.
/**
 * @param {string} game
 * @param {string} text
 * @param {{ promise?: { grade?: string, needs?: object, day?: string }, isNamed?: boolean }} options
 */
export function show(game, text, { promise = {}, isNamed = !table.play } = {}) {
  const puzzle = read(game, text), address = `#${game}/${text}`;
  lay(puzzle, text);
  const { play } = table;
  say("");
  if (promise.grade || promise.day) play.promise = promise;
  setGame(game, puzzle.size);
  $("id").value = text;
  refuse("");
  for (const name of ["act", "tools", "more"]) $(name).inert = false;
  const { grade, needs, day } = play.promise;
  const level = grade ? words.grade(game, play.promise, levelOf(game, grade, needs)) : "";
  $("level").textContent = day ? `${words.dayName(day)}. ${level}` : level;
  $("written").textContent = text;
  $("name").textContent = words.kind(game, puzzle.size);
  document.title = `${$("name").textContent} – puzzles`;
  if (play.isSolved) table.board.grid.classList.add("done");
  zoom(0);
  clock.show();
  listBegun();
  if (location.hash !== address) history[isNamed ? "replaceState" : "pushState"]({ promise: play.promise }, "", address);
}

// The boxes of game, size and difficulty, the size of the board among its choices.
export function setGame(game, size) {
  const sizes = GAMES[game].sizes.split(" ");
  $("game").value = game;
  $("picture").hidden = game !== "pattern";
  if (size && !sizes.includes(size)) sizes.push(size);
  $("size").replaceChildren(...sizes.map((choice) => new Option(words.size(game, choice), choice)));
  $("size").value = size || GAMES[game].usual;
  setLevels();
}

// Only what is made in time can be chosen.
export function setLevels() {
  const game = $("game").value, made = GAMES[game].levels[$("size").value] || LEVELS, before = $("difficulty").value;
  $("difficulty").replaceChildren(...[...LEVELS, ""].map((level) => new Option(words.levels[level || "any"], level)));
  for (const option of $("difficulty").options) option.disabled = option.value !== "" && !made.includes(option.value);
  $("difficulty").value = made.includes(before) || (before === "" && $("make").dataset.isSet) ? before : made[0] || "";
  $("make").dataset.isSet = "yes";
  tellWanted();
}

export function tellWanted() {
  $("wanted").textContent = words.wanted[$("game").value][$("difficulty").value] || "";
}

// Says why an ID was refused, and marks the place that is named.
export function refuse(why, text = "", game = "solo") {
  /** @type {{ said?: string, before?: string, marked?: string, behind?: string }} */
  const { said, before, marked, behind } = why ? refusal(why, text, game) : {};
  $("fault").replaceChildren(...(why ? [words.refused(said)] : []));
  if (marked !== undefined) $("fault").append(element("code", {}, before, element("mark", {}, marked), behind));
}

// The puzzles that were begun, the last one first, each with how much of it is filled.
function listBegun() {
  const options = list().reverse().flatMap((name) => {
    const [game, text] = [name.slice(0, name.indexOf("/")), name.slice(name.indexOf("/") + 1)];
    const kept = isGame(game) && parts(name), puzzle = kept && attempt(() => read(game, text));
    if (!puzzle || kept.signs.length !== puzzle.fixed.length) return [];
    const far = progress(puzzle, kept.signs);
    return new Option(words.begun(words.kind(game, puzzle.size), ...far, kept.isSolved === true), name);
  });
  $("begunBox").hidden = !options.length;
  $("begun").replaceChildren(new Option(words.page.choose, ""), ...options);
}

// Another page has the same puzzle open: what it keeps comes onto this table too.
export function follow(act) {
  addEventListener("storage", ({ key }) => {
    if (!table.play || key !== named(keyOf(table.play.name))) return;
    table.play.load();
    act();
  });
}
