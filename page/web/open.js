// Puzzles that are opened: by an ID, a link or a line of a sudoku, by the address, or as they were left.
import { ask, forget } from "./ask.js";
import { GAMES, isGame } from "./games.js";
import { last, promised } from "./kept.js";
import { words } from "./language.js";
import { generate, keptWords } from "./make.js";
import { meant, parts, plain } from "./meant.js";
import { refuse, setGame, show } from "./show.js";
import { $, say, table } from "./table.js";

// An ID is tried by a check of no grid, which searches nothing: if that grid is what is refused, the ID is good. Gives whether
// it is, and nothing if there was no answer.
async function isGood(game, text, refused) {
  let told;
  await ask("check", { game, id: text, grid: "" }, { refused: (why) => {
    told = why === "grid";
    if (!told) refused(why);
  } });
  return told;
}

async function open(game, text, options) {
  const good = await isGood(game, text, (why) => refuse(why, text, game));
  if (good) show(game, text, options);
  return good;
}

// If the game that is chosen refuses an ID, another one may take it.
export async function enter() {
  const chosen = $("game").value, { game, text, fault: unfit, called } = meant($("id").value.trim(), chosen);
  say("");
  if (unfit) return void $("fault").replaceChildren(called ? words.unknown(called) : words.said[unfit]);
  if (await open(game, text) !== false || game !== chosen) return;
  const fault = [...$("fault").childNodes];
  for (const other of Object.keys(GAMES).filter((name) => name !== game)) {
    if (!await isGood(other, text, () => {})) continue;
    show(other, text);
    return void say(words.otherGame(other));
  }
  $("fault").replaceChildren(...fault);
}

// A game that is chosen goes on where it was left; else a new puzzle of it is made.
export async function change() {
  const game = $("game").value, [, , text] = parts(last(game)), before = keptWords();
  setGame(game);
  const good = text ? await open(game, text) : false;
  if (good) say("", "", before);
  if (good === false) await generate();
}

export async function begun() {
  const [, game, text] = parts($("begun").value);
  if (isGame(game)) await open(game, text);
}

// What the address names. If it can't be opened that is said, and there is a board all the same.
export async function go() {
  const hash = plain(location.hash.slice(1)), [, game, text] = parts(hash);
  forget();
  if (table.play?.name === `${game}/${text.trim()}`) return;
  const good = isGame(game) ? await open(game, text.trim(), { promise: promised(history.state?.promise), isNamed: true }) : false;
  if (good || (good === undefined && table.play)) return;
  const why = isGame(game) ? [...$("fault").childNodes] : [hash && words.said.link];
  const fault = good === undefined ? [words.said.unopened] : why;
  if (table.play) history.replaceState({ promise: table.play.promise }, "", `#${table.play.name}`);
  else await first(hash, game);
  $("fault").replaceChildren(...fault);
  if (hash) {
    $("id").value = text;
    say(fault.map((part) => part.textContent ?? part).join(" "), "bad"); // on a phone the box is far below
  }
}

// The first board: of what was played last, if the address names nothing, or a new one. If none can be made there is an example.
async function first(hash, named) {
  const [, before, text] = parts(hash ? "" : last()), game = isGame(named) ? named : "solo";
  if (isGame(before) && await open(before, text)) return;
  setGame(game);
  await generate();
  if (table.play) return;
  const why = $("answer").textContent; // which a new board clears
  show(game, GAMES[game].example);
  say(why, "bad");
}
