// New puzzles: of a size, a difficulty and a seed, of a day, or one that was made while another one was played. What isn't there
// soon is made on behind, until it is stopped.
import { answer } from "./ask.js";
import { element } from "./board.js";
import { parts } from "./kept.js";
import { words } from "./language.js";
import { blackOf, make, makeKnown, within } from "./levels.js";
import { Limited } from "./limited.js";
import { AT_ONCE, call, callBehind } from "./program.js";
import { PICTURES } from "./pictures.js";
import { show } from "./show.js";
import { $, say, table } from "./table.js";

const SEEDS = 1_000_000, SOON = 3; // seeds that are drawn from, and seconds that a player waits before it goes on behind
const BEHIND = 300; // seconds in which it is given up behind
const PLAYED = 10, AHEAD = 30; // steps after which the next puzzle is made, and the seconds that this may take
const reasoner = new Limited("./reason.js"), reason = (name, ...about) => reasoner.ask(name, ...about);
const anySeed = () => String(Math.floor(Math.random() * SEEDS));

let making, ready; // what is being made, and what was made ahead

export const keptWords = () => (table.play && !table.play.isBlank ? words.said.keptBefore : "");

// Stops what is being made.
export function stop() {
  if (making) making.isStopped = true;
  making = undefined;
}

// Makes a puzzle, and shows it. `how` makes it, until it is told that it is over.
export async function begin(game, how, promise = {}, level = "") {
  stop();
  const mine = making = { isStopped: false, play: table.play, version: table.play?.version }, before = keptWords();
  const made = how(() => mine.isStopped), late = new Promise((resolve) => setTimeout(resolve, SOON * 1000, { isLate: true }));
  const refused = (why) => say(why === "size range" ? words.said.sizeRange : words.said.seed, "bad");
  const told = await answer(() => Promise.race([made, late]), { refused });
  if (told?.isLate || (!told && !mine.isStopped)) {
    if (told) wait();
    return void later(mine, made, (found) => finished(game, found, promise, level));
  }
  if (making === mine) making = undefined;
  if (!told) return;
  const { play } = table;
  finished(game, told, promise, level);
  if (told.id && play !== table.play) say("", "", before);
}

function finished(game, told, promise, level) {
  if (told.id && table.play?.name === `${game}/${told.id}`) return void say(words.said.same);
  if (told.id) return void show(game, told.id, { promise: { grade: told.grade, needs: told.needs, ...promise } });
  if (told.failed) say(words.said[told.failed] || words.said.level, "bad");
  else say(level ? words.said.level : words.said.noPuzzle, "bad");
}

// The words of what is still being made, with the button that stops it.
function wait() {
  const button = element("button", { class: "rest" }, words.page.stop);
  button.addEventListener("click", () => {
    stop();
    say(words.said.stopped);
  });
  say(words.said.still);
  $("answer").append(button);
}

// What was made behind is shown at once if nothing was done meanwhile, and else offered.
async function later(mine, made, act) {
  const told = await made, { play } = table;
  if (making === mine) making = undefined;
  if (mine.isStopped || told.refused) return;
  if (!told.id || (play === mine.play && (!play || play.version === mine.version || play.isBlank))) return void act(told);
  const button = element("button", { class: "rest" }, words.page.enter);
  button.addEventListener("click", () => act(told));
  say(words.said.made);
  $("answer").append(button);
}

/** @type {() => any} */
const wished = () => Object.fromEntries(["game", "size", "difficulty"].map((box) => [box, $(box).value]));
const kindOf = ({ game, size, difficulty }) => `${game} ${size} ${difficulty}`;

export async function generate() {
  const seed = $("seed").value.trim(), wish = wished(), { game, size, difficulty: level } = wish;
  if (seed && !/^\d{1,20}$/.test(seed)) return void say(words.said.seed, "bad");
  $("seed").value = "";
  const found = ready;
  if (!seed && found?.id && found.kind === kindOf(wish) && found.id !== table.play?.id) {
    const before = keptWords();
    ready = undefined;
    stop();
    show(game, found.id, { promise: { grade: found.grade, needs: found.needs } });
    return void say("", "", before);
  }
  const asked = { game, size, seed: seed || anySeed(), level, ...blackOf(game, size) };
  const end = within(SOON);
  await begin(game, (isStopped) => makeFrom(asked, () => isStopped() || (!level && end())), {}, level);
}

// At first with all calls that a page may make at a time, and behind one by one, so that a player's own calls have room.
async function makeFrom(asked, isOver) {
  const soon = within(SOON), told = await make(call, reason, asked, AT_ONCE, () => isOver() || soon());
  if (!told.next || !asked.level || isOver()) return told;
  const end = within(BEHIND);
  return make(callBehind, reason, { ...asked, seed: told.next }, 1, () => isOver() || end());
}

// While a puzzle is played, from some steps on, the next one of its kind is made.
export async function ahead() {
  const wish = wished(), { game, size, difficulty: level } = wish, kind = kindOf(wish);
  if (table.play.done.length < PLAYED || making || ready?.kind === kind) return;
  const end = within(AHEAD);
  ready = { kind };
  const asked = { game, size, seed: anySeed(), level, ...blackOf(game, size) };
  const told = await make(callBehind, reason, asked, 1, end);
  if (ready?.kind === kind && told.id) ready = { ...told, kind };
}

// A drawing that hasn't been solved yet, if there is one left.
export function picture() {
  const all = Object.values(PICTURES), open = all.filter((id) => !parts(`pattern/${id}`).isSolved);
  const from = open.length ? open : all;
  show("pattern", from[Math.floor(Math.random() * from.length)]);
}

// The puzzle of a day, of a seed that is known to have the level.
export async function known(game, size, level, seed, promise) {
  const asked = { game, size, seed, level, ...blackOf(game, size) };
  await begin(game, (isOver) => makeKnown(callBehind, reason, asked, isOver), promise, level);
}
