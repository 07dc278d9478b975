// What a player asks of a puzzle: is it right so far, what comes next, what is the solution, how hard is it.
import { strike } from "./acts.js";
import { answer, ask, isBusy, reason } from "./ask.js";
import { Board, element } from "./board.js";
import { solved } from "./clock.js";
import { tell as end } from "./end.js";
import { words } from "./language.js";
import { gradeOf, levelOf } from "./levels.js";
import { pictureOf } from "./pictures.js";
import { call } from "./program.js";
import { presses } from "./presses.js";
import { isFilled, noted, places, print, scan } from "./puzzle.js";
import { mayBeWhole } from "./standing.js";
import { $, choose, point, say, table } from "./table.js";

const PAUSE = 300; // milliseconds after a step, before what may be the end is checked
let waiting, looked, asked; // what a hint has still to tell, and of which puzzle Solve was pressed once

const named = () => ({ game: table.play.puzzle.game, id: table.play.id });
const marks = (cells, why) => new Map(cells.map((place) => [place, why]));

// Of a puzzle with one solution, what stands elsewhere than there is wrong, however little is filled in. Of another one the
// rules alone tell, once it is filled.
export async function check() {
  const { puzzle, state } = table.play, told = await ask("solve", named(), { ofBoard: true });
  if (!told) return;
  if (told.verdict !== "one") return void checkRules(words.said[told.verdict]);
  const right = scan(puzzle, told.grids[0]), isRight = (sign, place) => sign.replace("•", ".") === right[place];
  const wrong = state.flatMap((sign, place) => (isFilled(sign) && !isRight(sign, place) ? place : []));
  const lacking = state.flatMap((sign, place) => (noted(sign)?.includes(Number(right[place])) === false ? place : []));
  if (!wrong.length && state.every((sign, place) => isFilled(sign) || right[place] === ".")) return void finish();
  point({ marked: new Map([...marks(lacking, "wrongNote"), ...marks(wrong, "wrong")]) });
  const said = [wrong.length && words.wrong(wrong.length), lacking.length && words.wrongNotes(lacking.length)].filter(Boolean);
  if (said.length) say(said.join(" "), "bad", words.because.wrong);
  else say(words.said.noMistake, "good", words.because.noMistake);
}

async function checkRules(before) {
  const { puzzle, state } = table.play, refused = () => say(`${before} ${words.said.fillFirst}`);
  const told = await ask("check", { ...named(), grid: print(puzzle, state) }, { ofBoard: true, refused });
  if (told?.verdict === "correct") finish();
  if (!told?.fault) return;
  point({ marked: marks(places(puzzle, told.fault), "marked") });
  say(words.brokenRule(puzzle, told.fault), "bad");
}

function finish() {
  const drawn = pictureOf(table.play.id);
  table.board.grid.classList.add("done");
  solved(table.play);
  say(drawn ? words.picture(words.pictures[drawn]) : words.said.correct, "good");
  end();
}

// The words go, and what they pointed out.
export function close() {
  looked = undefined;
  say("");
  point({});
}

// After a step that may be the last the board is checked without being asked.
export function watch() {
  table.board.grid.classList.remove("done");
  clearTimeout(waiting);
  if (mayBeWhole(table.board.standing)) waiting = setTimeout(tryEnd, PAUSE);
}

async function tryEnd() {
  const { puzzle, state } = table.play;
  if (!mayBeWhole(table.board.standing)) return;
  if (isBusy()) return void watch(); // once that is answered
  const told = await ask("check", { ...named(), grid: print(puzzle, state) }, { ofBoard: true });
  if (told?.verdict === "correct") finish();
  else if (told && puzzle.block) say(words.said.filledWrong, "bad");
}

// The first press shows where to look, each next one a step, and the last one what stands there. What a step has struck goes out
// of the player's notes.
export async function hint() {
  const { play } = table, { puzzle, state, version } = play;
  if (looked?.play === play && looked.version === version && looked.open.length) return next();
  const told = await answer(() => hinted(puzzle, state), { ofBoard: true });
  if (!told) return undefined;
  if (told.verdict) return say(words.noHint(words.said[told.verdict]), "bad");
  if (told.kind === "done") return check();
  looked = { play, version, open: presses(words, puzzle, told) };
  if (told.kind !== "wrong") play.hints += 1;
  return next();
}

function next(isAll = false) {
  if (looked.strikes) strike(looked.strikes);
  if (isAll) looked.open = looked.open.slice(-1);
  const [press, ...open] = looked.open, { text, note, isWrong, focus, house, witness = [], marked, struck = [], shown } = press;
  looked = { ...looked, version: looked.play.version, open, strikes: press.strikes };
  if (focus !== undefined) choose(focus, document.activeElement?.classList.contains("cell"));
  point({ marked: new Map(marked), struck: new Map(struck), shown: new Map(shown), house: new Set(house),
    witness: new Set(witness), isHint: !isWrong });
  say(text, isWrong ? "bad" : "", note);
  $("rest").hidden = open.length < 4;
}

// Leaves the steps out.
export const rest = () => next(true);

async function hinted(puzzle, state) {
  const solved = await call("solve", named());
  if (solved.verdict !== "one") return solved;
  const signs = state.map((sign) => (isFilled(sign) ? sign.replace("•", "x") : "."));
  return reason("hint", puzzle, signs, scan(puzzle, solved.grids[0]), { notes: state.map(noted), last: table.play.last });
}

// The first press only asks, for what was shown doesn't count as solved.
export async function solve() {
  const { play } = table, { puzzle } = play;
  if (asked !== play && !play.isShown) {
    asked = play;
    return say(words.said.solveAsk, "");
  }
  const told = await ask("solve", named());
  if (!told || play !== table.play) return;
  const grids = told.grids.map((rows) => scan(puzzle, rows)), [first, second] = grids;
  const differ = second ? first.flatMap((sign, place) => (sign === second[place] ? [] : place)) : [];
  play.isShown = true;
  $("solutions").replaceChildren(...grids.map((signs, k) => {
    const board = new Board(puzzle, words.solution(k + 1));
    board.paint({ state: signs, extras: {} }, { marked: marks(differ, "differs") });
    return element("figure", {}, board.grid, element("figcaption", {}, words.solution(k + 1)));
  }));
  const isStill = matchMedia("(prefers-reduced-motion: reduce)").matches;
  $("solutions").scrollIntoView({ block: "nearest", behavior: isStill ? "auto" : "smooth" });
  say(words.said[told.verdict] + (second ? ` ${words.differ(differ.length)}` : ""));
}

export async function grade() {
  const { play } = table, { game } = play.puzzle, told = await answer(() => gradeOf(call, reason, named()));
  if (!told || play !== table.play) return;
  say(told.grade ? words.grade(game, told, levelOf(game, told.grade, told.needs)) : words.said[told.verdict]);
}
