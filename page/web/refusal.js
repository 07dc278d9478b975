// Where an ID is refused: why, and the place that is named, with what stands before and behind it.
import { GAMES } from "./games.js";
import { words } from "./language.js";
import { kindOf } from "./puzzle.js";

const AROUND = 24; // characters on either side

export function refusal(why, text, game) {
  const kind = kindOf(why), number = parseInt(why.replace(/\D+/, ""), 10), told = words.refusals[kind] || why;
  const said = typeof told === "function" ? told(GAMES[game].example) : told;
  if (Number.isNaN(number)) return { said };
  const clue = number ? text.split("/").slice(0, number).join("/").length + 1 : text.indexOf(":") + 1;
  const byte = new TextDecoder().decode(new TextEncoder().encode(text).slice(0, number)).length;
  const at = kind === "line" ? clue : byte, [marked] = text.slice(at).match(kind === "bad byte" ? /^.?/su : /^[\d.]{0,24}/);
  const end = at + marked.length;
  return { said, before: text.slice(Math.max(0, at - AROUND), at), marked, behind: text.slice(end, end + AROUND) };
}
