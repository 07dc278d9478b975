// What is asked of the program and of the reasoner, and whether its answer still matters.
import { words } from "./language.js";
import { Limited } from "./limited.js";
import { call } from "./program.js";
import { say, table } from "./table.js";

const reasoner = new Limited("./reason.js");
let asked = 0;

export const reason = (name, ...about) => reasoner.ask(name, ...about);
export const isBusy = () => document.body.ariaBusy === "true";

// Nothing comes of what was asked before.
export function forget() {
  asked += 1;
  document.body.ariaBusy = "false";
}

export const ask = (name, fields, options) => answer(() => call(name, fields), options);

// What comes of some calls, in parts. It is undefined if there is no answer, which is said then, if something else was asked
// since, or if it would be about a board that isn't there any more.
/**
 * @param {() => any} act
 * @param {{ ofBoard?: boolean, refused?: (why: string) => any }} options
 */
export async function answer(act, { ofBoard = false, refused = () => say(words.said.refused, "bad") } = {}) {
  const mine = (asked += 1), { play } = table, version = play?.version;
  document.body.ariaBusy = "true";
  const told = await act();
  if (mine !== asked) return undefined;
  document.body.ariaBusy = "false";
  if (ofBoard && (table.play !== play || play.version !== version)) return undefined;
  if (told.failed) return say(words.said[told.failed], "bad");
  return told.refused ? refused(told.refused) : told;
}
