// What a visitor has filled in is kept in the browser, for each puzzle, with its steps, so that a reload or a look at another
// one loses nothing. A bounded number of puzzles is kept, and of more the oldest goes. A browser that keeps nothing is no fault.
import { isDay } from "./days.js";
import { attempt, drop as remove, get, set } from "./storage.js";

const MOST = 50, STEPS = 1000, LIST = "puzzles";
export const keyOf = (name) => `puzzles ${name}`;

const isText = (value) => typeof value === "string";
export const list = () => attempt(() => JSON.parse(get(LIST)).filter(isText)) || [];

function drop(names) {
  const [oldest, ...others] = names;
  remove(keyOf(oldest));
  return others;
}

// Keeps a puzzle under its name, or nothing of one that is as it was at first. If there is no room, older puzzles go until there
// is. The page is told where even that doesn't help.
export function keep(name, parts) {
  const recent = (steps) => steps.slice(-STEPS);
  const shortened = () => ({ ...parts, signs: parts.signs.join(), done: recent(parts.done), undone: recent(parts.undone) });
  const text = parts && JSON.stringify(shortened());
  const isKept = () => attempt(() => set(keyOf(name), text) || true);
  let isThere = false;
  attempt(() => {
    let names = list().filter((other) => other !== name);
    while (names.length >= MOST) names = drop(names);
    isThere = !parts || isKept();
    if (!parts) remove(keyOf(name));
    while (!isThere && names.length) {
      names = drop(names);
      isThere = isKept();
    }
    set(LIST, JSON.stringify(parts ? [...names, name] : names));
  });
  if (!isThere && parts) dispatchEvent(new Event("unkept"));
}

// What was kept: its parts, of which nothing is known yet. Signs alone are what an older version kept.
export function parts(name) {
  const text = get(keyOf(name)) || "";
  const found = attempt(() => JSON.parse(text));
  return found && isText(found.signs) ? { ...found, signs: found.signs.split(",") } : text && { signs: text.split(",") };
}

// What was kept of a puzzle, if each sign may stand in its cell. Steps that can't be are left out.
export function kept(name, puzzle) {
  const found = parts(name);
  const isNumber = (sign) => /^[1-9]\d?$/.test(sign) && Number(sign) <= puzzle.w;
  const isNote = (sign) => sign[0] === "'" && sign.slice(1).split(" ").every(isNumber);
  const isSolo = (sign) => sign === "." || isNumber(sign) || isNote(sign);
  const mayStand = (sign) => isText(sign) && (puzzle.block ? isSolo(sign) : /^[.•#O^]$/.test(sign));
  const fits = (sign, place) => (puzzle.fixed[place] ? sign === puzzle.fixed[place] : mayStand(sign));
  if (!found || found.signs.length !== puzzle.fixed.length || !found.signs.every(fits)) return undefined;
  const isPlace = (key) => Number.isInteger(key) && puzzle.fixed[key] === "";
  const isCorner = (key, value) => /^corner \d+$/.test(key) && (!value || value.split(" ").every(isNumber));
  const isExtra = (key, value) =>
    isCorner(key, value) || (/^(colour|row|column) [\d.]+$/.test(key) && /^[1-6x]?$/.test(value));
  const isChange = ([key, ...both]) => (isPlace(key) ? both.every(mayStand) : both.every((value) => isExtra(key, value)));
  const steps = (all) => attempt(() => (all.flat().every(isChange) ? all : [])) || [];
  const extras = Object.entries(found.extras || {}).filter(([key, value]) => isExtra(key, value));
  return { ...found, extras: Object.fromEntries(extras), done: steps(found.done), undone: steps(found.undone),
    promise: promised(found.promise) };
}

// A grade, what a puzzle needs and the day whose puzzle it is, if they look like these.
export function promised(found) {
  const day = isDay(found?.day) ? { day: found.day } : {};
  if (!/^(singles|houses|crossings|lines|local|search \d+)$/.test(found?.grade)) return day;
  const areTimes = attempt(() => Object.values(found.needs).every(Number.isInteger));
  return { grade: found.grade, needs: areTimes ? found.needs : undefined, ...day };
}

// The puzzle that was looked at last: of a game, or of all.
export function look(game, id) {
  attempt(() => [game, "any"].forEach((of) => set(keyOf(`last ${of}`), `${game}/${id}`)));
}
export const last = (game = "any") => get(keyOf(`last ${game}`)) || "";
