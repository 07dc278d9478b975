// What a step of reasoning is, in each game: the cells that are looked at, why it says something,
// and the candidates that it takes away. A candidate is a cell and a value in one number: in Solo
// the value is the number, else 1 for a filled cell and 0 for one that stays empty.
//
// A reason is data: its kind, and what the words of a language (languages/) need.
const VALUES = 64;

export const candidate = (cell, value) => cell * VALUES + value;
export const cellOf = (candidate) => Math.floor(candidate / VALUES);
export const valueOf = (candidate) => candidate % VALUES;

// `rests` are the candidates that have to be away already for the step to hold.
export const step = (cells, why, strikes, rests = []) =>
  ({ cells, why, strikes: new Set(strikes), rests: new Set(rests) });

export function without(cans, strikes) {
  for (const struck of strikes) cans[cellOf(struck)].delete(valueOf(struck));
}

// A step by what is away, or nothing if it doesn't hold then. One with choices is made of those that hold.
function held(one, isGone) {
  const areGone = ({ rests }) => [...rests].every(isGone);
  if (!one.choices || areGone(one)) return areGone(one) ? one : undefined;
  const ways = one.choices.map((some) => some.find(areGone));
  return ways.every(Boolean) ? one.choose(ways) : undefined;
}

// The steps, if each holds once those before it are done.
export function hold(steps, isAway) {
  const gone = new Set(), all = [];
  for (const one of steps) {
    const made = held(one, (at) => gone.has(at) || isAway(at));
    if (!made) return undefined;
    all.push(made);
    one.strikes.forEach((at) => gone.add(at));
  }
  return all;
}

// Of some steps in order those on which the last one rests, and of these none that can be left out. The later ones are tried
// first, since one that is left out may be all that rests on an earlier one.
export function needed(steps, isAway) {
  let kept = traced(steps, isAway);
  for (const one of kept.slice(0, -1).reverse()) {
    const fewer = hold(kept.filter((other) => other.strikes !== one.strikes), isAway);
    if (fewer) kept = fewer;
  }
  return kept;
}

function traced(steps, isAway) {
  const kept = [steps.at(-1)], rests = new Set([...kept[0].rests].filter((at) => !isAway(at)));
  for (const before of steps.slice(0, -1).reverse()) {
    if (![...before.strikes].some((struck) => rests.has(struck))) continue;
    kept.push(before);
    before.strikes.forEach((struck) => rests.delete(struck));
    before.rests.forEach((struck) => isAway(struck) || rests.add(struck));
  }
  return kept.reverse();
}

// A house is a name, as ["row", 3], and its cells.
export const houses = (kind, lines) => lines.map((cells, k) => ({ name: [kind, k + 1], cells }));

// How far two cells are from each other, as a king walks.
export const distance = ({ w }, a, b) =>
  Math.max(Math.abs((a % w) - (b % w)), Math.abs(Math.floor(a / w) - Math.floor(b / w)));

// The kinds of steps that look at one house.
export const SIMPLE = ["last", "single", "place", "laid", "hasBulbs", "needsBulbs", "lit", "oneLight", "oneTent", "hasTents",
  "needsTents", "touch"];
