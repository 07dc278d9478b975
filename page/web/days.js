// The puzzle of each day: the same one for all, by a list of seeds that are known to give its level quickly (seeds.js). What was
// solved on which day stays on the device.
import { attempt, get, set } from "./storage.js";

const KEY = "puzzles days", DAY = 24 * 60 * 60 * 1000, FIRST = Date.UTC(2026, 0, 1);

export const nameOf = (date) =>
  [date.getFullYear(), date.getMonth() + 1, date.getDate()].map((part) => String(part).padStart(2, "0")).join("-");
export const today = () => nameOf(new Date());
export const isDay = (text) => /^\d{4}-\d\d-\d\d$/.test(text) && !Number.isNaN(Date.parse(text));

// So many days after another one.
export const shifted = (day, count) => new Date(Date.parse(day) + count * DAY).toISOString().slice(0, 10);

// Of a list of seeds the one of a day. The list begins anew when it is over.
export function seedOf(seeds, day) {
  const count = Math.round((Date.parse(day) - FIRST) / DAY), { length } = seeds;
  return String(seeds[((count % length) + length) % length]);
}

// The days of a month, each with its place in a week that begins on Monday.
export function monthOf(day) {
  const [year, month] = day.split("-").map(Number), last = new Date(Date.UTC(year, month, 0)).getUTCDate();
  return Array.from({ length: last }, (_, k) => {
    const name = `${day.slice(0, 8)}${String(k + 1).padStart(2, "0")}`;
    return { name, number: k + 1, weekday: (new Date(Date.parse(name)).getUTCDay() + 6) % 7 };
  });
}

// What was solved: by day, the kinds, each with its seconds, its hints, and whether it was on that day itself.
export function all() {
  const found = attempt(() => JSON.parse(get(KEY))) || {};
  return Object.fromEntries(Object.entries(found).filter(([day, kinds]) => isDay(day) && typeof kinds === "object" && kinds));
}

export function mark(day, kind, { seconds, hints }, now = today()) {
  const days = all(), kinds = days[day] || {};
  if (kinds[kind]) return;
  days[day] = { ...kinds, [kind]: { seconds, hints, isOnDay: day === now } };
  attempt(() => set(KEY, JSON.stringify(days)));
}

// How many days in a row, up to today or yesterday, had a puzzle of theirs solved on the day itself; and the most that were.
export function streak(days, now = today()) {
  const done = new Set(Object.keys(days).filter((day) => Object.values(days[day]).some(({ isOnDay }) => isOnDay)));
  const back = (from) => {
    let count = 0;
    while (done.has(shifted(from, -count))) count += 1;
    return count;
  };
  return { now: back(done.has(now) ? now : shifted(now, -1)), most: Math.max(0, ...[...done].map(back)) };
}
