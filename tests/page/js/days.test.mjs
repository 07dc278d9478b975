// The puzzles of the days: the list of seeds, the calendar and the days in a row.
import assert from "node:assert/strict";
import test from "node:test";

globalThis.location = new URL("http://localhost/");
const { isDay, monthOf, seedOf, shifted, streak } = await import("../../../page/web/days.js");
const { GAMES } = await import("../../../page/web/games.js");
const { LEVELS } = await import("../../../page/web/levels.js");
const { SEEDS } = await import("../../../page/web/seeds.js");

test("each game and level has seeds for more than a year, each once and in order", () => {
  const kinds = Object.entries(GAMES).flatMap(([game, { usual }]) => LEVELS.map((level) => `${game} ${usual} ${level}`));
  assert.deepEqual(Object.keys(SEEDS).sort(), kinds.sort());
  for (const [kind, seeds] of Object.entries(SEEDS)) {
    assert.ok(seeds.length > 366, kind);
    assert.ok(seeds.every((seed, k) => Number.isInteger(seed) && seed > (seeds[k - 1] || 0)), kind);
  }
});

test("a day has one seed, the next day the next one", () => {
  const seeds = [7, 11, 13];
  assert.deepEqual(["2026-01-01", "2026-01-02", "2026-01-04", "2025-12-31"].map((day) => seedOf(seeds, day)),
    ["7", "11", "7", "13"]);
});

test("a month begins on its weekday", () => {
  const days = monthOf("2024-02-10"); // a leap year; the first was a Thursday
  assert.deepEqual([days.length, days[0], days.at(-1).name], [29, { name: "2024-02-01", number: 1, weekday: 3 }, "2024-02-29"]);
  assert.equal(shifted("2024-03-01", -1), "2024-02-29");
  assert.ok(isDay("2024-02-29") && !isDay("2024-2-9") && !isDay("tomorrow") && !isDay(undefined));
});

test("days in a row count if a puzzle was solved on the day itself", () => {
  const done = (isOnDay = true) => ({ "solo 3x3 easy": { seconds: 9, hints: 0, isOnDay } });
  const days = { "2026-11-26": done(), "2026-11-27": done(), "2026-11-28": done(), "2026-11-29": done(false),
    "2026-11-30": done() };
  assert.deepEqual(streak(days, "2026-12-01"), { now: 1, most: 3 });
  assert.deepEqual(streak({ ...days, "2026-12-01": done() }, "2026-12-01"), { now: 2, most: 3 });
  assert.deepEqual(streak(days, "2026-12-05"), { now: 0, most: 3 });
  assert.deepEqual(streak({}, "2026-12-01"), { now: 0, most: 0 });
});
