#!/usr/bin/env node
// Finds the seeds of the puzzles of the day, and writes them into page/web/seeds.js.
//
// usage: page/daily/seeds.mjs PROGRAM [COUNT]
//
// PROGRAM is crates/puzzles/out/puzzles. Of each kind (a game, its usual size and a level) COUNT seeds are found, 370 unless it
// is said: the first ones from 1 on whose puzzle has the level as the page makes it, each call of which is quick. So a slow
// device
// makes the same puzzle. A list that is there goes on where it ends. It needs Debian's nodejs.
import { execFileSync } from "node:child_process";
import fs from "node:fs";
import { GAMES } from "../web/games.js";
import { needs } from "../web/hints/needs.js";
import { LEVELS, blackOf, makeKnown } from "../web/levels.js";

const FILE = new URL("../web/seeds.js", import.meta.url), QUICK = 400; // milliseconds of a call, of the two seconds that it has
const GRADE = /^(singles|houses|crossings|lines|local|search \d+)$/, BUDGET = "20000", MAKING_BUDGET = "1000";
const [, , program, wanted = "370"] = process.argv;

let isSlow = false;

function run(...words) {
  const begun = performance.now();
  const text = execFileSync(program, words, { encoding: "utf8", stdio: ["ignore", "pipe", "ignore"] });
  if (performance.now() - begun > QUICK) isSlow = true;
  const [first, ...rest] = text.trimEnd().split("\n");
  return { first, grid: rest };
}

// The two calls that making takes, as the server answers them.
async function call(name, { game, id, size, seed, black, budget = MAKING_BUDGET }) {
  if (name === "grade") {
    const { first } = run("grade", `--budget=${BUDGET}`, game, "--", id);
    return GRADE.test(first) ? { verdict: "one", grade: first } : { verdict: first };
  }
  const more = [`--seed=${seed}`, `--budget=${budget}`, ...(black ? [`--black=${black}`] : [])];
  const { first, grid } = run("generate", ...more, game, "--", size);
  return first === "exhausted" ? { verdict: first, grids: [] } : { verdict: "made", id: first, grids: [grid], seed };
}

async function reason(name, puzzle, grid) {
  const begun = process.cpuUsage().user, told = needs(puzzle, grid);
  if ((process.cpuUsage().user - begun) / 1000 > QUICK) isSlow = true;
  return told;
}

async function found(game, size, level, from) {
  for (let seed = from; ; seed += 1) {
    isSlow = false;
    const told = await makeKnown(call, reason, { game, size, seed: String(seed), level, ...blackOf(game, size) });
    if (told.isOf && !isSlow) return seed;
  }
}

// A list is written by the steps from one seed to the next.
const steps = (seeds) => seeds.map((seed, k) => seed - (seeds[k - 1] || 0)).join(" ");
const lines = (text) => text.match(/.{1,96}(?= |$)/g).map((line) => `    "${line.trim()} " +`).join("\n").replace(/ " \+$/, '"');

const HEAD = "// The seeds of the puzzles of the day, made by page/daily/seeds.mjs: of each kind the steps from one to the next.";
const text = (all) => `${HEAD}
const STEPS = {
${Object.entries(all).map(([kind, seeds]) => `  "${kind}":\n${lines(steps(seeds))},`).join("\n")}
};

const summed = (text) => {
  let sum = 0;
  return text.split(" ").map((step) => (sum += Number(step)));
};
export const SEEDS = Object.fromEntries(Object.entries(STEPS).map(([kind, text]) => [kind, summed(text)]));
`;

const all = fs.existsSync(FILE) ? { ...(await import(FILE)).SEEDS } : {};
for (const game of Object.keys(GAMES)) {
  for (const level of LEVELS) {
    const { usual } = GAMES[game], kind = `${game} ${usual} ${level}`, seeds = [...(all[kind] || [])];
    while (seeds.length < Number(wanted)) seeds.push(await found(game, usual, level, (seeds.at(-1) || 0) + 1));
    all[kind] = seeds;
    fs.writeFileSync(FILE, text(all));
    console.log(`${kind}: up to seed ${seeds.at(-1)}`);
  }
}
