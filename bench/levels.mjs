#!/usr/bin/env node
// Makes puzzles of each size and level as the page does, and prints how many came in time: a table for bench/README.md.
//
// usage: bench/levels.mjs MODULE [COUNT [GAME [SIZE]]]
//
// MODULE is puzzles.wasm, with its loader puzzles.js beside it or in library/. COUNT puzzles are tried of each (default 20). Once
// more than one of 20 has failed, that pair is left: it has a dash, and the page may not offer it. Where the page's list is another
// one, a line says so, and the status is 1. The times are processor seconds of one core, so that other work beside doesn't count.
// It needs Debian's nodejs.
import fs from "node:fs";
import path from "node:path";
import { fileURLToPath, pathToFileURL } from "node:url";
import { answer } from "../page/alone/calls.js";
import { GAMES, isGame } from "../page/web/games.js";
import { needs } from "../page/web/hints/needs.js";
import { LEVELS, blackOf, levelOf, make } from "../page/web/levels.js";

const LIMIT = 3, CALL = 2; // seconds in which a puzzle has to be there, and that a call may take
const FEW = 20; // of so many tries one may fail
const STEP = 10000; // between two seeds, so that no puzzle is made twice

let over = 0; // milliseconds that calls took beyond what a page gives them
const now = () => (process.cpuUsage().user + process.cpuUsage().system) / 1000 - over;
performance.now = now;

function fail(said) {
  console.error(said);
  process.exit(2);
}

async function loaded(module) {
  const beside = path.join(path.dirname(module), "puzzles.js");
  const library = fileURLToPath(new URL("../library/puzzles.js", import.meta.url));
  const loader = [beside, library].find((name) => fs.existsSync(name));
  if (!fs.existsSync(module) || !loader) fail(`levels.mjs: ${module}: no module, or no loader beside it`);
  const { Puzzles } = await import(pathToFileURL(path.resolve(loader)));
  return Puzzles.load(fs.readFileSync(module)).catch((fault) => fail(`levels.mjs: ${fault.message}`));
}

// What comes of a call, and nothing of one that a page would have ended. What it took beyond that isn't counted.
function limited(act) {
  const begun = now(), told = act(), late = now() - begun - CALL * 1000;
  if (late <= 0) return told;
  over += late;
  return { failed: "clock" };
}

async function tried(puzzles, asked) {
  const call = async (name, fields) => limited(() => answer(puzzles, name, fields));
  const reason = async (_, puzzle, solution) => limited(() => needs(puzzle, solution));
  const begun = now(), told = await make(call, reason, asked), seconds = (now() - begun) / 1000;
  const isOf = told.id && levelOf(asked.game, told.grade, told.needs) === asked.level;
  return isOf && seconds <= LIMIT ? seconds : undefined;
}

// What came of so many tries: how many, their median and the longest. Nothing if too few came.
async function column(puzzles, game, size, level, count) {
  const times = [], black = blackOf(game, size);
  for (let k = 1; k <= count; k += 1) {
    const found = await tried(puzzles, { game, size, level, seed: String(STEP * k), ...black });
    if (found !== undefined) times.push(found);
    if ((k - times.length) * FEW > count) return undefined;
  }
  times.sort((a, b) => a - b);
  return [times.length, ...[times[times.length >> 1], times.at(-1)].map((time) => time.toFixed(2))].join(", ");
}

const [module, count = "20", game, size] = process.argv.slice(2);
if (!module || module === "--help" || !/^[1-9]\d*$/.test(count) || (game && !isGame(game))) {
  const help = fs.readFileSync(fileURLToPath(import.meta.url), "utf8").match(/^\/\/.*/gm);
  console.log(help.map((line) => line.slice(3)).join("\n"));
  process.exit(module === "--help" ? 0 : 2);
}
const puzzles = await loaded(module);
console.log(`| Of ${count}: made, median s, most s | ${LEVELS.join(" | ")} |\n|---|---|---|---|`);
for (const name of game ? [game] : Object.keys(GAMES)) {
  for (const one of size ? [size] : GAMES[name].sizes.split(" ")) {
    const columns = [], offered = GAMES[name].levels[one] || LEVELS;
    for (const level of LEVELS) columns.push(await column(puzzles, name, one, level, Number(count)));
    console.log(`| ${GAMES[name].name} ${one} | ${columns.map((text) => text || "-").join(" | ")} |`);
    const made = LEVELS.filter((_, k) => columns[k]);
    if (made.join() === offered.join()) continue;
    console.error(`${name} ${one}: offered is ${offered.join(", ")}, and made in time ${made.join(", ") || "none"}`);
    process.exitCode = 1;
  }
}
