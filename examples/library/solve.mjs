// Solves puzzles by the module in Node: node solve.mjs [--module=FILE] GAME ID..
// FILE is the module, and else library/out/puzzles.wasm. It prints what the program prints for each ID, and the status is the
// greatest of them.
import { readFile } from "node:fs/promises";
import process from "node:process";
import { Puzzles } from "../../library/puzzles.js";

const words = process.argv.slice(2), option = /^--module=/;
const [game, ...ids] = words.filter((word) => !option.test(word));
const made = new URL("../../library/out/puzzles.wasm", import.meta.url);
const file = words.find((word) => option.test(word))?.replace(option, "") ?? made;

try {
  if (!ids.length) throw new Error("usage: node solve.mjs [--module=FILE] GAME ID..");
  const puzzles = await Puzzles.load(await readFile(file));
  const answers = ids.map((id) => puzzles.solve(game, id));
  process.stdout.write(answers.map(({ text }) => text).join(""));
  process.exitCode = Math.max(...answers.map(({ status }) => status));
} catch (fault) {
  process.stderr.write(`solve.mjs: ${fault.message}\n`);
  process.exitCode = 2;
}
