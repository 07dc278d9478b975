// The worker that answers the program's calls, in the form in which a server answers them.
import { answer } from "./calls.js";
import { Puzzles } from "./puzzles.js";

let puzzles;

onmessage = ({ data: [number, name, [fields]] }) => postMessage([number, answer(puzzles, name, fields)]);

try {
  puzzles = await Puzzles.load(fetch("puzzles.wasm"));
  postMessage([0, {}]);
} catch {
  postMessage([0, { failed: typeof WebAssembly === "object" ? "module" : "wasm" }]);
}
