// The same in a thread of Node.
import { readFile } from "node:fs/promises";
import { parentPort } from "node:worker_threads";
import { Puzzles } from "./puzzles.js";

const ready = Puzzles.load(readFile(new URL("puzzles.wasm", import.meta.url)));
ready.then(() => parentPort.postMessage("ready"), ({ message }) => parentPort.postMessage({ fault: message }));
parentPort.on("message", async ([call, ...words]) => {
  try {
    parentPort.postMessage((await ready)[call](...words));
  } catch ({ message }) {
    parentPort.postMessage({ fault: message });
  }
});
