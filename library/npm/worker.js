// Answers calls in a worker of a browser: [call, ...words] comes, and its answer goes back, or { fault } with a sentence.
import { Puzzles } from "./puzzles.js";

const ready = Puzzles.load(fetch(new URL("puzzles.wasm", import.meta.url)));
ready.then(() => postMessage("ready"), ({ message }) => postMessage({ fault: message }));
onmessage = async ({ data: [call, ...words] }) => {
  try {
    postMessage((await ready)[call](...words));
  } catch ({ message }) {
    postMessage({ fault: message });
  }
};
