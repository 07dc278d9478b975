// The program's calls without a server: a worker has the proved program as a WebAssembly module.
import { Limited } from "./limited.js";
import "./offline.js";

const worker = new Limited("./worker.js"), behind = new Limited("./worker.js");

export const AT_ONCE = 1; // one worker answers one call after another

export const call = (name, fields) => worker.ask(name, fields);

// Calls for what is made behind, in a worker of their own, so that they keep no other call waiting. It begins with the first one.
export const callBehind = (name, fields) => behind.ask(name, fields);
