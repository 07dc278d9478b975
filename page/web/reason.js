// A worker that reasons: the next step of a player, and what a puzzle needs.
import { hint } from "./hints/hint.js";
import { needs } from "./hints/needs.js";

const CALLS = { hint, needs };

onmessage = ({ data: [number, name, words] }) => postMessage([number, CALLS[name](...words)]);
postMessage([0, {}]);
