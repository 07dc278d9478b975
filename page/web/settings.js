// What a player has chosen for good; it stays on the device.
import { attempt, get, set } from "./storage.js";

const KEY = "puzzles settings";
const USUAL = { broken: true, near: true, tidy: true, dots: false, clock: false, filled: false, look: "", language: "" };

const isLike = (value, usual) => typeof value === typeof usual;
function read() {
  const found = attempt(() => JSON.parse(get(KEY))) || {};
  const names = Object.keys(USUAL).filter((name) => isLike(found[name], USUAL[name]));
  return { ...USUAL, ...Object.fromEntries(names.map((name) => [name, found[name]])) };
}

export const settings = read();

export function choose(name, value) {
  settings[name] = value;
  attempt(() => set(KEY, JSON.stringify(settings)));
}
