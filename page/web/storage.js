// The browser's storage, which may be full, switched off, or filled with something else. None of these is a fault. Copies of the
// page in several folders of one place share it, so each but the one at the top has names of its own.
export function attempt(act) {
  try { return act(); } catch { return undefined; }
}

const PLACE = new URL(".", /** @type {any} */ (location)).pathname;
export const named = (name) => (PLACE === "/" ? name : `${PLACE} ${name}`);

export const get = (name) => attempt(() => localStorage.getItem(named(name)));
/** @type {(name: string, text: string) => any} */
export const set = (name, text) => localStorage.setItem(named(name), text); // throws if there is no room
export const drop = (name) => localStorage.removeItem(named(name));

// What older versions kept under names without a folder is taken over, once.
attempt(() => {
  if (PLACE === "/" || get("puzzles place")) return;
  set("puzzles place", "own");
  for (const name of Object.keys(localStorage).filter((key) => key.startsWith("puzzles"))) {
    if (get(name) === null) set(name, localStorage.getItem(name));
  }
});
