// A puzzle as it is played: what stands in its cells, each step with its way back, and what is kept of it.
//
// A step is a list of changes, each with a key, what was there before, and what is there after. A number is a place, whose sign
// changes. "colour 12" is the colour of a cell, "corner 12" the notes in its corners, and "row 3.1" the second number of a row's
// clue, crossed off by hand.
import { keep, kept, look } from "./kept.js";
import { start } from "./puzzle.js";

export class Play {
  constructor(puzzle, id) {
    this.puzzle = puzzle;
    this.id = id;
    this.name = `${puzzle.game}/${id}`;
    this.version = 0;
    this.load();
    look(puzzle.game, id);
  }

  // As it was kept, by this page or by another one that is open.
  load() {
    const found = kept(this.name, this.puzzle) || {};
    const { signs = start(this.puzzle), extras = {}, done = [], undone = [], promise = {} } = found;
    const { mark, seconds, hints, isShown, isSolved } = found;
    this.state = signs;
    this.extras = extras;
    this.done = done;
    this.undone = undone;
    /** @type {{ grade?: string, needs?: object, day?: string }} */
    this.promise = promise;
    this.seconds = Number(seconds) || 0;
    this.hints = Number(hints) || 0;
    this.mark = Number.isInteger(mark) ? mark : undefined;
    this.isShown = isShown === true;
    this.isSolved = isSolved === true;
    this.version += 1;
  }

  get isBlank() {
    return !Object.keys(this.extras).length && this.state.every((sign, place) => sign === (this.puzzle.fixed[place] || "."));
  }

  // The cell that was changed last.
  get last() {
    return this.done.at(-1)?.map(([key]) => key).findLast((key) => typeof key === "number");
  }

  of(key) {
    return typeof key === "number" ? this.state[key] : this.extras[key] || "";
  }

  // Puts values under keys. A step that joins the one before is undone with it. Gives the changes, if there are any.
  change(wanted, joins = false) {
    const mayChange = (key) => typeof key === "string" || this.puzzle.fixed[key] === "";
    const changes = wanted.filter(([key, value]) => mayChange(key) && this.of(key) !== value);
    const step = changes.map(([key, value]) => [key, this.of(key), value]);
    if (!step.length) return undefined;
    if (this.mark > this.done.length) this.mark = undefined;
    if (joins && this.done.length) this.done.at(-1).push(...step);
    else this.done.push(step);
    this.undone = [];
    return this.turn(step, 2);
  }

  undo() {
    if (!this.done.length) return undefined;
    const step = this.done.pop();
    this.undone.push(step);
    return this.turn([...step].reverse(), 1);
  }

  redo() {
    if (!this.undone.length) return undefined;
    const step = this.undone.pop();
    this.done.push(step);
    return this.turn(step, 2);
  }

  // Back to the place that was marked, step by step, so that each can be taken again.
  back() {
    const all = [];
    while (this.done.length > this.mark) all.push(...this.undo());
    return all.length ? all : undefined;
  }

  turn(step, side) {
    for (const change of step) {
      const [key, value] = [change[0], change[side]];
      if (typeof key === "number") this.state[key] = value;
      else if (value) this.extras[key] = value;
      else delete this.extras[key];
    }
    this.version += 1;
    this.keep();
    return step;
  }

  keep() {
    const { state, extras, done, undone, mark, seconds, hints, promise, isShown, isSolved } = this;
    const isNew = this.isBlank && !done.length && !undone.length;
    keep(this.name, isNew ? undefined : { signs: state, extras, done, undone, mark, seconds, hints, promise, isShown, isSolved });
  }
}
