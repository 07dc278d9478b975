// Large boards can be shown larger, in steps; then they scroll.
import { $, table } from "./table.js";

const STEPS = [1, 1.4, 2, 2.8], LARGE = 12; // times as large, and cells from which on it is offered

let at = 0;

// One step larger or smaller, or with 0 as it was laid.
export function zoom(step) {
  const { board, play } = table;
  at = step ? Math.min(STEPS.length - 1, Math.max(0, at + step)) : 0;
  board.grid.style.setProperty("--zoom", STEPS[at]);
  $("zoom").hidden = Math.max(play.puzzle.w, play.puzzle.h) < LARGE;
  $("smaller").disabled = at === 0;
  $("larger").disabled = at === STEPS.length - 1;
  if (step) board.cells[table.at].scrollIntoView({ block: "nearest", inline: "nearest" });
}
