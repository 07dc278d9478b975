// Paper. A board whose cells would be smaller than 5 mm is turned, if that is enough; else it goes over several sheets, each with
// the clues of its own lines.
import { element } from "./board.js";
import { words } from "./language.js";
import { range } from "./puzzle.js";
import { above, beside, layout } from "./sheets.js";
import { $, table } from "./table.js";

// A copy of a part of the board. Its outer lines are as thick as the board's.
function sheet({ board, play: { puzzle } }, { x: [left, right], y: [top, bottom] }) {
  const { w, game } = puzzle, isTents = game === "tents", copy = (node) => node.cloneNode(true);
  const joined = (clues, inside) => (isTents ? [...inside, ...clues] : [...clues, ...inside]);
  const cell = (x, y) => {
    const made = copy(board.cells[y * w + x]);
    const edges = { left: x === left, right: x === right - 1, top: y === top, bottom: y === bottom - 1 };
    for (const [side, isEdge] of Object.entries(edges)) if (isEdge) made.style.setProperty(`--${side}`, "2px");
    return made;
  };
  const lines = range(bottom - top, (k) => top + k).flatMap((y) =>
    joined(board.rows.slice(y, y + 1).map(copy), range(right - left, (k) => cell(left + k, y))));
  const heads = board.columns.slice(left, right).map(copy), corner = element("div", { class: "corner" });
  const first = heads.length ? (isTents ? heads : [corner, ...heads]) : [];
  const made = element("div", { class: `board ${game} part` }, ...joined(first, lines));
  made.style = `--columns: ${right - left + Number(isTents)}; --wide: ${right - left + beside(puzzle)};
    --tall: ${bottom - top + above(puzzle)}`;
  return made;
}

// Before the browser prints.
export function prepare() {
  $("sheets").replaceChildren();
  document.body.classList.remove("turned", "parted");
  if (!table.play) return;
  const { kind, cell, length, sheets = [] } = layout(table.play.puzzle), stage = $("stage");
  stage.style.setProperty("--turned", `${cell}mm`);
  stage.style.setProperty("--length", `${length}mm`);
  document.body.classList.toggle("turned", kind === "turned");
  document.body.classList.toggle("parted", kind === "sheets");
  $("sheets").append(...sheets.map((part, k) => element("figure", { class: "sheet" },
    element("figcaption", {}, words.sheet(k + 1, sheets.length, part)), sheet(table, part))));
}

export function listen() {
  addEventListener("beforeprint", prepare);
  addEventListener("afterprint", () => $("sheets").replaceChildren());
}
