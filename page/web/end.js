// The end of a puzzle: the time, the hints, what comes next, and the result to share.
import { timeWords } from "./clock.js";
import { words } from "./language.js";
import { levelOf } from "./levels.js";
import { $, table } from "./table.js";

// What is told of a puzzle that was solved, without what stands in it.
export function result(play) {
  const { puzzle, promise: { grade, needs, day }, seconds, hints, isShown } = play;
  const kind = words.kind(puzzle.game, puzzle.size, grade ? levelOf(puzzle.game, grade, needs) : "");
  return words.result({ kind, day, time: timeWords(seconds), hints, isShown });
}

export function tell() {
  const { seconds, hints, isShown } = table.play;
  $("end").hidden = false;
  $("outcome").textContent = words.outcome({ time: timeWords(seconds), hints, isShown });
}

// By the device's own way of sharing, or into the clipboard.
export async function share(say) {
  const text = result(table.play), url = location.href;
  if (navigator.share) return void navigator.share({ title: document.title, text, url }).catch(() => {});
  const isCopied = await navigator.clipboard?.writeText(`${text}\n${url}`).then(() => true, () => false);
  return say(isCopied ? words.said.resultCopied : text);
}
