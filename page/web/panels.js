// What a player chooses for good, and what leaves the page: links and paper.
import { element } from "./board.js";
import * as clock from "./clock.js";
import { LANGUAGES, words } from "./language.js";
import { choose, settings } from "./settings.js";
import { $, point, say, table } from "./table.js";

const BOXES = ["broken", "near", "tidy", "dots", "clock", "filled"];

function wear() {
  document.documentElement.dataset.look = settings.look;
  document.body.classList.toggle("filled", settings.filled);
}

function box(name) {
  const made = element("input", { type: "checkbox", id: `is-${name}` });
  made.checked = settings[name];
  made.addEventListener("change", () => {
    choose(name, made.checked);
    wear();
    clock.show();
    if (table.play) point(table.marks);
  });
  return element("label", { class: "box" }, made, ` ${words.settings[name]}`);
}

function list(name, choices, act) {
  const made = element("select", { id: `in-${name}` });
  made.append(...choices.map(([value, text]) => new Option(text, value)));
  made.value = settings[name];
  made.addEventListener("change", () => {
    choose(name, made.value);
    act();
  });
  return element("label", {}, words.settings[name], " ", made);
}

export function lay() {
  const looks = ["", "light", "dark"].map((look) => [look, words.looks[look || "system"]]);
  const languages = [["", words.looks.system], ...Object.entries(LANGUAGES)];
  $("settings").append(...BOXES.map(box), list("look", looks, wear), list("language", languages, () => location.reload()));
  wear();
  clock.list();
}

// The link of the puzzle, by the device's own way of sharing, or into the clipboard.
export async function share() {
  const link = { title: document.title, url: location.href };
  if (navigator.share) return void navigator.share(link).catch(() => {}); // a player may think better of it
  const isCopied = await navigator.clipboard?.writeText(link.url).then(() => true, () => false);
  say(isCopied ? words.said.copied : words.said.notCopied);
}
