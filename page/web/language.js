// The words of the page in the player's language, from the one table of each (languages/).
import { settings } from "./settings.js";

export const LANGUAGES = { en: "English", de: "Deutsch" };
const wished = [settings.language, ...navigator.languages.map((tag) => tag.slice(0, 2))];
export const language = wished.find((code) => Object.hasOwn(LANGUAGES, code)) || "en";
export const { default: words } = await import(`./languages/${language}.js`);

// Fills in the page's own texts.
export function fill() {
  /** @type {(name: string) => Iterable<any>} */
  const all = (name) => document.querySelectorAll(`[data-${name}]`);
  document.documentElement.lang = language;
  for (const found of all("text")) found.textContent = words.page[found.dataset.text];
  for (const found of all("label")) found.ariaLabel = words.page[found.dataset.label];
  for (const found of all("tip")) found.title = words.page[found.dataset.tip];
  for (const found of all("hint")) found.placeholder = words.page[found.dataset.hint];
}
