// The contrast of what stands on what, by WCAG 2.2 from the colours of the style sheets: 4.5 to 1 for texts, 3 to 1 for lines
// that are
// counted by, for pictures, and for the ring of the focus.
import assert from "node:assert/strict";
import fs from "node:fs";
import test from "node:test";

const style = (name) => fs.readFileSync(new URL(`../../../page/web/${name}`, import.meta.url), "utf8");
const [page, board] = [style("page.css"), style("board.css")];

// The colours that a rule names, in one scheme.
function colours(text, scheme) {
  const found = {};
  for (const [, name, value] of text.matchAll(/--([\w-]+):\s*((?:light-dark\([^)]*\))|#[0-9a-f]+)\s*;/g)) {
    const both = value.match(/#[0-9a-f]+/g);
    found[name] = both[scheme === "dark" ? both.length - 1 : 0];
  }
  return found;
}

const rule = (text, selector) => text.slice(text.indexOf(selector), text.indexOf("}", text.indexOf(selector)));
const shade = (colour) => {
  const digits = colour.slice(1), hex = digits.length === 3 ? [...digits].map((digit) => digit + digit) : digits.match(/../g);
  const parts = hex.map((two) => parseInt(two, 16) / 255).map((c) => (c <= 0.04045 ? c / 12.92 : ((c + 0.055) / 1.055) ** 2.4));
  return 0.2126 * parts[0] + 0.7152 * parts[1] + 0.0722 * parts[2];
};
const contrast = (a, b) => {
  const [low, high] = [shade(a), shade(b)].sort((one, other) => one - other);
  return (high + 0.05) / (low + 0.05);
};

function scopes(scheme) {
  const root = colours(rule(page, ":root"), scheme), cells = colours(rule(board, ":is(.pattern, .lightup) .cell"), scheme);
  for (let k = 1; k <= 6; k += 1) root[`colour${k}`] = colours(rule(page, `[data-colour="${k}"]`), scheme).colour;
  const tents = { ...root, ...colours(rule(board, ".tents .cell"), scheme) };
  return { root, cells: { ...root, ...cells }, tents };
}

const GROUNDS = ["paper", "near", "same", "house", "hint", "mark", "crossed", "black"];
const TINTS = ["colour1", "colour2", "colour3", "colour4", "colour5", "colour6"];
const TEXTS = { // what is written, and on which grounds
  root: { ink: ["paper", "ground", "near", "same", "house", "hint", "mark", "crossed", ...TINTS],
    soft: ["paper", "ground", "near", "crossed"], pen: ["paper", "near", "same", "house", "crossed"],
    good: ["paper", "hint", "ground"], bad: ["paper", "ground", "near"], paper: ["main"], "on-black": ["black"] },
  cells: { ink: ["paper"], "on-black": ["black"] },
};
const SHAPES = { // lines, pictures and dots
  root: { line: ["paper"], main: ["paper"] },
  cells: { line: ["paper"], pen: ["paper", "house", "hint", "lit"], black: ["paper", "hint", "house"], bad: ["paper", "mark"] },
};

for (const scheme of ["light", "dark"]) {
  const all = scopes(scheme);
  for (const [kind, table, least] of [["texts", TEXTS, 4.5], ["shapes", SHAPES, 3]]) {
    test(`${kind}, ${scheme}`, () => {
      const poor = Object.entries(table).flatMap(([scope, pairs]) => Object.entries(pairs).flatMap(([over, grounds]) =>
        grounds.map((ground) => [`${scope}: ${over} on ${ground}`, contrast(all[scope][over], all[scope][ground])])))
        .filter(([, found]) => found < least);
      assert.deepEqual(poor, []);
    });
  }

  test(`the ring of the focus, in two colours, ${scheme}`, () => {
    for (const scope of ["root", "cells"]) {
      const found = all[scope], poor = [...GROUNDS, ...(scope === "root" ? TINTS : ["lit"])].filter((ground) =>
        Math.max(contrast(found.ring, found[ground]), contrast(found.round, found[ground])) < 3);
      assert.deepEqual(poor, [], scope);
      assert.ok(contrast(found.ring, found.round) >= 3);
    }
  });

  test(`trees and tents, ${scheme}`, () => {
    const [tree, tent] = ["tree.svg", "tent.svg"].map((name) =>
      style(name).match(/fill="(#[0-9a-f]{6})"/g).map((fill) => fill.slice(6, -1)));
    for (const ground of ["paper", "hint", "house"]) {
      for (const picture of [tree, tent]) {
        assert.ok(Math.max(...picture.map((fill) => contrast(fill, all.tents[ground]))) >= 3, `${picture} on ${ground}`);
      }
    }
  });
}
