// What is written into the box: links, also of other pages, sudokus in a line, IDs. The packed texts were made by another program, python3-lzstring.
import assert from "node:assert/strict";
import test from "node:test";
import { linked, unpacked } from "../../../page/web/links.js";
import { meant } from "../../../page/web/meant.js";
import { read } from "../../../page/web/puzzle.js";

const PACKED = {
  nine: "N4IgzglgXgpiBcBOANCALhNAbO8QBURUBDAVzQAsB7AJwRAB1SAGZmRIkAcxogBMEAbUGgAbsSylcAVlRcIomADsEaGlIC+y" +
    "MRKkIAzHIXLV6mFuAWLIcZNwB2I4pXw1m7VY8eAushE3dXAA2JxNXM09LbQC7BABGUJc3c2jbPSRE03cdWPhZbmMkiK8oy18" +
    "RazTcFALnLJSc9IAOTPDsyMiY9JDasOSrcsbcFt6i9pLKwIQe+Tq2ho7UqfhDUfqNQa7cABZW/oml3JHZvuLSrYM9s86q+Kv" +
    "NTdv4RzX5xfOngCZ7hYOh6Z+Gz8H2WM0K6z+N2W31e+3+8GO4LePmB7wu8F2sLO6ISWOy6JqJzGvxBuXyRPWg3ekyOgL+6Je" +
    "FOR8MJSP63m8GiAA",
  plain: "N4IgzglgXgpiBcAWANCALhNAbO8QBURUBDAVzQAsB7AJwRAB1SAGZmATiJAHMaIATBAG0hoAG7EspXAEZU3CGJgA7BGhrSAv" +
    "smDbdOkBKm4UPRSrUaYmgLrJRevYcnSEcs0tXx1Wnbfv64i4m8uZePtZ+fnaizsYIpgqelr5B8fAAzKHJ3lZORq7wAEzZFrm" +
    "pcYXuSWURtjaaQA=",
  cross: "N4IgzglgXgpiBcAWANCALhNAbO8QBURUBDAVzQAsB7AJwRAB1SAGZmATiJAHMaIATBAG0hoAG7EspXAEZU3CGJgA7BGhrSAv" +
    "smDbdOkBKm4UPRSrUaYmgLrJRevYcnSEcs0tXx1Wnbfv64i4m8uZePtZ+fnaizsYIpgqelr5B8fAAzKHJ3lZORq7wAEzZFrm" +
    "pcYXuSWURtnYg/BDE3FTKkgDUKTCoTS1tkgC03ZpAA==",
  thermo: "N4IgzglgXgpiBcAWANCALhNAbO8QBURUBDAVzQAsB7AJwRAB1SAGZmATiJAHMaIATBAG0hoAG7EspXAEZU3CGJgA7BGhrSAv" +
    "smDbdOkBKm4UPRSrUaYmgLrJRevYcnSEcs0tXx1Wnbfv64i4m8uZePtZ+fnaizsYIpgqelr5B8fAAzKHJ3lZORq7wAEzZFrm" +
    "pcYXuSWURtnboFDA0ALZULTBozcKgWBDKMGDCQiAASjIAwjJc4xNFIDY2tppAA==",
};
const GIVENS = "53..7....6..195....98....6.8...6...34..8.3..17...2...6.6....28....419..5....8..79";
const shown = ({ game, id }) => read(game, id).fixed.map((sign) => sign || ".").join("");

test("a text that LZ-string packed", () => {
  assert.deepEqual(Object.keys(JSON.parse(unpacked(PACKED.plain))), ["size", "title", "author", "grid"]);
  assert.equal(JSON.parse(unpacked(PACKED.plain)).author, "é");
  assert.equal(unpacked("nonsense"), undefined);
});

test("sudokus of f-puzzles", () => {
  const link = (text) => linked(`https://f-puzzles.com/?load=${text}`);
  assert.equal(shown(link(PACKED.nine)), GIVENS);
  assert.equal(shown(linked(`https://app.example/sudoku/?a=b&load=${encodeURIComponent(PACKED.nine)}`)), GIVENS);
  assert.deepEqual(link(PACKED.plain), { game: "solo", id: "2x2:1b4b1b4b4_3_2_1" });
  assert.equal(link(PACKED.cross).id, "2x2x:1b4b1b4b4_3_2_1");
  assert.deepEqual(link(PACKED.thermo), { isVariant: true });
  assert.equal(link("AAAA"), undefined);
});

test("sudokus and akari of puzz.link", () => {
  assert.equal(linked("https://puzz.link/p?sudoku/4/4/1h4h1h4h4321").id, "2x2:1b4b1b4b4_3_2_1");
  assert.equal(shown(linked("http://pzv.jp/p.html?sudoku/16/16/-10fz")).slice(0, 6), "1615..");
  assert.equal(linked("https://puzz.link/p?akari/3/3/g..g1g.h").id, "3x3:aBBa1aBb");
  assert.equal(linked("https://puzz.link/p?akari/4/2/6bl").id, "4x2:1a1e");
  assert.equal(linked("https://puzz.link/p?slither/4/4/1h4"), undefined);
  assert.equal(linked("3x3:aBBa1aBb"), undefined);
});

test("what is written into the box: an ID, a link, a sudoku in a line", () => {
  const tents = "2x2:_c,0,1,1,0", isMeant = (text, game, id) => assert.deepEqual(meant(text, "pattern"), { game, text: id }, text);
  isMeant("5x1:1/1//1/1/2.2", "pattern", "5x1:1/1//1/1/2.2");
  isMeant(`see https://puzzles.example/#tents/${encodeURIComponent(tents)}`, "tents", tents);
  isMeant(`tents/${tents}`, "tents", tents);
  isMeant(GIVENS, "solo", "3x3:5_3b7d6b1_9_5d9_8d6a8c6c3_4b8a3b1_7c2c6a6d2_8d4_1_9b5d8b7_9");
  isMeant("https://puzz.link/p?akari/3/3/g..g1g.h", "lightup", "3x3:aBBa1aBb");
});

test("what names a game that isn't here isn't refused as an ID", () => {
  const fault = (text) => meant(text, "solo");
  assert.deepEqual(fault("loopy/7x7t0:a3b"), { fault: "unknown", called: "loopy" });
  assert.deepEqual(fault("https://puzzles.example/#loopy%2F7x7t0%3Aa3b"), { fault: "unknown", called: "loopy" });
  assert.deepEqual(fault("https://puzz.link/p?slither/4/4/1h4"), { fault: "unknown", called: "slither" });
  assert.deepEqual(fault(`${"y".repeat(200)}/1`), { fault: "unknown", called: "y".repeat(30) });
  assert.deepEqual(fault("https://sudokus.example/today"), { fault: "link" });
  assert.deepEqual(fault(`https://f-puzzles.com/?load=${PACKED.thermo}`), { fault: "variant" });
  assert.deepEqual(fault("https://swaroopg92.github.io/penpa-edit/#m=edit&p=7VRNb9s"), { fault: "drawing" });
});
