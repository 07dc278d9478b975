// How boards of each size are put on paper.
import assert from "node:assert/strict";
import test from "node:test";
import { above, beside, layout, ranges } from "../../../page/web/sheets.js";

const empty = (w, h) => ({ w, h, rows: [], columns: [] });

test("a board whose cells have 5 mm stands as it is", () => {
  assert.equal(layout(empty(35, 45)).kind, "whole");
});

test("a wide one is turned, if that is enough", () => {
  const { kind, cell, length } = layout(empty(45, 35));
  assert.equal(kind, "turned");
  assert.ok(cell >= 5 && length <= 225 + 1e-9);
  assert.equal(layout(empty(46, 36)).kind, "sheets");
});

test("of sheets each cell has one, and each sheet has room for its clues", () => {
  for (const [w, h, most] of [[120, 120, 60], [60, 40, 12], [36, 46, 1], [2, 120, 1]]) {
    const rows = Array(h).fill(Array(most).fill(1)), columns = Array(w).fill(Array(most).fill(1)), puzzle =
      { w, h, rows, columns };
    const { kind, sheets } = layout(puzzle), count = Array(w * h).fill(0);
    assert.equal(kind, "sheets");
    for (const { x, y } of sheets) {
      for (let b = y[0]; b < y[1]; b += 1) for (let a = x[0]; a < x[1]; a += 1) count[b * w + a] += 1;
      assert.ok(5 * (x[1] - x[0] + beside(puzzle)) <= 176 && 5 * (y[1] - y[0] + above(puzzle)) <= 225);
    }
    assert.ok(count.every((times) => times === 1));
  }
});

test("ranges are nearly equal", () => {
  assert.deepEqual(ranges(10, 4), [[0, 4], [4, 8], [8, 10]]);
  assert.deepEqual(ranges(4, 9), [[0, 4]]);
});
