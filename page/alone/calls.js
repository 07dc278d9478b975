// The program's four calls over its module: the same answers as of `page/calls.py`.
const BUDGET = 20000, MAKING_BUDGET = 1000; // trials of a search, and of each one while a puzzle is made
const GRADE = /^(singles|houses|crossings|lines|local|search \d+)$/, NO_TEXT = 5; // from this status on
const CONTROL = /[\x00-\x1f\x7f\ud800-\udfff]/u; // what no ID has
const ENDS = /^[\ufeff \t\r\n]+|[\ufeff \t\r\n]+$/g;

// The first line of an answer, and its grids.
function parted({ status, text }) {
  if (status >= NO_TEXT) return { failed: "program" };
  const at = text.indexOf("\n"), first = text.slice(0, at), rest = text.slice(at + 1);
  if (first.startsWith("refused: ")) return { refused: first.slice("refused: ".length) };
  return { first, grids: rest.split("\n\n").filter(Boolean).map((grid) => grid.trimEnd().split("\n")) };
}

const CALLS = {
  solve(puzzles, { game, id }) {
    const { first, grids, ...fault } = parted(puzzles.solve(game, id, { budget: BUDGET }));
    return first ? { verdict: first, grids } : fault;
  },

  check(puzzles, { game, id, grid }) {
    const { first = "", grids, ...told } = parted(puzzles.check(game, id, grid)), [verdict, fault] = first.split(": ");
    return !first ? told : fault ? { verdict, fault } : { verdict };
  },

  grade(puzzles, { game, id }) {
    const { first, grids, ...fault } = parted(puzzles.grade(game, id, { budget: BUDGET }));
    return !first ? fault : GRADE.test(first) ? { verdict: "one", grade: first } : { verdict: first };
  },

  generate(puzzles, { game, size, seed, black, budget = MAKING_BUDGET }) {
    const more = { budget: Number(budget), ...(black ? { black: Number(black) } : {}) };
    const { first, grids, ...fault } = parted(puzzles.generate(game, size, seed, more));
    if (!first) return fault;
    return first === "exhausted" ? { verdict: first, grids: [] } : { verdict: "made", id: first, grids, seed };
  },
};

export function answer(puzzles, name, { id = "", ...fields }) {
  const text = id.replace(ENDS, "");
  if (CONTROL.test(text)) return { refused: "field id" };
  try {
    return CALLS[name](puzzles, { ...fields, id: text });
  } catch {
    return { failed: "program" }; // the module stopped, and has begun anew
  }
}
