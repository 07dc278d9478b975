// How a grid stands by the rules: which clues are met, which cells are lit, and what breaks a rule. After a step only the
// lines of what changed are looked at again, so that a large board is as quick as a small one.
import { laid } from "./hints/pattern.js";
import { around, beside, blocksOf, columnsOf, diagonalsOf, isFilled, isNumber, range, rowsOf, stretches } from "./puzzle.js";

export class Standing {
  constructor(puzzle) {
    const lines = [...columnsOf(puzzle), ...rowsOf(puzzle)];
    this.puzzle = puzzle;
    this.clues = [...puzzle.columns, ...puzzle.rows];
    this.houses = puzzle.game === "lightup" ? lines.flatMap((line) => stretches(puzzle, line))
      : [...lines, ...blocksOf(puzzle), ...diagonalsOf(puzzle)];
    this.housesOf = puzzle.fixed.map(() => []);
    this.houses.forEach((cells, house) => cells.forEach((cell) => this.housesOf[cell].push(house)));
    /** @type {{ twice?: any, bulbs?: number, isMet?: boolean, isBroken?: boolean }[]} */
    this.told = this.houses.map(() => ({}));
  }

  // Looks again where something changed. Gives the cells that may look otherwise than before.
  update(state, changed = range(state.length)) {
    this.state = state;
    const fresh = new Set(changed.flatMap((cell) => this.housesOf[cell])), touched = new Set(changed);
    for (const house of fresh) {
      const cells = this.houses[house];
      this.told[house] = this.judge(house, cells);
      cells.forEach((cell) => touched.add(cell));
    }
    const { game } = this.puzzle, near = { lightup: beside, tents: around }[game];
    for (const cell of near ? [...(game === "tents" ? changed : touched)] : []) {
      near(this.puzzle, cell).forEach((next) => touched.add(next));
    }
    return touched;
  }

  judge(house, cells) {
    const { state, clues } = this, { game } = this.puzzle, clue = clues[house];
    if (game === "solo") return { twice: twice(cells.map((cell) => state[cell]).filter(isFilled)) };
    if (game === "lightup") return { bulbs: cells.filter((cell) => state[cell] === "O").length };
    const open = cells.filter((cell) => state[cell] === ".").length, isOver = clue.some(Boolean) || !open;
    if (game === "tents") {
      const tents = cells.filter((cell) => state[cell] === "^").length;
      return { isMet: tents === clue[0] && isOver, isBroken: tents > clue[0] || tents + open < clue[0] };
    }
    const cans = cells.map((cell) => new Set({ ".": [0, 1], "#": [1] }[state[cell]] || [0]));
    return { isMet: runs(cells, state).join() === clue.join() && isOver, isBroken: !laid(cans, clue).ways };
  }

  // Of a line, the columns first.
  line(k) { return this.told[k]; }

  isLit(cell) {
    return this.puzzle.game === "lightup" && this.housesOf[cell].some((house) => this.told[house].bulbs > 0);
  }

  // Of a number of Light Up: it has its bulbs, and no cell beside it is blank and dark.
  isMet(cell) {
    return this.isClue(cell) && this.bulbs(cell) === Number(this.puzzle.fixed[cell]) && !this.dark(cell);
  }

  isClue(cell) { return this.puzzle.game === "lightup" && isNumber(this.puzzle.fixed[cell]); }

  bulbs(cell) { return beside(this.puzzle, cell).filter((next) => this.state[next] === "O").length; }

  dark(cell) { return beside(this.puzzle, cell).filter((next) => this.state[next] === "." && !this.isLit(next)).length; }

  isBroken(cell) {
    const { state } = this, sign = state[cell];
    const isIn = (of) => this.housesOf[cell].some((house) => of(this.told[house]));
    if (this.puzzle.game === "solo") return isFilled(sign) && isIn(({ twice: found }) => found.has(sign));
    if (this.puzzle.game === "tents") {
      return sign === "^" && around(this.puzzle, cell).some((next) => state[next] === "^");
    }
    if (this.isClue(cell)) {
      const number = Number(this.puzzle.fixed[cell]), bulbs = this.bulbs(cell);
      return bulbs > number || bulbs + this.dark(cell) < number;
    }
    return sign === "O" && isIn(({ bulbs }) => bulbs > 1);
  }
}

const twice = (signs) => new Set(signs.filter((sign, k) => signs.indexOf(sign) !== k));
const runs = (cells, state) =>
  (cells.map((cell) => (state[cell] === "#" ? "#" : " ")).join("").match(/#+/g) || []).map((run) => run.length);

// Whether a grid may be the solution, so that it is worth a check.
export function mayBeWhole(standing) {
  const { puzzle, state } = standing, count = (sign) => state.filter((found) => found === sign).length;
  const sum = (clues) => clues.flat().reduce((a, b) => a + b, 0);
  if (puzzle.block) return state.every(isFilled);
  if (puzzle.game === "lightup") return puzzle.fixed.every((sign, cell) => sign || standing.isLit(cell));
  return count(puzzle.game === "tents" ? "^" : "#") === sum(puzzle.rows);
}

// How far a puzzle is: what is counted of it, and how much that is at the end. In Solo that is numbers, in Pattern and Tents what
// the clues count, and in Light Up cells that are lit.
export function progress(puzzle, signs) {
  const open = range(signs.length).filter((cell) => !puzzle.fixed[cell]), count = (of) => open.filter(of).length;
  if (puzzle.block) return [count((cell) => isFilled(signs[cell])), open.length];
  const sum = puzzle.rows.flat().reduce((a, b) => a + b, 0);
  if (puzzle.game !== "lightup") return [count((cell) => "#^".includes(signs[cell])), sum];
  const standing = new Standing(puzzle);
  standing.update(signs);
  return [count((cell) => standing.isLit(cell)), open.length];
}
