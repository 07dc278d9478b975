// The words of the page in English. The program's own names stand in GRADES, BROKEN and `refusals`.
import { at, breaks, clue, count, follows, hint, line, listed, LOOKS, NEEDS, several, suppose, why } from "./en-hints.js";

const GAMES = {
  solo: { name: "Solo", choice: "Solo (sudoku)", rule: "Each row, column and block has each number once.",
    crossed: "Each row, column, block and shaded diagonal has each number once." },
  pattern: { name: "Pattern", choice: "Pattern (nonogram)",
    rule: "The numbers are the lengths of the black runs of a row or column, in order." },
  lightup: { name: "Light Up", choice: "Light Up (akari)",
    rule: "Light each white cell. No bulb lights another. A number counts the bulbs beside it." },
  tents: { name: "Tents", choice: "Tents",
    rule: "Each tree has a tent of its own beside it. No two tents touch. The numbers count the tents." },
};
const GRADES = {
  singles: "Easy: each step finds a cell with one number left, or a number with one cell left.",
  houses: "Medium: each step looks at one row, column or block.",
  crossings: "Medium: some steps look at a block and a line.",
  lines: "Easy: each step looks at one row or column.", local: "Easy: each step looks at one clue or line.",
};
const BROKEN = { number: "a number hasn’t its bulbs beside it", seen: "a bulb lights another",
  dark: "a cell is dark",
  touch: "two tents touch", match: "tents and trees can’t be paired one to one" };

function brokenRule(puzzle, fault) {
  const [kind, where = ""] = fault.split(" "), [x, y] = where.split(",").map((number) => Number(number) + 1);
  const told = `${line(kind, x)} ${puzzle.block ? "has a number twice" : "isn’t as its clue says"}`;
  return `Not yet: ${BROKEN[kind] || told}${y ? `, at ${at([y, x])}` : ""}.`;
}

function size(game, text) {
  const [a, b = a] = text.match(/\d+/g), sides = game === "solo" ? `${a * b} × ${a * b}` : `${Number(a)} ` +
    `× ${Number(b)}`;
  return sides + (text.endsWith("x") ? " X" : "");
}
const kind = (game, text, level = "") =>
  `${GAMES[game].name} ${size(game, text)}${level && ` (${LEVELS[level].toLowerCase()})`}`;
const LEVELS = { easy: "Easy", medium: "Medium", hard: "Hard", any: "Any" };

function keys(puzzle, isTouched) {
  const name = { pattern: "black", lightup: "bulb", tents: "tent" }[puzzle.game];
  if (puzzle.block && isTouched) return "Choose a cell and a number. Hold a number to put it into each cell " +
    "you tap. Hold a cell and draw to choose several.";
  if (puzzle.block) {
    return "Choose a cell and a number, drag to choose several, hold a number to put it into each cell you " +
      "click. Keys: arrows, digits, " +
      "Shift and a digit for a note, N notes, K notes in the corners, 0 or Delete, H hint, C check.";
  }
  const isCrossed = puzzle.rows.length > 0;
  if (isTouched) return `Tap for ${name}, dot, blank. Hold a cell for a moment, then draw from it.` +
    `${isCrossed ? " Tap a number of a clue to cross it off." : ""}`;
  return `Click for ${name}, dot, blank; right click for a dot; drag to draw` +
    `${isCrossed ? "; click a number of a clue to cross it off" : ""}. ` +
    "Keys: arrows, with Shift to draw, Space, X for a dot, Delete, H hint, C check.";
}

const PROVED = "Proved by the program: ";
const dayText = (day) =>
  new Intl.DateTimeFormat("en-GB", { day: "numeric", month: "long", year: "numeric", timeZone: "UTC" }).format(Date.parse(day));

export default {
  games: GAMES, levels: LEVELS, line, size, kind, keys, brokenRule, hint, suppose, follows, breaks, why,
  columns: "columns", none: "none", clue: "clue", notes: "notes", corners: "in the corners",
  signs: { ".": "blank", "•": "dot", "#": "black", O: "bulb", "^": "tent", T: "tree" },
  states: { given: "given", met: "met", lit: "lit", broken: "against the rules", wrong: "wrong",
    wrongNote: "wrong notes", marked: "marked", hint: "hint", differs: "differs", struck: "struck", tried: "tried out",
    then: "follows",
    witness: "bars the others" },
  picture: (name) => `Correct. The puzzle is solved: ${name}.`,
  rule: ({ game, crossed }) => (crossed ? GAMES[game].crossed : GAMES[game].rule),
  look: (look) => (LOOKS[look.kind] || (() => "Look at the marked cells."))(look),
  step: (k, all, told) => `Step ${k} of ${all}. ${told}`,
  stepsMore: (all) => `${all} steps lead to a cell. Press Hint again for the first.`,
  struck: (numbers) => `not ${numbers}`,
  sheet: (k, all, { x, y }) => `Sheet ${k} of ${all}: columns ${x[0] + 1} to ${x[1]}, rows ${y[0] + 1} to ${y[1]}`,
  shown: (sign) => `here ${sign}`,
  left: (number, left) => `${number}, ${left} left`,
  held: (number) => `Each cell that is chosen now gets ${number}. Press ${number} again to end that.`,
  solution: (k) => `Solution ${k}`,
  differ: (cells) => `Two are below. They differ in the ${cells} marked cells.`,
  wrong: (cells) => `${count(cells, "cell is", "cells are")} wrong.`.replace(/^1 /, "One "),
  wrongNotes: (cells) => `The notes of ${count(cells, "cell lack", "cells lack")} its number.`.replace(/of 1 /, "of one "),
  help: {
    solo: ["Fill each blank cell with a number, so that each row, each column and each block has each number once.",
      "Where only one number is left for a cell, or only one cell of a row, column or block for a number, it stands there."],
    pattern: ["The numbers at a row or column are the lengths of its black runs, in order. Between two runs there is a white " +
      "cell at least.",
      "A long run has to cover the middle of its line wherever it begins. That is a good start."],
    lightup: ["Put bulbs into white cells. A bulb lights its row and column up to the next black cell. Each white cell has " +
      "to be lit.",
      "No bulb lights another. A number tells how many bulbs stand beside its black cell."],
    tents: ["Put a tent beside each tree, not at a corner, so that each tree has a tent of its own.",
      "No two tents touch, not even at corners. The numbers tell how many tents a row or column has."],
  },
  helpOf: (name) => `How to play ${name}`, examples: ["A puzzle", "Its solution"],
  shortcuts: {
    solo: [["Arrows", "move"], ["1 to 9", "a number"], ["Shift and a digit", "a note"], ["N, K", "notes, notes in the corners"],
      ["Shift and an arrow", "choose several cells"], ["0 or Delete", "erase"], ["Ctrl-Z, Ctrl-Shift-Z", "undo, redo"],
      ["H, C", "hint, check"], ["+, −", "zoom"], ["Esc", "close the words"], ["?", "this sheet"]],
    others: [["Arrows", "move"], ["Space", "filled, dot, blank"], ["X", "a dot"], ["Shift and an arrow", "draw"],
      ["0 or Delete", "erase"], ["Ctrl-Z, Ctrl-Shift-Z", "undo, redo"], ["H, C", "hint, check"], ["+, −", "zoom"],
      ["Esc", "close the words"], ["?", "this sheet"]],
  },
  day: (day) => `The puzzle of ${dayText(day)}.`,
  dayName: (day, isDone) => `${dayText(day)}${isDone ? ", solved" : ""}`,
  streak: (now, most) => `${count(now, "day", "days")} in a row; the most were ${most}.`,
  outcome: ({ time, hints, isShown }) =>
    (isShown ? "The solution was shown." : `Time ${time}, ${count(hints, "hint", "hints")}.`),
  result: ({ kind, day, time, hints, isShown }) =>
    `${kind}${day ? `, ${day}` : ""}: ${isShown ? "shown" : `solved in ${time}, ${count(hints, "hint", "hints")}`}`,
  noHint: (said) => `${said} So there is no hint.`,
  refused: (said) => `This ID is refused: ${said}.`,
  unknown: (name) => `There is no game “${name}” here. The games are solo, pattern, lightup and tents.`,
  otherGame: (game) => `That is an ID of ${GAMES[game].name}.`,
  begun: (name, filled, open, isSolved) => `${name}: ${isSolved ? "solved" : `${filled} of ${open}`}`,
  solvedHeads: ["Puzzle", "Solved", "Without hints", "Best", "Mean"],
  refusals: { "seed id": "it is a seed of another program, not a puzzle",
    "no colon": (example) => `it isn’t like ${example}`,
    "bad byte": "at the mark stands something that can’t be there", "number range": "the marked number is too small or too large",
    line: "the marked clue is too long for its line", grid: "its grid isn’t one of this puzzle",
    words: "the program doesn’t know these words",
    "field id": "it has a control character", "too few": "it ends too soon",
    "too many": "it goes on for too long",
    "too long": "it has over 65,536 bytes", "bad size": "its size can’t be read",
    "size range": "its size isn’t one of this game",
    variant: "this variant isn’t here" },
  grade(game, { grade, needs }, level) {
    if (GRADES[grade]) return GRADES[grade];
    if (!needs) return "Hard: one has to look at more than one clue or line at a time.";
    const told = Object.keys(NEEDS).filter((of) => needs[of]).map((of) => count(needs[of], ...NEEDS[of]));
    return `${LEVELS[level]}${needs.trial || needs.guess ? "" : ", no guesses"}: ` +
      `${told.length ? listed(told) : "no more than single steps"}.`;
  },
  wanted: {
    solo: { easy: "Each step finds the one number of a cell, or the one place of a number.",
      medium: "Sets of numbers, and blocks against lines.",
      hard: "X-wings, XY-wings, chains, or a cell tried out." },
    pattern: { easy: "Each step looks at one row or column.",
      medium: "Up to three cells have to be tried out.", hard: "More cells have to be tried out." },
    lightup: { easy: "Each step looks at one number or cell.", medium: "Some steps look one bulb ahead.",
      hard: "Some cells have to be tried out." },
    tents: { easy: "Each step looks at one tree or line.",
      medium: "Some steps look at all ways to put the tents of a line.",
      hard: "Some cells have to be tried out." },
  },
  pictures: { house: "a house", boat: "a sailing boat", mushroom: "a mushroom", heart: "a heart",
    cup: "a cup", cat: "a cat", key: "a key", umbrella: "an umbrella", duck: "a duck", tree: "a tree",
    snail: "a snail", car: "a car" },
  because: {
    wrong: `${PROVED}the only solution has something else there.`,
    noMistake: `${PROVED}what is filled in stands so in the only solution.`,
    guess: `${PROVED}the only solution has this there.`,
    step: `${PROVED}the only solution has this there. The page’s own: the reason.`,
    trial: `${PROVED}the only solution has this there. The page’s own: the reason.`,
  },
  said: {
    clock: "This takes longer than the page allows.", busy: "The page is busy. Try again in a few seconds.",
    program: "The program stopped without an answer. Try again.", away: "The page’s server didn’t answer.",
    module: "The program’s module can’t be loaded. Reload the page; what you filled in is kept.",
    wasm: "This browser has no WebAssembly, which the page needs to make and check puzzles. What you fill " +
      "in is kept.",
    refused: "The program refused this.", one: "The only solution is below.",
    none: "This puzzle has no solution.",
    several: "This puzzle has several solutions.", "gave up": "Too hard to tell within the page’s limit.",
    level: "No puzzle of this difficulty came in time. Try another size or difficulty.",
    link: "This link names no game that is here. The games are solo, pattern, lightup and tents.",
    unopened: "This link couldn’t be opened now. Open its ID once more.",
    sizeRange: "Puzzles of this size aren’t made.",
    seed: "A seed is a whole number from 0 to 18,446,744,073,709,551,615.",
    fillFirst: "So no cell alone is right or wrong. Fill all cells first.",
    correct: "Correct. The puzzle is solved.", noMistake: "No mistake so far.",
    filledWrong: "Each cell is filled, but something is wrong. Check shows where.",
    nextStep: "Press Hint again for the next step.",
    byNotes: "This rests on your notes.",
    solveAsk: "Solve shows the whole solution, and the puzzle won’t count as solved by you. Press Solve again to see it.",
    unkept: "This browser keeps nothing more. Print or share the puzzle to keep it.",
    still: "No puzzle of this difficulty yet. It is still being made, while you play on.", stopped: "Stopped.",
    made: "Your new puzzle is there.", noPuzzle: "No puzzle came of this seed. Try another.",
    variant: "This link is of a variant that isn’t here. Plain sudokus are, also with both diagonals.",
    drawing: "This link is of a drawing, which doesn’t say which game it is. Write its numbers as 81 characters, row by row, " +
      "with a dot for blank.",
    same: "That puzzle is on the table already.",
    hintMore: "Press Hint again for the cell.", startedOver: "All is blank again. Undo brings it back.",
    marked: "Marked. Back to the mark returns to this.",
    keptBefore: "The puzzle before is kept: Back returns to it.", resultCopied: "The result is copied.",
    copied: "The link is copied.",
    notCopied: "The address above is the link.",
  },
  page: {
    game: "Game", today: "Today’s", clock: "Time", puzzle: "Puzzle", numbers: "Numbers", steps: "Steps",
    answers: "Answers", more: "More",
    undo: "Undo", redo: "Redo", notes: "Notes", corners: "Corner", colours: "Colour", colour: "colour", erase: "Erase",
    hint: "Hint", check: "Check", solve: "Solve",
    grade: "Grade", allNotes: "All notes", mark: "Mark this", back: "Back to mark", startOver: "Start over",
    share: "Share", paper: "Print",
    pause: "Pause", goOn: "Go on", zoom: "Zoom", smaller: "smaller", larger: "larger", brag: "Share the result",
    calendar: "Calendar",
    earlier: "the month before", later: "the month after", help: "Rules, keys", keyboard: "Keys", stop: "Stop",
    close: "Close", rest: "To the end", solutions: "Solutions", make: "New puzzle", size: "Size",
    difficulty: "Difficulty", seed: "Seed",
    any: "any", picture: "A picture", generate: "New puzzle",
    open: "Open a puzzle", begun: "Go on with", choose: "choose",
    id: "An ID, a link (also of f-puzzles or puzz.link), or a sudoku of 81 characters", enter: "Open",
    settings: "Settings", solved: "What you solved",
    proved: "Proved by the program: that a solution is the only one, that a grid is correct, each mistake, " +
      "and why an ID is refused. " +
      "The page’s own: the reasons of hints.",
  },
  settings: { broken: "Show broken rules", near: "Light the row and column", tidy: "Notes go by themselves",
    dots: "Dots in finished lines",
    clock: "Show the time", filled: "Print what is filled in", look: "Colours", language: "Language" },
  looks: { system: "As the device", light: "Light", dark: "Dark" },
};
