// The level of each grade, for the page and for books: puzzles/book/levels.py reads this file too, as JSON from its brace on.
// A `search` is easier if little has to be tried: `levelOf` of levels.js and `level_of` of levels.py tell.
export const LEVEL_OF = {
  "singles": "easy", "lines": "easy", "local": "easy",
  "houses": "medium", "crossings": "medium",
  "search": "hard"
};
