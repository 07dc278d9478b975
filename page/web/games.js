// The games: their sizes that are offered, the sign of a filled cell, and a small puzzle of each with its solution. `levels` has
// the sizes of which
// not each level is made in time, with those that are. A pair of size and level is offered if of 20 puzzles 19 come within 3
// seconds: `bench/levels.mjs` tells that, and bench/README.md has its table.

export const GAMES = {
  solo: { name: "Solo", sizes: "2x2 2x3 3x3 3x3x 3x4 4x4", usual: "3x3",
    levels: { "2x2": ["easy"] }, example: "2x2:1b4i3_2a", solved: "1234341221434321" },
  pattern: { name: "Pattern", sizes: "5x5 10x10 15x15 20x20 30x30", usual: "10x10",
    levels: { "20x20": ["easy", "hard"], "30x30": ["easy", "hard"] }, example: "3x3:2/2/2/1.1/3/1", solved: "#.####.#.",
    sign: "#" },
  lightup: { name: "Light Up", sizes: "5x5 7x7 10x10 14x14 20x20 30x30", usual: "7x7",
    levels: { "20x20": ["easy", "hard"], "30x30": ["easy", "hard"] }, example: "3x3:aBBa1aBb", solved: ".##O1.#.O", sign: "O" },
  tents: { name: "Tents", sizes: "5x5 8x8 10x10 15x15 20x20", usual: "8x8", levels: { "20x20": ["hard"] },
    example: "3x3:aaaaa,2,0,2,2,0,2", solved: "^T^T.T^T^", sign: "^" },
};
export const isGame = (name) => Object.hasOwn(GAMES, name);
