import type { Answer, Budget, Game, OfGenerate, OfGrade, Text, Whole } from "./puzzles.js";
/** The calls of Puzzles in a worker. One that takes longer than its seconds gives `undefined`, and the next has a new worker. */
export declare class Ended {
  /** 10 seconds, if nothing is said, and at most 24 days. What is no number over 0, and any other option, is a TypeError. */
  constructor(options?: { seconds?: number });
  solve(game: Game, id: Text, options?: Budget): Promise<Answer | undefined>;
  solveEach(game: Game, lines: Text, options?: Budget): Promise<Answer | undefined>;
  check(game: Game, id: Text, grid: Text): Promise<Answer | undefined>;
  grade(game: Game, id: Text, options?: OfGrade): Promise<Answer | undefined>;
  generate(game: Game, size: Text, seed: Whole, options?: OfGenerate): Promise<Answer | undefined>;
  /** Ends the worker. Calls that wait give `undefined`, and a later one begins a new worker. */
  close(): void;
}
