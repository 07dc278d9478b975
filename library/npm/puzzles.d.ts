/** The program's statuses: 0 to 4 with an answer; 5, without a text, is a full memory, and 6 a text of 4 GiB. */
export type Status = 0 | 1 | 2 | 3 | 4 | 5 | 6;
export type Game = "solo" | "pattern" | "lightup" | "tents";
/** Digits may stand in a text, since seeds and budgets go past JavaScript's whole numbers. */
export type Whole = number | bigint | string;
/** A text, or its bytes. */
export type Text = string | Uint8Array;
/** What the program would write, and its status. */
export interface Answer {
  readonly status: Status;
  readonly text: string;
}
export interface Budget {
  /** How many trials a search may make: 100,000. */
  budget?: Whole;
}
export interface OfGrade extends Budget {
  /** Whether the steps of the deduction follow. */
  trace?: boolean;
}
export interface OfGenerate extends Budget {
  /** How many solved grids are tried: 1,000. */
  tries?: Whole;
  /** Black cells per cent, of Pattern and Light Up alone. */
  black?: Whole;
}
export declare class Puzzles {
  /** Of the bytes of puzzles.wasm, or of what `fetch` gives. It fails with a sentence. */
  static load(source: BufferSource | Response | PromiseLike<BufferSource | Response>): Promise<Puzzles>;
  constructor(module: WebAssembly.Module);
  solve(game: Game, id: Text, options?: Budget): Answer;
  /** The answers to the IDs that are lines of a text. */
  solveEach(game: Game, lines: Text, options?: Budget): Answer;
  check(game: Game, id: Text, grid: Text): Answer;
  grade(game: Game, id: Text, options?: OfGrade): Answer;
  /** A seed gives the same puzzle within a version. */
  generate(game: Game, size: Text, seed: Whole, options?: OfGenerate): Answer;
}
