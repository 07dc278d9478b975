// The proved library as a WebAssembly module, in a page, a worker or Node. Each call gives what the program would write, and
// its status. 5, with no text, is a full memory. A call whose module stops in it throws, and the next one is well.
const VERSION = 1; // of the module that goes with this file, as puzzles_version tells it
const GAMES = ["solo", "pattern", "lightup", "tents"], BLACK = { pattern: 50, lightup: 20 };
const NO_MEMORY = 5, TOO_SMALL = 7, REFUSED = { status: 2, text: "refused: words\n" };
const BUDGET = 100000; // the program's own
const FIRST_ROOM = 80057; // the most bytes of an answer, but for many lines and for a trace
const KEPT_MEMORY = 2 ** 26;
const encoder = new TextEncoder(), decoder = new TextDecoder();

class Refused extends Error {}
class Full extends Error {}

// A number that fits so many bits, as the module takes it; its digits may also stand in a text.
function number(value, bits) {
  const isNumber = typeof value === "bigint" || Number.isSafeInteger(value) || (typeof value === "string" && /^\d+$/.test(value));
  if (!isNumber || BigInt(value) < 0n || BigInt(value) >> BigInt(bits)) throw new Refused();
  return bits > 32 ? BigInt(value) : Number(value);
}

// A text as bytes; bytes may come in its place.
function text(word) {
  const bytes = typeof word === "string" ? encoder.encode(word) : word;
  if (!(bytes instanceof Uint8Array)) throw new Refused();
  return bytes;
}

// Options with no other names than these.
function known(options, ...names) {
  const given = options ?? {};
  if (typeof given !== "object" || Object.keys(given).some((name) => !names.includes(name))) throw new Refused();
  return given;
}

// Of bytes, or of a response, as it comes where the browser takes it so.
async function compiled(source) {
  const given = await source;
  if (typeof Response !== "function" || !(given instanceof Response)) return WebAssembly.compile(given);
  if (!given.ok) throw new Error(`${given.url} has status ${given.status}`);
  const isStreamed = WebAssembly.compileStreaming && given.headers.get("Content-Type") === "application/wasm";
  return isStreamed ? WebAssembly.compileStreaming(given) : WebAssembly.compile(await given.arrayBuffer());
}

export class Puzzles {
  #module;
  #exports;
  #room = FIRST_ROOM;

  // Of the bytes of puzzles.wasm, or of what `fetch` gives. It fails with a sentence.
  static async load(source) {
    if (typeof WebAssembly !== "object") throw new Error("no WebAssembly here");
    try {
      return new Puzzles(await compiled(source));
    } catch (fault) {
      throw new Error(`puzzles.wasm can't be loaded: ${fault.message}`, { cause: fault });
    }
  }

  constructor(module) {
    this.#module = module;
    this.#begin();
    const version = this.#exports.puzzles_version?.();
    if (version !== VERSION) throw new Error(`a module of version ${version}, and not ${VERSION}`);
  }

  solve(game, id, options) {
    return this.#answer("solve", game, () => {
      const { budget = BUDGET } = known(options, "budget");
      return [text(id), number(budget, 64)];
    });
  }

  // The answers to the IDs that are lines of a text.
  solveEach(game, lines, options) {
    return this.#answer("solve_each", game, () => {
      const { budget = BUDGET } = known(options, "budget");
      return [text(lines), number(budget, 64)];
    });
  }

  check(game, id, grid) {
    return this.#answer("check", game, () => [text(id), text(grid)]);
  }

  grade(game, id, options) {
    return this.#answer("grade", game, () => {
      const { budget = BUDGET, trace = false } = known(options, "budget", "trace");
      return [text(id), number(budget, 64), Number(Boolean(trace))];
    });
  }

  generate(game, size, seed, options) {
    return this.#answer("generate", game, () => {
      const { budget = BUDGET, tries = 1000, black } = known(options, "budget", "tries", "black");
      if (black !== undefined && !(game in BLACK)) throw new Refused();
      return [text(size), number(seed, 64), number(budget, 64), number(tries, 32), number(black ?? BLACK[game] ?? 0, 8)];
    });
  }

  #begin() {
    this.#exports = new WebAssembly.Instance(this.#module).exports;
  }

  // What a call answers to a game and further words, which are bytes or numbers.
  #answer(call, game, words) {
    try {
      return this.#whole(call, [number(GAMES.indexOf(game), 8), ...words()]);
    } catch (fault) {
      if (fault instanceof Refused) return REFUSED;
      this.#begin(); // nothing is known of the memory of a module that stopped
      if (fault instanceof Full) return { status: NO_MEMORY, text: "" };
      throw new Error(`the module stopped in ${call}: ${fault.message}`, { cause: fault });
    }
  }

  // An answer that is longer than its room is asked for again.
  #whole(call, words) {
    let status = TOO_SMALL, text = "";
    while (status === TOO_SMALL) [status, text] = this.#once(call, words);
    if (this.#exports.memory.buffer.byteLength > KEPT_MEMORY) {
      this.#begin();
      this.#room = FIRST_ROOM; // else the next call would take as much again
    }
    return { status, text };
  }

  /** @returns {[number, string]} */
  #once(call, words) {
    this.#exports.puzzles_clear();
    const passed = words.flatMap((word) => (word instanceof Uint8Array ? this.#put(word) : [word]));
    const written = this.#place(8), output = this.#place(this.#room), { memory } = this.#exports;
    // a status is a byte, and nothing is said of the bits above it
    const status = this.#exports[`puzzles_${call}`](...passed, output, BigInt(this.#room), written) & 255;
    const length = Number(new DataView(memory.buffer).getBigUint64(Number(written), true));
    if (status === TOO_SMALL) this.#room = 2 * length;
    return [status, status < NO_MEMORY ? decoder.decode(new Uint8Array(memory.buffer, Number(output), length)) : ""];
  }

  // The address and the length of bytes in the module's memory.
  #put(bytes) {
    const address = this.#place(bytes.length);
    new Uint8Array(this.#exports.memory.buffer).set(bytes, Number(address));
    return [address, BigInt(bytes.length)];
  }

  #place(length) {
    const address = this.#exports.malloc(BigInt(length || 1));
    if (!address) throw new Full();
    return address;
  }
}
