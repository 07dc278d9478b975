// Calls of the module that a clock ends. A call can't be stopped where it runs, so it runs in a worker, which is ended with it.
const SECONDS = 10, LOADING = 60;
const LONGEST = 2 ** 31 - 1; // milliseconds of a clock: 24 days
const REFUSED = { status: 2, text: "refused: words\n" };

// A worker of a browser or of Node, with one way to hear it.
async function begun(hear) {
  if (typeof Worker === "function") {
    const worker = new Worker(new URL("worker.js", import.meta.url), { type: "module" });
    worker.onmessage = ({ data }) => hear(data);
    worker.onerror = (event) => hear({ fault: event.message || "the worker can't be loaded" });
    return worker;
  }
  const { Worker: Thread } = await import("node:worker_threads");
  const worker = new Thread(new URL("node-worker.js", import.meta.url), { execArgv: [] });
  worker.on("message", hear);
  worker.on("error", ({ message }) => hear({ fault: message }));
  worker.unref();
  return worker;
}

// The seconds of a clock, of options with no other name.
function secondsOf({ seconds = SECONDS, ...others }) {
  const [other] = Object.keys(others);
  if (other !== undefined) throw new TypeError(`no option ${other}`);
  if (typeof seconds !== "number" || !(seconds > 0)) throw new TypeError(`seconds: ${String(seconds)} is no number over 0`);
  return seconds;
}

export class Ended {
  #worker;
  #hear;
  #seconds;
  #closings = 0;
  #turn = Promise.resolve(); // calls wait for one another, so that each has its own clock

  constructor(options = {}) {
    this.#seconds = secondsOf(options);
    for (const call of ["solve", "solveEach", "check", "grade", "generate"]) this[call] = (...words) => this.#ask([call, ...words]);
  }

  // Calls that wait have no answer. A later call begins a new worker.
  close() {
    this.#closings += 1;
    this.#end();
  }

  #end() {
    this.#worker?.terminate();
    this.#worker = undefined;
    this.#hear?.(undefined);
  }

  #ask(words) {
    const closings = this.#closings, isOpen = () => closings === this.#closings;
    const answer = this.#turn.then(() => (isOpen() ? this.#once(words, isOpen) : undefined));
    this.#turn = answer.catch(() => {});
    return answer;
  }

  async #once(words, isOpen) {
    if (!this.#worker && !await this.#load(isOpen)) return undefined;
    return this.#heard(this.#seconds, () => this.#end(), () => this.#worker.postMessage(words));
  }

  // Whether there is a worker that has the module.
  async #load(isOpen) {
    const mine = await begun((said) => mine === this.#worker && this.#hear?.(said)); // of one that was ended nothing is heard
    if (isOpen()) this.#worker = mine;
    else mine.terminate();
    const late = () => this.#hear({ fault: `the module wasn't loaded within ${LOADING} seconds` });
    return isOpen() && await this.#heard(LOADING, late) !== undefined;
  }

  // What the worker says to an act, or nothing if it is ended. After so many seconds it is too late.
  #heard(seconds, late, act = () => {}) {
    return new Promise((resolve, reject) => {
      const clock = setTimeout(late, Math.min(seconds * 1000, LONGEST));
      this.#hear = (said) => {
        clearTimeout(clock);
        this.#hear = undefined;
        if (said?.fault) {
          this.#end();
          reject(new Error(said.fault));
        } else resolve(said);
      };
      try {
        act();
      } catch {
        this.#hear(REFUSED); // a word that no worker can be told
      }
    });
  }
}
