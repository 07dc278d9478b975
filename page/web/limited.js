// A worker whose calls have a limit of time: one that takes longer ends the worker, and the next call begins a new one. A worker
// says when it is ready, by an answer with the number 0; what it loads before has a time of its own.
const SECONDS = 2, LOADING = 60;

export class Limited {
  constructor(url) {
    this.url = url;
    this.waiting = new Map();
    this.last = 0;
    /** @type {Promise<any>} */
    this.turn = Promise.resolve();
  }

  begin() {
    this.worker = new Worker(this.url, { type: "module" });
    this.worker.onmessage = ({ data: [number, answer] }) => this.end(number, answer);
    this.worker.onerror = (event) => {
      event.preventDefault();
      this.stop("module");
    };
    this.ready = this.told(0, LOADING, "module");
  }

  // What comes of a number, within so many seconds.
  told(number, seconds, late) {
    return new Promise((resolve) => {
      const clock = setTimeout(() => this.stop(late), seconds * 1000);
      this.waiting.set(number, (answer) => {
        clearTimeout(clock);
        resolve(answer);
      });
    });
  }

  end(number, answer) {
    this.waiting.get(number)?.(answer);
    this.waiting.delete(number);
  }

  stop(why) {
    this.worker?.terminate();
    this.worker = undefined;
    for (const number of [...this.waiting.keys()]) this.end(number, { failed: why });
  }

  // Calls in turn, so that one that waits for another has all of its time.
  ask(name, ...words) {
    this.turn = this.turn.then(() => this.now(name, words));
    return this.turn;
  }

  async now(name, words) {
    if (!this.worker) this.begin();
    const told = await this.ready, number = (this.last += 1);
    if (told.failed) {
      this.stop(told.failed);
      return told;
    }
    const answer = this.told(number, SECONDS, "clock");
    this.worker.postMessage([number, name, words]);
    return answer;
  }
}
