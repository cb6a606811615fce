// Workers: each task goes to one, so that the page never waits, and a task that takes too long ends with its worker.

/** What a task fails with if it was stopped. */
export class Stopped extends Error {}

/** A worker, which is started when there is a task, and anew after it was stopped. */
export class Runner {
  #start;
  #worker = null;
  #number = 0;
  #waiting = new Map();

  /** By a function that starts a worker. */
  constructor(start) {
    this.#start = start;
  }

  /** The result of a task; `onpart` is given what is told on the way. */
  run(task, given, onpart = () => {}) {
    this.#worker ??= this.#started();
    const number = ++this.#number;
    return new Promise((done, failed) => {
      this.#waiting.set(number, { done, failed, onpart });
      this.#worker.postMessage({ number, task, ...given });
    });
  }

  /** Whether there is a task. */
  get isBusy() {
    return this.#waiting.size > 0;
  }

  /** Ends the worker, whatever it does. */
  stop() {
    this.#end(new Stopped());
  }

  #started() {
    const worker = this.#start();
    worker.onmessage = ({ data }) => (data.port ? readFor(data) : this.#take(data));
    worker.onerror = ({ message }) => this.#end(new Error(message || "the worker has ended"));
    return worker;
  }

  #take({ number, part, done, failed }) {
    const waiting = this.#waiting.get(number);
    if (!waiting) return; // it was stopped, and its worker had already answered
    if (part !== undefined) {
      waiting.onpart(part);
      return;
    }
    this.#waiting.delete(number);
    if (failed === undefined) waiting.done(done);
    else waiting.failed(new Error(failed));
  }

  #end(error) {
    this.#worker?.terminate();
    this.#worker = null;
    const waiting = [...this.#waiting.values()];
    this.#waiting.clear();
    waiting.forEach(({ failed }) => failed(error));
  }
}

/** Reads a file for a worker that cannot. */
async function readFor({ file, port }) {
  port.postMessage(await file.arrayBuffer().catch(() => null));
}
