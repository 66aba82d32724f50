// A pool has workers, and calls that wait for a worker. A worker answers one call at a time. Both numbers have a bound.

import { Argon2, moduleOf } from "./argon2.mjs";
import { clear, copied } from "./calls.mjs";
import { complete, whole } from "./options.mjs";

// Workers answer the calls of IN_WORKERS. The pool itself answers the calls of HERE, because they make no hash.
const IN_WORKERS = ["hash", "verify", "logIn", "raw"];
const HERE = ["needsRehash", "isWeaker", "parse"];
const OPTIONS = { maxQueued: 64, idleTimeout: 10000 };
// The most milliseconds of a timer. A timer with more milliseconds ends at once.
const LONGEST = 2 ** 31 - 1;

const MESSAGES = {
  QUEUE_FULL: "the queue of the pool is full",
  POOL_CLOSED: "the pool is closed",
  WORKER_DIED: "a worker of the pool did not start, or ended before it answered",
};

/** Why a pool did not answer a call. `code` is the name of the error, and `cause` is the reason why a worker died. */
export class PoolError extends Error {
  constructor(code, options) {
    super(MESSAGES[code], options);
    this.name = "PoolError";
    this.code = code;
  }
}

/**
 * A pool. `readModule` reads the package's module, `start` starts a worker with a module, and `size` is the size if the options
 * lack it.
 */
export class Pool {
  #readModule;
  #start;
  #size;
  #maxQueued;
  #idleTimeout;
  #loading;
  // The calls that wait, and how many other calls have a worker or will have one soon.
  #queue = [];
  #running = 0;
  // The workers without a call, each with its timer. The worker that had a call last is at the end.
  #idle = [];
  #ends = Promise.resolve();
  #closing;
  #whenClosed;

  constructor({ readModule, start, size }, options = {}) {
    const given = complete({ ...OPTIONS, size }, options);
    this.#size = whole(given.size, "size", 1);
    this.#maxQueued = whole(given.maxQueued, "maxQueued");
    this.#idleTimeout = whole(given.idleTimeout, "idleTimeout", 0, LONGEST);
    this.#readModule = readModule;
    this.#start = start;
  }

  /** Returns the functions of the pool. Each of them returns a promise. */
  functions() {
    const functionsOf = (names, call) => Object.fromEntries(names.map((name) => [name, async (...words) => call(name, words)]));
    return {
      ...functionsOf(IN_WORKERS, (name, words) => this.#enqueue(name, words)),
      ...functionsOf(HERE, (name, words) => this.#answer(name, words)),
      close: () => this.#close(),
    };
  }

  // Returns the answer of a worker.
  #enqueue(name, words) {
    this.#requireOpen();
    if (this.#running === this.#size && this.#queue.length >= this.#maxQueued) throw new PoolError("QUEUE_FULL");
    const copy = copied(words);
    return new Promise((resolve, reject) => {
      this.#queue.push({ name, copy, resolve, reject });
      this.#next();
    });
  }

  // Returns the answer of the pool itself.
  async #answer(name, words) {
    this.#requireOpen();
    const copy = copied(words);
    try {
      return (await this.#load()).argon2[name](...copy.words);
    } finally {
      clear(copy.words);
    }
  }

  #requireOpen() {
    if (this.#closing) throw new PoolError("POOL_CLOSED");
  }

  // Starts calls until all workers have one. The last call of a pool that is closed ends the workers.
  #next() {
    while (this.#queue.length > 0 && this.#running < this.#size) this.#run(this.#queue.shift());
    if (this.#closing && this.#running === 0) {
      for (let worker; (worker = this.#takeIdle()); ) this.#end(worker);
      this.#whenClosed(this.#ends);
    }
  }

  async #run({ name, copy, resolve, reject }) {
    this.#running++;
    let worker;
    try {
      const { module } = await this.#load();
      worker = this.#takeIdle() ?? this.#begin(module);
      resolve(await worker.call(name, copy));
    } catch (error) {
      if (!worker) clear(copy.words);
      reject(worker?.ended === error ? new PoolError("WORKER_DIED", { cause: error }) : error);
    } finally {
      this.#running--;
      if (worker) this.#keep(worker);
      this.#next();
    }
  }

  // Loads the module, which all workers share. If that fails, the next call reads the module again.
  #load() {
    this.#loading ??= moduleOf(this.#readModule())
      .then((module) => ({ module, argon2: new Argon2(module) }))
      .catch((error) => {
        this.#loading = undefined;
        throw error;
      });
    return this.#loading;
  }

  #begin(module) {
    try {
      return this.#start(module);
    } catch (error) {
      throw new PoolError("WORKER_DIED", { cause: error });
    }
  }

  // Keeps a worker without a call until it has been idle for too long.
  #keep(worker) {
    const timer = setTimeout(() => {
      this.#idle = this.#idle.filter((it) => it.worker !== worker);
      this.#end(worker);
    }, this.#idleTimeout);
    // (node does not wait for this timer)
    timer.unref?.();
    this.#idle.push({ worker, timer });
  }

  // Returns the worker that had a call last, so that the others are idle for longer. A worker that died is ended, and the next
  // worker replaces it.
  #takeIdle() {
    for (let it; (it = this.#idle.pop()); ) {
      clearTimeout(it.timer);
      if (!it.worker.ended) return it.worker;
      this.#end(it.worker);
    }
  }

  #end(worker) {
    const [before, ending] = [this.#ends, worker.terminate()];
    this.#ends = (async () => {
      await before;
      await ending;
    })();
  }

  #close() {
    this.#closing ??= new Promise((resolve) => (this.#whenClosed = resolve));
    this.#next();
    return this.#closing;
  }
}
