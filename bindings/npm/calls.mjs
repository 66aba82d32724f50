// Calls of a worker's functions. A page and its worker share this code.

import { Argon2Error } from "./error.mjs";
import { bytesOf, isBytes } from "./instance.mjs";
import { requirePlain } from "./options.mjs";

const NAMES = ["hash", "verify", "logIn", "needsRehash", "isWeaker", "parse", "raw"];

/**
 * Answers calls. The first argument is a promise of the functions, and the second argument posts an answer. Returns a function
 * that handles a call. The bytes of the call and of its answer are copies of the worker, which the worker clears.
 */
export function answering(loading, post) {
  // (before a call nobody asks why the functions were not loaded)
  loading.catch(() => {});
  return async ({ id, name, words }) => {
    let answer;
    try {
      answer = (await loading)[name](...words);
      post({ id, answer });
    } catch (error) {
      post({ id, error, number: error instanceof Argon2Error ? error.number : undefined });
    } finally {
      clear(words);
      clear(answer);
    }
  };
}

/** Clears all bytes in a copied value. It clears the whole buffer of a view. Shared memory is no copy, so it stays. */
export function clear(value) {
  if (isBytes(value)) {
    const buffer = value.buffer ?? value;
    if (buffer instanceof ArrayBuffer) new Uint8Array(buffer).fill(0);
  } else if (isObject(value)) {
    Object.values(value).forEach(clear);
  }
}

/**
 * Returns a copy of the arguments of a call, and the buffers of its bytes. Each buffer contains only these bytes. Options that
 * are no plain object are refused, because a copy has the properties of the object itself, and not of its prototype.
 */
export function copied(words) {
  const buffers = [];
  const copyOf = (value) => {
    if (isBytes(value)) {
      const given = bytesOf(value);
      // (an array that makes its own buffer may leave its bytes in another place too)
      const bytes = new Uint8Array(new ArrayBuffer(given.length));
      bytes.set(given);
      buffers.push(bytes.buffer);
      return bytes;
    }
    if (!isObject(value)) return value;
    requirePlain(value);
    return Object.fromEntries(Object.entries(value).map(([name, it]) => [name, copyOf(it)]));
  };
  try {
    return { words: words.map(copyOf), buffers };
  } catch (error) {
    clear(buffers);
    throw error;
  }
}

function isObject(value) {
  return typeof value === "object" && value !== null;
}

/** Calls of a worker, and the promises that wait for its answers. */
export class Calls {
  #worker;
  #waiting = new Map();
  #next = 0;
  #ended;

  constructor(worker) {
    this.#worker = worker;
  }

  /** Returns the functions of the worker. Each of them returns a promise. */
  functions() {
    const functionOf = (name) => async (...words) => this.call(name, copied(words));
    return { ...Object.fromEntries(NAMES.map((name) => [name, functionOf(name)])), terminate: () => void this.terminate() };
  }

  /** The error after which the worker answers no more calls, or undefined. */
  get ended() {
    return this.#ended;
  }

  /** Returns the answer to a call. The copy of its arguments goes to the worker, without a further copy of the bytes. */
  async call(name, { words, buffers }) {
    const id = this.#next++;
    try {
      if (this.#ended) throw this.#ended;
      this.#worker.postMessage({ id, name, words }, buffers);
    } catch (error) {
      clear(words);
      throw error;
    }
    // (node waits for a worker to which it has a reference)
    this.#worker.ref?.();
    return new Promise((resolve, reject) => this.#waiting.set(id, { resolve, reject }));
  }

  /** Handles an answer. (A worker that is terminated still delivers the answers that it had posted. Nobody waits for them.) */
  take({ id, answer, error, number }) {
    const waiting = this.#waiting.get(id);
    if (waiting === undefined) return;
    const { resolve, reject } = waiting;
    this.#remove(id);
    if (error === undefined) resolve(answer);
    else reject(number === undefined ? error : new Argon2Error(number));
  }

  /** Rejects all calls, and later calls too. */
  end(error) {
    this.#ended ??= error;
    for (const [id, { reject }] of this.#waiting) {
      this.#remove(id);
      reject(error);
    }
  }

  /** Ends the worker, and rejects all calls. In node it returns a promise, which waits for the end of the worker. */
  terminate() {
    this.end(new Error("the worker was terminated"));
    return this.#worker.terminate();
  }

  #remove(id) {
    this.#waiting.delete(id);
    if (this.#waiting.size === 0) this.#worker.unref?.();
  }
}
