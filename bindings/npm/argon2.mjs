// Each entry of the package exports these functions. The functions of the module are proved to decide, hash, and read and write
// PHC strings as their contracts state. This file copies their inputs and outputs, and names their answers.

import { Argon2Error, MISMATCH, must } from "./error.mjs";
import { DEFAULT_BOUND } from "./header.mjs";
import { Instance } from "./instance.mjs";
import { complete, whole } from "./options.mjs";

export { Argon2Error };

const ALGORITHMS = ["argon2d", "argon2i", "argon2id"];
const COSTS = { algorithm: "argon2id", version: 19, memory: 19456, passes: 2, lanes: 1, length: 32 };
const TAG = { ...COSTS, secret: "", data: "" };
const TEXT = { ...TAG, keyid: "" };
// (the library's default bound has 2 GiB, which a page or a pool of workers may not get)
const BOUND = { ...DEFAULT_BOUND, memory: 262144 };
const VERIFYING = { secret: "", oldSecret: undefined, bound: BOUND };

const DRAWN_SALT = 16;
const TEXT_SIZE = 327;
const SHOWN_SIZE = 208;
// An instance whose memory has grown above this many bytes is dropped, since it never shrinks.
const KEPT_SIZE = 2 ** 27;
// The milliseconds after which rawAsync lets others run.
const TURN = 8;

/** Hashes and verifies. `load` of an entry makes one. */
export class Argon2 {
  #module;
  #kept;

  constructor(module) {
    this.#module = module;
  }

  /** Returns the hash of a password, to be stored, which is a PHC string. */
  hash(password, options = {}) {
    const wanted = complete({ ...TEXT, salt: drawSalt() }, options);
    return this.#use((instance) => {
      const inputs = new Inputs(instance, wanted, password, wanted.salt);
      must(inputs.textRefusal());
      return inputs.text(inputs.tag());
    });
  }

  /** Returns whether a stored hash accepts a password. */
  verify(text, password, options = {}) {
    return this.#acceptedUnder(text, password, complete(VERIFYING, options)) !== undefined;
  }

  /** Returns whether a stored hash accepts a password, and the hash to store from now on. */
  logIn(text, password, options = {}) {
    const { oldSecret, bound, ...wanted } = complete({ ...VERIFYING, ...TEXT }, options);
    this.#use((instance) => {
      const inputs = new Inputs(instance, wanted, "", "");
      must(inputs.refusal("phc_wanted_refusal", writeBound(instance, bound), ...inputs.secret, ...inputs.secret));
    });
    const name = this.#acceptedUnder(text, password, { secret: wanted.secret, oldSecret, bound });
    if (name === undefined) return null;
    try {
      const isDue = this.#differs("phc_is_due", text, wanted, Number(name === "oldSecret"));
      return { hash: isDue ? this.hash(password, wanted) : null };
    } catch {
      // (no failure after the password was accepted is an error: the stored hash stays, and the next login tries again)
      return { hash: null };
    }
  }

  /** Returns whether a stored hash shows other settings than the wanted ones. It does not show its secret. */
  needsRehash(text, options = {}) {
    return this.#differs("phc_renewal", text, options);
  }

  /** Returns whether a stored hash is weaker than new hashes, so that `logIn` would replace it. */
  isWeaker(text, options = {}) {
    return this.#differs("phc_is_due", text, options, 0);
  }

  /** Returns what a stored hash shows. */
  parse(text) {
    return this.#use((instance) => show(instance, "phc_show", ...instance.write(text, "the text")));
  }

  /** Returns only the tag, for example as a key. */
  raw(password, salt, options = {}) {
    const wanted = { ...complete(TAG, options), keyid: "" };
    return this.#use((instance) => {
      const inputs = new Inputs(instance, wanted, password, salt);
      must(inputs.tagRefusal());
      return instance.read(inputs.tag());
    });
  }

  /** Does what `raw` does, in turns of some milliseconds. */
  async rawAsync(password, salt, options = {}) {
    const { onProgress, signal, ...settings } = complete({ ...TAG, onProgress: undefined, signal: undefined }, options);
    const wanted = { ...settings, keyid: "" };
    signal?.throwIfAborted();
    const instance = this.#take();
    try {
      const inputs = new Inputs(instance, wanted, password, salt);
      must(inputs.tagRefusal());
      const tag = instance.read(await inTurns(inputs.segments(), onProgress, signal));
      this.#keep(instance);
      return tag;
    } finally {
      instance.clear();
    }
  }

  // Returns the name of the secret under which a stored hash accepts a password, if it does.
  #acceptedUnder(text, password, { secret, oldSecret, bound }) {
    return this.#use((instance) => {
      const limits = writeBound(instance, bound);
      const [stored, given] = [instance.write(text, "the text"), instance.write(password, "the password")];
      const key = instance.write(secret, "the secret");
      const oldKey = oldSecret === undefined ? undefined : instance.write(oldSecret, "the old secret");
      const shown = show(instance, "phc_admit", limits, ...stored, given[1], key[1], oldKey?.[1] ?? 0n);
      const inputs = new Inputs(instance, { ...shown, length: shown.hash.length, secret: "" }, "", shown.salt);
      const hash = instance.write(shown.hash, "the hash");
      inputs.password = given;
      const accepts = (secret) => {
        inputs.secret = secret;
        const answer = instance.call("compare", ...hash, ...inputs.tag());
        return answer === MISMATCH ? false : must(answer) === 0;
      };
      if (accepts(key)) return "secret";
      return oldKey !== undefined && accepts(oldKey) ? "oldSecret" : undefined;
    });
  }

  // Returns whether a function that compares a stored hash with the wanted settings answers with another number than 0.
  #differs(name, text, options, ...words) {
    const wanted = complete(TEXT, options);
    return this.#use((instance) => {
      const inputs = new Inputs(instance, wanted, "", "");
      must(inputs.refusal("params_refusal"));
      const { request, keyid, data } = inputs;
      const stored = instance.write(text, "the text");
      return must(instance.call(name, request, BigInt(wanted.length), ...keyid, ...data, ...words, ...stored)) !== 0;
    });
  }

  // Calls a function with an instance. If the call fails, the instance is dropped, because it may have stopped anywhere.
  #use(body) {
    const instance = this.#take();
    try {
      const answer = body(instance);
      this.#keep(instance);
      return answer;
    } finally {
      instance.clear();
    }
  }

  #take() {
    const instance = this.#kept ?? new Instance(this.#module);
    this.#kept = undefined;
    return instance;
  }

  #keep(instance) {
    if (instance.size <= KEPT_SIZE) this.#kept = instance;
  }
}

// The inputs of a hash, in the memory of an instance.
class Inputs {
  #instance;
  #wanted;
  #lent;

  constructor(instance, wanted, password, salt) {
    const { memory, passes, lanes, version } = wanted;
    const algorithm = ALGORITHMS.indexOf(wanted.algorithm);
    for (const name of ["memory", "passes", "lanes", "version", "length"]) whole(wanted[name], name);
    this.#instance = instance;
    this.#wanted = wanted;
    this.password = instance.write(password, "the password");
    this.salt = instance.write(salt, "the salt");
    this.secret = instance.write(wanted.secret, "the secret");
    this.data = instance.write(wanted.data, "the data");
    this.keyid = instance.write(wanted.keyid, "the key identifier");
    // (there are no threads, no null pointers and no callbacks; an algorithm without a number is refused)
    this.request = instance.writeNumbers(algorithm, version, memory, passes, lanes, lanes, 0, 0);
  }

  // Calls a function that checks these inputs. Returns the code of its refusal, or 0.
  refusal(name, ...words) {
    const lengths = [this.keyid[1], this.data[1], this.secret[1], this.#wanted.length, 1];
    // (each length has 64 bits; the last number means that the length before it is set)
    const place = this.#instance.writeNumbers(...lengths.flatMap((it) => [Number(it), 0]));
    return this.#instance.call(name, this.request, place, ...words);
  }

  tagRefusal() {
    return this.refusal("tag_refusal", BigInt(this.#wanted.length), this.password[1], this.salt[1]);
  }

  textRefusal() {
    return this.refusal("text_refusal", this.salt[1], BigInt(this.#wanted.length), this.password[1]);
  }

  // Makes the tag of inputs that are not refused, and returns its place. The next tag has the same blocks and the same place.
  tag() {
    const { password, salt, secret, data } = this;
    const count = blockCount(this.#wanted.memory, this.#wanted.lanes);
    this.#lent ??= [this.#instance.lendBlocks(count)(0, count), this.#instance.lend(this.#wanted.length)];
    const [blocks, out] = this.#lent;
    must(this.#instance.call("hash", this.request, ...password, ...salt, ...secret, ...data, ...blocks, ...out));
    return out;
  }

  // Makes the tag one segment after the other. Yields the share that is done, and returns the place of the tag.
  *segments() {
    const { request, password, salt, secret, data } = this;
    const { memory, passes, lanes, length } = this.#wanted;
    const slice = blockCount(memory, lanes) / 4;
    const segment = slice / lanes;
    const blocks = this.#instance.lendBlocks(4 * slice);
    const out = this.#instance.lend(length);
    const place = this.#instance.lend(12);
    const call = (...words) => must(this.#instance.call(...words));
    call("begin", request, ...password, ...salt, ...secret, ...data, out[1], ...blocks(0, slice));
    for (let step = 0; step < 4 * passes * lanes; step++) {
      yield step / (4 * passes * lanes);
      const lane = step % lanes;
      const column = Math.floor(step / lanes) % 4;
      this.#instance.setNumbers(place, Math.floor(step / lanes / 4), column, lane);
      const parts = [
        ...blocks(0, column * slice),
        ...blocks(column * slice + lane * segment, segment),
        ...blocks((column + 1) * slice, (3 - column) * slice),
      ];
      call("segment", request, ...secret, ...data, ...parts, place[0]);
    }
    call("finish", request, ...blocks(3 * slice, slice), ...out);
    return out;
  }

  // Returns the PHC string with a tag.
  text(tag) {
    const text = this.#instance.lend(TEXT_SIZE);
    must(this.#instance.call("phc_encode", this.request, ...this.keyid, ...this.data, ...this.salt, ...tag, ...text));
    return this.#instance.readText(text);
  }
}

// Returns the address of a bound in the memory of an instance.
function writeBound(instance, bound) {
  const most = Object.entries(complete(BOUND, bound));
  return instance.writeNumbers(...most.map(([name, value]) => whole(value, `the bound's ${name}`)));
}

// Returns what a call shows of a stored hash.
function show(instance, name, ...words) {
  const place = instance.lend(SHOWN_SIZE);
  must(instance.call(name, ...words, place[0]));
  const [salt, hash, algorithm, version, memory, passes, lanes, keyid, data] = instance.readNumbers(place, 14).slice(5);
  const bytes = instance.read(place);
  const part = (at, length) => bytes.slice(at, at + length);
  return {
    ...{ algorithm: ALGORITHMS[algorithm], version, memory, passes, lanes },
    ...{ salt: part(56, salt), hash: part(104, hash), keyid: part(168, keyid), data: part(176, data) },
  };
}

// Returns how many blocks a hash fills.
function blockCount(memory, lanes) {
  return 4 * lanes * Math.floor(memory / (4 * lanes));
}

function drawSalt() {
  return crypto.getRandomValues(new Uint8Array(DRAWN_SALT));
}

/** Returns the module of a source, which is a module, its bytes, a response with these bytes, or a promise of one of these. */
export async function moduleOf(source) {
  let it = await source;
  if (it instanceof Response) {
    if (!it.ok) throw new Error(`${it.url} was not loaded: ${it.status}`);
    it = await it.arrayBuffer();
  }
  return it instanceof WebAssembly.Module ? it : WebAssembly.compile(it);
}

/** Makes an Argon2 with the module of a source. */
export async function open(source) {
  return new Argon2(await moduleOf(source));
}

// Runs the steps of a generator in turns, and returns its result.
async function inTurns(steps, onProgress, signal) {
  let begun = performance.now();
  let step = steps.next();
  while (!step.done) {
    if (performance.now() - begun >= TURN) {
      onProgress?.(step.value);
      await pause();
      signal?.throwIfAborted();
      begun = performance.now();
    }
    step = steps.next();
  }
  onProgress?.(1);
  return step.value;
}

// Lets others run. (A timer would wait for some milliseconds.)
function pause() {
  return new Promise((resolve) => {
    const { port1, port2 } = new MessageChannel();
    port1.onmessage = () => {
      port1.close();
      resolve();
    };
    port2.postMessage(undefined);
  });
}
