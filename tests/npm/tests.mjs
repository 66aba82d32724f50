// Tests that run in node and in pages.

import { check, thrown } from "./checks.mjs";
import { LOG_IN_TESTS } from "./log-in.mjs";
import { VECTOR_TESTS } from "./vectors.mjs";

export const MODULES = ["argon2.wasm", "argon2-simd.wasm"];

const SALT = "somesalt";
// An independent model made this tag from `password` and SALT with 256 KiB, two passes and one lane.
export const KNOWN = "9dfeb910e80bad0311fee20f9c0e2b12c17987b4cac90c2ef54d5b3021c68bfe";
const OF_ABC = "$argon2id$v=19$m=8,t=1,p=1$c29tZXNhbHQ$LVJKYEkaeNsu5UCkG00QmN9KvYwrpueSxItaCk3nAjU";
const OF_SECRET =
  "$argon2id$v=19$m=64,t=2,p=2,keyid=a2V5IDE,data=c29tZSBkYXRh$c29tZXNhbHQ$8Fe4gWVJpEPVFv1y5tDY+m6T9i6mEDkkKNQBGzcGzH8";
const OF_OLD_SECRET = "$argon2id$v=19$m=64,t=2,p=2$c29tZXNhbHQ$TIwxZJX/u/uyFcujYXWbkdtyc4CJCdkl+/isYF6xVj0";
// The model made this text for the password of no bytes.
const OF_EMPTY = "$argon2id$v=19$m=64,t=2,p=2$c29tZXNhbHRzb21lc2FsdA$aaEu+reRXLaMzbNU4cC7UhyIhMNikkdzffXD6fbcSHk";
// Debian's command argon2 made this text for `password`, with the default costs of the npm package argon2.
const OF_REFERENCE = "$argon2id$v=19$m=65536,t=3,p=4$c29tZXNhbHRzb21lc2FsdA$gduXp+Z6iReEolmbyHn5V8s1EtJzmEvZfYoY/Fn/AeI";
const SMALL = { memory: 8, passes: 1 };
// A hash with these costs is long enough for several turns.
const LONG = { memory: 8192, passes: 8 };

// Options with a secret that is not their own property.
class Settings {
  get secret() {
    return "some secret";
  }
}
const INHERITED = [new Settings(), Object.create({ secret: "some secret" }), 12, true, () => {}, [], new Map(), null];

export const toHex = (bytes) => Array.from(bytes, (it) => it.toString(16).padStart(2, "0")).join("");

/** Returns the instances of modules that a function makes. */
async function instancesOf(body) {
  const instances = [];
  const { Instance } = WebAssembly;
  WebAssembly.Instance = function (...words) {
    instances.push(new Instance(...words));
    return instances.at(-1);
  };
  try {
    await body();
  } finally {
    WebAssembly.Instance = Instance;
  }
  return instances;
}

/** Returns whether the memory of an instance is clear, except for its constants. */
function isClear({ exports }) {
  const bytes = new Uint8Array(exports.memory.buffer);
  for (let at = 0; at < bytes.length; at = at === 65535 ? Number(exports.__heap_base.value) : at + 1) {
    if (bytes[at] !== 0) return false;
  }
  return true;
}

const TESTS = {
  ...VECTOR_TESTS,

  "strings, secrets, and drawn salts": ({ argon2 }) => {
    const secrets = { secret: "some secret", oldSecret: "old secret" };
    check(argon2.verify(OF_SECRET, "pass wörd", secrets) && argon2.verify(OF_OLD_SECRET, "pass wörd", secrets));
    check(!argon2.verify(OF_SECRET, "pass word", secrets) && !argon2.verify(OF_SECRET, "pass wörd"));
    check(!argon2.verify(OF_OLD_SECRET, "pass wörd", { secret: "some secret", oldSecret: undefined }));
    const settings = { memory: 64, lanes: 2, secret: "some secret", keyid: "key 1", data: "some data" };
    check(argon2.hash("pass wörd", { ...settings, salt: SALT }) === OF_SECRET);
    check(argon2.hash("abc", { ...SMALL, salt: new DataView(new ArrayBuffer(8)) }).includes("$AAAAAAAAAAA$"));
    const texts = [argon2.hash("abc"), argon2.hash("abc")];
    for (const text of texts) {
      check(/^\$argon2id\$v=19\$m=19456,t=2,p=1\$[A-Za-z0-9+/]{22}\$[A-Za-z0-9+/]{43}$/.test(text), text);
      check(argon2.verify(text, new TextEncoder().encode("abc")) && !argon2.verify(text, "abd"), text);
      check(!argon2.needsRehash(text), text);
    }
    check(texts[0] !== texts[1]);
    check(argon2.verify(OF_REFERENCE, "password") && !argon2.verify(OF_REFERENCE, "Password"));
    const secret = "the secret";
    check(argon2.hash("", { memory: 64, lanes: 2, secret, salt: "somesaltsomesalt" }) === OF_EMPTY);
    check(argon2.verify(OF_EMPTY, "", { secret }) && !argon2.verify(OF_EMPTY, "\0", { secret }));
  },

  "refusals by name": async ({ argon2, Argon2Error }) => {
    const comparing = (options) => [() => argon2.needsRehash(OF_ABC, options), () => argon2.isWeaker(OF_ABC, options)];
    const raw = (options, salt = SALT) => () => argon2.raw("x", salt, options);
    const hash = (options) => () => argon2.hash("x", options);
    const verify = (text, bound = {}) => () => argon2.verify(text, "abc", { bound });
    const logIn = (options) => () => argon2.logIn(OF_ABC, "abc", options);
    for (const [wanted, ...calls] of [
      ["SALT_TOO_SHORT", raw({}, "short"), hash({ salt: "short" })],
      ["SALT_TOO_LONG", hash({ salt: new Uint8Array(49) })],
      ["PASSES_TOO_FEW", raw({ passes: 0 }), hash({ passes: 0 }), ...comparing({ passes: 0 })],
      ["MEMORY_TOO_LITTLE", raw({ memory: 7 }), raw({ memory: 15, lanes: 2 }), hash({ memory: 0 })],
      ["LANES_TOO_FEW", raw({ lanes: 0 })],
      ["LANES_TOO_MANY", raw({ memory: 2 ** 28, lanes: 2 ** 24 })],
      ["OUTPUT_TOO_SHORT", raw({ length: 3 }), hash({ length: 0 })],
      ["OUTPUT_TOO_LONG", hash({ length: 65 })],
      ["VERSION", raw({ version: 17 }), () => argon2.parse(OF_ABC.replace("19", "20"))],
      ["ALGORITHM", raw({ algorithm: "argon2" }), hash({ algorithm: "toString" }), () => argon2.parse("$argon2x$m=8,t=1,p=1")],
      ["DATA_TOO_LONG", hash({ data: new Uint8Array(33) })],
      ["KEYID_TOO_LONG", hash({ keyid: new Uint8Array(9) })],
      ["OUT_OF_MEMORY", raw({ memory: 2 ** 32 - 1 }), raw({ memory: 2 ** 22 }), raw({ ...SMALL, length: 2 ** 32 - 1 })],
      // (it would fit into 4 GiB, but not without the last page)
      ["OUT_OF_MEMORY", raw({ ...SMALL, length: 2 ** 32 - 2 ** 17 })],
      ["TEXT_INVALID", verify("é"), verify(`${OF_ABC}\0`), verify(""), () => argon2.needsRehash("x")],
      ["TEXT_INVALID", () => argon2.isWeaker("x"), () => argon2.parse(`${OF_ABC}=`)],
      ["TEXT_INCOMPLETE", verify(OF_ABC.slice(0, OF_ABC.lastIndexOf("$")))],
      ["ABOVE_BOUND", verify(OF_ABC.replace("m=8", "m=262145")), verify(OF_ABC.replace("t=1", "t=65"))],
      ["ABOVE_BOUND", verify(OF_ABC.replace("m=8,t=1,p=1", "m=520,t=1,p=65")), verify(OF_ABC, { memory: 7 })],
      ["WANTED_OUT_OF_BOUND", logIn({ memory: 262145 }), logIn({ passes: 65 }), logIn({ lanes: 65, memory: 520 })],
      ["WANTED_OUT_OF_BOUND", logIn({ length: 15 }), logIn({ length: 65 }), logIn({ bound: { memory: 19455 } })],
      ["OUTPUT_OUT_OF_BOUND", verify(OF_ABC.slice(0, -36)), verify(OF_ABC, { maxLength: 31 })],
    ]) {
      for (const call of calls) {
        const error = await thrown(call);
        check(error instanceof Argon2Error && error.code === wanted && error.message, wanted, String(call), String(error));
      }
    }
  },

  "values of another kind": async ({ argon2 }) => {
    for (const [wanted, call] of [
      [TypeError, () => argon2.hash(undefined)],
      [TypeError, () => argon2.hash(7)],
      [TypeError, () => argon2.hash("x", { secret: undefined })],
      [TypeError, () => argon2.hash("x", { salt: null })],
      [TypeError, () => argon2.hash("x", { keyid: null })],
      [TypeError, () => argon2.hash("\ud800")],
      [TypeError, () => argon2.hash("x", { parallelism: 1 })],
      [TypeError, () => argon2.raw("x", SALT, { keyid: "key 1" })],
      [TypeError, () => argon2.raw("x")],
      [TypeError, () => argon2.rawAsync("x", SALT, { salt: "" })],
      [TypeError, () => argon2.verify(null, "x")],
      [TypeError, () => argon2.verify(OF_ABC, "x", { bound: { m: 8 } })],
      [TypeError, () => argon2.parse()],
      [RangeError, () => argon2.hash("x", { memory: 2 ** 32 })],
      [RangeError, () => argon2.hash("x", { passes: "2" })],
      [RangeError, () => argon2.hash("x", { lanes: -1 })],
      [RangeError, () => argon2.raw("x", SALT, { length: 1.5 })],
      [RangeError, () => argon2.raw("x", SALT, { length: undefined })],
      [RangeError, () => argon2.verify(OF_ABC, "x", { bound: { memory: NaN } })],
    ]) {
      const error = await thrown(call);
      check(error instanceof wanted, String(call), String(error));
    }
  },

  "options that are not plain": async ({ argon2 }) => {
    for (const options of INHERITED) {
      for (const call of [
        () => argon2.hash("x", options),
        () => argon2.verify(OF_ABC, "abc", options),
        () => argon2.verify(OF_ABC, "abc", { bound: options }),
        () => argon2.needsRehash(OF_ABC, options),
        () => argon2.isWeaker(OF_ABC, options),
        () => argon2.raw("x", SALT, options),
        () => argon2.rawAsync("x", SALT, options),
      ]) {
        const error = await thrown(call);
        check(error instanceof TypeError, String(call), String(error));
      }
    }
    const plain = Object.assign(Object.create(null), { ...SMALL, salt: SALT });
    check(argon2.hash("abc", plain) === argon2.hash("abc", { ...plain }) && argon2.verify(OF_ABC, "abc", Object.create(null)));
  },

  "progress, and others run meanwhile": async ({ argon2 }) => {
    const shares = [];
    let [turns, isDone] = [0, false];
    const timer = setInterval(() => (turns += isDone ? 0 : 1));
    const tag = await argon2.rawAsync("x", SALT, { ...LONG, onProgress: (share) => shares.push(share) });
    isDone = true;
    clearInterval(timer);
    check(toHex(tag) === toHex(argon2.raw("x", SALT, LONG)));
    check(shares.length > 2 && shares.at(-1) === 1 && turns > 0, shares, turns);
    check(shares.every((it, at) => it > (shares[at - 1] ?? -1)), shares);
  },

  "a hash that is aborted": async ({ argon2 }) => {
    const reason = new Error("enough");
    const controller = new AbortController();
    const onProgress = () => controller.abort(reason);
    const instances = await instancesOf(async () => {
      const error = await thrown(() => argon2.rawAsync("x", SALT, { ...LONG, onProgress, signal: controller.signal }));
      check(error === reason, String(error));
      check((await thrown(() => argon2.rawAsync("x", SALT, { signal: AbortSignal.abort() }))).name === "AbortError");
      const failing = () => argon2.rawAsync("x", SALT, { ...LONG, onProgress: () => check(false, "thrown") });
      check((await thrown(failing)).message === "thrown");
      check(toHex(argon2.raw("password", SALT, { memory: 256 })) === KNOWN);
    });
    check(instances.length > 1 && instances.every(isClear), instances.length);
  },

  "eight at once, and one inside of another": async ({ argon2 }) => {
    const passwords = ["1", "2", "3", "4", "5", "6", "7", "8"];
    const tags = await Promise.all(passwords.map((it) => argon2.rawAsync(it, SALT, LONG)));
    passwords.forEach((it, at) => check(toHex(tags[at]) === toHex(argon2.raw(it, SALT, LONG)), it));
    let inner;
    const onProgress = () => (inner ??= argon2.raw("password", SALT, { memory: 256 }));
    check(toHex(await argon2.rawAsync("1", SALT, { ...LONG, onProgress })) === toHex(tags[0]));
    check(toHex(inner) === KNOWN, inner);
  },

  "memory is cleared, and dropped if it is large": async ({ Argon2 }, module) => {
    let fresh;
    const few = await instancesOf(() => {
      fresh = new Argon2(module);
      check(toHex(fresh.raw("password", SALT, { memory: 256 })) === KNOWN);
      check(fresh.verify(fresh.hash("x", { ...SMALL, secret: "y" }), "x", { secret: "z", oldSecret: "y" }));
      fresh.parse(OF_SECRET);
    });
    check(few.length === 1 && few.every(isClear), few.length);
    const refused = await instancesOf(() => thrown(() => fresh.raw("password", "short")).then(() => fresh.parse(OF_ABC)));
    check(refused.length === 1 && isClear(few[0]), refused.length);
    const large = await instancesOf(() => {
      fresh.raw("x", SALT, { memory: 2 ** 17 + 1024, passes: 1 });
      fresh.parse(OF_ABC);
    });
    check(large.length === 1 && isClear(large[0]) && isClear(refused[0]), large.length);
  },

  "memory that is refused": async ({ Argon2, Argon2Error }, module) => {
    const { Instance } = WebAssembly;
    const { grow } = WebAssembly.Memory.prototype;
    const fresh = new Argon2(module);
    // (this is a function, because it also replaces a constructor)
    const refuse = function () {
      throw new RangeError("refused");
    };
    for (const [holder, name, own] of [[WebAssembly.Memory.prototype, "grow", grow], [WebAssembly, "Instance", Instance]]) {
      holder[name] = refuse;
      try {
        for (const call of [() => fresh.raw("x", SALT), () => fresh.rawAsync("x", SALT), () => fresh.hash("x")]) {
          const error = await thrown(call);
          check(error instanceof Argon2Error && error.code === "OUT_OF_MEMORY", name, String(error));
        }
      } finally {
        holder[name] = own;
      }
    }
    check(toHex(fresh.raw("password", SALT, { memory: 256 })) === KNOWN);
  },

  "modules, bytes, responses and promises are loaded": async ({ load }, module, bytes) => {
    for (const source of [module, bytes, bytes.buffer, new Response(bytes), Promise.resolve(module)]) {
      check(toHex((await load(source)).raw("password", SALT, { memory: 256 })) === KNOWN);
    }
    check((await thrown(() => load(new Response("", { status: 404 })))).message.endsWith(" was not loaded: 404"));
    check((await thrown(() => load(new Uint8Array(8)))) instanceof WebAssembly.CompileError);
  },
};

/** Tries which module an entry loads. `lengths` has the length of the module without SIMD, and of the module with SIMD. */
export async function tryModules(load, lengths) {
  const { compile, validate } = WebAssembly;
  const taken = [];
  WebAssembly.compile = (it) => {
    taken.push(it.byteLength);
    return compile(it);
  };
  try {
    WebAssembly.validate = () => false;
    await load();
    WebAssembly.validate = validate;
    await load();
  } finally {
    Object.assign(WebAssembly, { compile, validate });
  }
  check(taken.join() === lengths.join() && lengths[0] !== lengths[1], taken);
}

/**
 * Tries both ends of a worker's calls without a worker. An answer that nobody waits for must be ignored. Options with properties
 * that a post would leave out must be refused. The bytes of a call must be copied once, and the worker must clear the copies.
 */
export async function tryCalls({ Calls, answering }) {
  const posted = [];
  const calls = new Calls({ postMessage: (it) => posted.push(it), terminate: () => {} });
  const given = new Uint8Array(16).fill(7);
  const moved = [];
  const copying = new Calls({ postMessage: ({ words }, buffers) => moved.push({ words, buffers }) }).functions();
  copying.verify(given.subarray(4, 8), new DataView(given.buffer, 4, 4), { secret: given.buffer, oldSecret: "x", bound: {} });
  given.fill(8);
  const [text, password, { secret, oldSecret, bound }] = moved[0].words;
  check([text, password, secret].every((it) => it.every((byte) => byte === 7)), "copies");
  check([text, password, secret].map((it) => it.buffer.byteLength).join() === "4,4,16", "no other bytes");
  check(moved[0].buffers.length === 3 && [text, password, secret].every((it) => moved[0].buffers.includes(it.buffer)), "moved");
  check(oldSecret === "x" && Object.keys(bound).length === 0, "what is not copied");

  const { hash, terminate } = calls.functions();
  const waiting = thrown(() => hash("x", { secret: "y", salt: new Uint8Array(8) }));
  terminate();
  calls.take({ id: posted[0].id, answer: "late" });
  calls.take({ id: 7, answer: "unknown" });
  check((await waiting).message === "the worker was terminated");

  const others = new Calls({ postMessage: (it) => posted.push(it) }).functions();
  for (const options of INHERITED.filter((it) => typeof it === "object" && it !== null)) {
    for (const call of [() => others.hash("x", options), () => others.verify("x", "y", { bound: options })]) {
      const error = await thrown(call);
      check(error instanceof TypeError, String(call), String(error));
    }
  }
  check(posted.length === 1, posted.length);

  const sevens = (length) => new Uint8Array(length).fill(7);
  const shared = new Uint8Array(new SharedArrayBuffer(4)).fill(7);
  const tag = sevens(4);
  for (const raw of [() => tag, () => check(false, "refused")]) {
    const [password, salt, secret] = [sevens(16), sevens(8), sevens(8)];
    let said;
    const answer = answering(Promise.resolve({ raw }), (it) => (said = structuredClone(it)));
    await answer({ id: 1, name: "raw", words: [password.subarray(4, 8), salt, { secret: secret.buffer, data: "x" }, shared] });
    check(said.answer?.join() === "7,7,7,7" || said.error.message === "refused", said);
    const cleared = [password, salt, secret, ...(said.error ? [] : [tag])];
    check(cleared.every((it) => it.every((byte) => byte === 0)), cleared);
    check(shared.every((byte) => byte === 7), "memory that the caller shares");
  }
}

/** Tries the functions of a worker. */
export async function tryWorker(start) {
  const worker = start();
  const text = await worker.hash("x", { memory: 64 });
  check((await worker.verify(text, "x")) && !(await worker.verify(text, "y")) && (await worker.needsRehash(text)), text);
  check((await worker.logIn(text, "y")) === null && (await worker.logIn(text, "x", { memory: 64 })).hash === null, text);
  const { hash: fresh } = await worker.logIn(text, "x");
  check(!(await worker.needsRehash(fresh)) && !(await worker.isWeaker(fresh)) && (await worker.isWeaker(text)), text, fresh);
  check((await worker.parse(text)).memory === 64);
  const tags = await Promise.all([4, 5, 6].map((length) => worker.raw("x", "somesalt", { length })));
  check(tags.map((it) => it.length).join() === "4,5,6", tags);
  const [refused, wrong] = [await thrown(() => worker.verify("x", "x")), await thrown(() => worker.hash("x", { m: 1 }))];
  check(refused.name === "Argon2Error" && refused.code === "TEXT_INVALID", String(refused));
  check(wrong instanceof TypeError, String(wrong));
  check((await thrown(() => worker.hash("x", new Settings()))) instanceof TypeError, "options that are not plain");
  const key = new Uint8Array(8).fill(7);
  await worker.raw(key, key, { ...SMALL, secret: key });
  check(key.every((it) => it === 7), "the caller's bytes");
  const waiting = worker.raw("x", "somesalt", { passes: 1e6 });
  worker.terminate();
  check((await thrown(() => waiting)).message === "the worker was terminated");
  check((await thrown(() => worker.parse(text))).message === "the worker was terminated");
}

/** Tries the exports of an entry of the package on each module, whose bytes `modules` contains, and then runs further tests. */
export async function runTests(entry, modules, show, further) {
  const counts = { passed: 0, failed: 0 };
  for (const bytes of modules) {
    const module = await WebAssembly.compile(bytes);
    const run = async (test) => test({ ...entry, argon2: await entry.load(module) }, module, bytes);
    await tryAll({ ...TESTS, ...LOG_IN_TESTS }, run, show, counts);
  }
  await tryAll(further, (test) => test(), show, counts);
  return counts;
}

/** Runs tests with a function, counts them, and shows a line for each test that fails. */
export async function tryAll(tests, run, show, counts) {
  for (const [name, test] of Object.entries(tests)) {
    try {
      await run(test);
      counts.passed++;
    } catch (error) {
      show(`${name}: FAILED: ${error.stack}`);
      counts.failed++;
    }
  }
}
