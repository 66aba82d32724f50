// Tests of pools, in node and in pages.

import { check, thrown } from "./checks.mjs";
import { tryRotation } from "./log-in.mjs";

const SALT = "somesalt";
const SMALL = { memory: 8, passes: 1 };
// A hash with these costs takes some tenths of a second.
const LONG = { memory: 65536, passes: 4 };

const pause = (milliseconds = 0) => new Promise((resolve) => setTimeout(resolve, milliseconds));

/** Returns the states of promises: the code of an error, "done" or "waits" for each. */
async function statesOf(promises) {
  const states = promises.map(() => "waits");
  promises.forEach((it, at) => it.then(() => (states[at] = "done"), (error) => (states[at] = error.code ?? String(error))));
  await pause();
  return states.join(" ");
}

/** Returns stand-ins for workers. The test answers their calls. */
function standIns(Calls) {
  const workers = [];
  const start = (module) => {
    const worker = {
      module,
      posted: [],
      ends: 0,
      postMessage: (it, buffers) => worker.posted.push({ ...it, buffers }),
      ending: undefined,
      terminate: () => {
        worker.ends++;
        return worker.ending;
      },
      password: () => worker.posted.at(-1).words[0],
      answer: (answer) => worker.calls.take({ id: worker.posted.at(-1).id, answer }),
      die: () => worker.calls.end(new Error("killed")),
    };
    worker.calls = new Calls(worker);
    workers.push(worker);
    return worker.calls;
  };
  return { workers, start };
}

/** Returns the buffers that are made during a call of a function. */
async function buffersOf(body) {
  const buffers = [];
  const { ArrayBuffer } = globalThis;
  globalThis.ArrayBuffer = class extends ArrayBuffer {
    constructor(...words) {
      super(...words);
      buffers.push(this);
    }
  };
  try {
    await body();
  } finally {
    globalThis.ArrayBuffer = ArrayBuffer;
  }
  return buffers;
}

/**
 * Returns the tests. The arguments are the exports of the package, its module, the class Worker, a function that replaces this
 * class, a function that lets a worker die, and a function that returns whether an error says that a worker has no script.
 */
export function poolTests({ createPool, PoolError, Pool, Calls, Argon2Error }, module, { Worker, setWorker, die, isMissing }) {
  // Returns a pool whose workers are stand-ins.
  const make = (options, readModule = async () => module) => {
    const { workers, start } = standIns(Calls);
    return { workers, pool: new Pool({ readModule, start, size: 2 }, options).functions() };
  };
  const isRefused = (error, code) =>
    error instanceof PoolError && error.name === "PoolError" && error.code === code && error.message !== "";

  // Calls a function with a list of the workers that are started meanwhile. `script` replaces their script, if it is given.
  async function withWorkers(body, script) {
    const started = [];
    setWorker(
      class extends Worker {
        constructor(address, ...words) {
          super(script ? new URL(script, address) : address, ...words);
          started.push(this);
        }
      },
    );
    try {
      return await body(started);
    } finally {
      setWorker(Worker);
    }
  }

  return {
    "a pool: calls in their order, on as many workers as its size, and a bound of those that wait": async () => {
      const { workers, pool } = make({ size: 2, maxQueued: 3 });
      const calls = ["1", "2", "3", "4", "5"].map((it) => pool.hash(it));
      const refused = [pool.hash("6"), pool.verify("x", "6"), pool.logIn("x", "6"), pool.raw("6", SALT)];
      check((await statesOf(refused)) === "QUEUE_FULL QUEUE_FULL QUEUE_FULL QUEUE_FULL");
      check(isRefused(await thrown(() => refused[0]), "QUEUE_FULL"));
      const given = () => workers.map((it) => it.password()).join();
      check(given() === "1,2", given());
      workers[1].answer("a");
      check((await statesOf(calls)) === "waits done waits waits waits" && given() === "1,3", given());
      check((await calls[1]) === "a");
      calls.push(pool.hash("7"));
      check((await statesOf([pool.hash("8")])) === "QUEUE_FULL");
      for (const [at, wanted] of [[0, "4,3"], [0, "5,3"], [1, "5,7"]]) {
        workers[at].answer("a");
        await pause();
        check(given() === wanted, given());
      }
      workers.forEach((it) => it.answer("a"));
      check((await statesOf(calls)) === "done done done done done done" && workers.length === 2, workers.length);
      check(workers.every((it) => it.module === workers[0].module && it.module instanceof WebAssembly.Module), "one module");
    },

    "a pool of one worker, where no call waits": async () => {
      const { workers, pool } = make({ size: 1, maxQueued: 0 });
      const calls = [pool.hash("1"), pool.hash("2")];
      check((await statesOf(calls)) === "waits QUEUE_FULL" && workers.length === 1, workers.length);
      workers[0].answer("a");
      check((await statesOf(calls)) === "done QUEUE_FULL");
      const next = pool.hash("3");
      check((await statesOf([next])) === "waits" && workers.length === 1 && workers[0].password() === "3");
    },

    "a pool: a call that waits has the bytes that it was given": async () => {
      const { workers, pool } = make({ size: 1 });
      const [password, secret] = [new Uint8Array(16).fill(7), new Uint8Array(4).fill(7)];
      const settings = { memory: 8, secret };
      const calls = [pool.hash("1"), pool.hash(password.subarray(4, 8), settings)];
      password.fill(8);
      secret.fill(8);
      settings.memory = 9;
      await pause();
      workers[0].answer("a");
      await pause();
      const { words, buffers } = workers[0].posted[1];
      check([words[0], words[1].secret].every((it) => it.join() === "7,7,7,7" && buffers.includes(it.buffer)), words);
      check(words[1].memory === 8 && buffers.length === 2 && password.length === 16 && secret.length === 4, words);
      workers[0].answer("a");
      check((await statesOf(calls)) === "done done");
    },

    "a pool: needsRehash, isWeaker and parse need no worker": async () => {
      const { workers, pool } = make({ size: 1, maxQueued: 0 });
      const waiting = pool.hash("1");
      const text = "$argon2id$v=19$m=8,t=1,p=1$c29tZXNhbHQ$LVJKYEkaeNsu5UCkG00QmN9KvYwrpueSxItaCk3nAjU";
      check((await pool.needsRehash(text)) && !(await pool.needsRehash(text, SMALL)) && (await pool.parse(text)).memory === 8);
      check((await pool.isWeaker(text)) && !(await pool.isWeaker(text, SMALL)));
      check((await thrown(() => pool.parse("x"))).code === "TEXT_INVALID");
      check(workers.length === 1 && workers[0].posted.length === 1 && (await statesOf([waiting])) === "waits");
    },

    "a pool that is closed answers the calls before": async () => {
      const { workers, pool } = make({ size: 2 });
      const calls = ["1", "2", "3", "4"].map((it) => pool.hash(it));
      const closing = pool.close();
      check(pool.close() === closing);
      const later = [pool.hash("5"), pool.needsRehash("x"), pool.isWeaker("x"), pool.parse("x")];
      check((await statesOf([...calls, ...later, closing])) === `${"waits ".repeat(4)}${"POOL_CLOSED ".repeat(4)}waits`);
      check(isRefused(await thrown(() => later[0]), "POOL_CLOSED"));
      for (const it of [workers[0], workers[1], workers[0]]) {
        it.answer("a");
        check((await statesOf([closing])) === "waits" && workers.every(({ ends }) => ends === 0));
      }
      const finish = [];
      for (const it of workers) it.ending = new Promise((resolve) => finish.push(resolve));
      workers[1].answer("a");
      for (const it of finish) {
        check((await statesOf([...calls, closing])) === "done done done done waits");
        it();
      }
      check((await statesOf([closing])) === "done" && workers.length === 2 && workers.every(({ ends }) => ends === 1));
      const unused = make();
      check((await statesOf([unused.pool.close()])) === "done" && unused.workers.length === 0);
      check((await statesOf([unused.pool.hash("x")])) === "POOL_CLOSED");
    },

    "a pool: a worker that dies fails its call, and is replaced": async () => {
      const { workers, pool } = make({ size: 1 });
      const calls = [pool.hash("1"), pool.hash("2")];
      await pause();
      workers[0].die();
      check((await statesOf(calls)) === "WORKER_DIED waits" && workers.length === 2 && workers[0].ends === 1);
      const error = await thrown(() => calls[0]);
      check(isRefused(error, "WORKER_DIED") && error.cause.message === "killed", String(error.cause));
      check(workers[1].password() === "2");
      workers[1].answer("a");
      check((await statesOf(calls)) === "WORKER_DIED done");
      // (an idle worker dies, so no call fails)
      workers[1].die();
      const next = pool.hash("3");
      check((await statesOf([next])) === "waits" && workers.length === 3 && workers[1].ends === 1);
      workers[2].answer("a");
      check((await statesOf([next])) === "done");
      await pool.close();
      check(workers.every(({ ends }) => ends === 1));
    },

    "a pool: a worker that can't be started fails its call": async () => {
      const { workers, start } = standIns(Calls);
      let isAllowed = false;
      const starting = (module) => {
        if (!isAllowed) throw new Error("no thread");
        return start(module);
      };
      const pool = new Pool({ readModule: async () => module, start: starting, size: 1 }).functions();
      const error = await thrown(() => pool.hash("1"));
      check(isRefused(error, "WORKER_DIED") && error.cause.message === "no thread", String(error));
      isAllowed = true;
      const next = pool.hash("2");
      check((await statesOf([next])) === "waits" && workers[0].password() === "2");
    },

    "a pool: a worker that is idle is ended, and one that is busy is not": async () => {
      const { workers, pool } = make({ size: 2, idleTimeout: 60 });
      const calls = [pool.hash("1"), pool.hash("2")];
      await pause();
      workers[1].answer("a");
      await pause(30);
      check(workers[1].ends === 0);
      await pause(120);
      check(workers[1].ends === 1 && workers[0].ends === 0);
      // (a call uses the idle worker that was used last, and starts a worker only if none is idle)
      calls.push(pool.hash("3"));
      await pause();
      check(workers.length === 3);
      workers[0].answer("a");
      workers[2].answer("a");
      await pause();
      calls.push(pool.hash("4"));
      await pause(150);
      check(workers.length === 3 && workers[2].posted.length === 2 && workers[2].ends === 0 && workers[0].ends === 1);
      workers[2].answer("a");
      check((await statesOf(calls)) === "done done done done");
      check(workers.map(({ ends }) => ends).join() === "1,1,0", "a worker is ended once");
    },

    "a pool: the module is read once, and again if that fails": async () => {
      let reads = 0;
      const { workers, pool } = make({ size: 2 }, async () => {
        if (++reads === 1) throw new Error("no network");
        return module;
      });
      check((await statesOf([pool.hash("1"), pool.hash("2"), pool.parse("x")])) === Array(3).fill("Error: no network").join(" "));
      check(reads === 1 && workers.length === 0, reads);
      const calls = [pool.hash("1"), pool.hash("2")];
      await pool.needsRehash("x").catch(() => {});
      await pause(50);
      check(reads === 2 && workers.length === 2, reads);
      workers.forEach((it) => it.answer("a"));
      check((await statesOf(calls)) === "done done");
    },

    "a pool: the copy of a call that no worker gets is cleared": async () => {
      const fail = () => {
        throw new Error("refused");
      };
      const key = new Uint8Array(8).fill(7);
      const { start } = standIns(Calls);
      const refusing = () => new Calls({ postMessage: fail, terminate: async () => {} });
      for (const [how, name, options] of [
        [{ readModule: fail, start }, "hash", {}],
        [{ readModule: async () => module, start: fail }, "hash", {}],
        [{ readModule: async () => module, start: refusing }, "hash", {}],
        [{ readModule: async () => module, start }, "hash", new (class {})()],
        [{ readModule: async () => module, start }, "parse", {}],
        [{ readModule: fail, start }, "needsRehash", {}],
      ]) {
        const pool = new Pool({ size: 1, ...how }).functions();
        const buffers = await buffersOf(() => thrown(() => pool[name](key, options)));
        check(buffers.length > 0 && buffers.every((it) => new Uint8Array(it).every((byte) => byte === 0)), name, buffers.length);
      }
    },

    "options of a pool": async () => {
      for (const [wanted, name, options] of [
        ...[0, -1, 1.5, "2", null, NaN, Infinity, 2 ** 32, undefined, 2n].map((size) => [RangeError, "size", { size }]),
        ...[-1, 0.5, "2", null, Infinity, undefined].map((maxQueued) => [RangeError, "maxQueued", { maxQueued }]),
        ...[-1, 0.5, "2", null, Infinity, undefined, 2 ** 31].map((idleTimeout) => [RangeError, "idleTimeout", { idleTimeout }]),
        [TypeError, "workers", { workers: 2 }],
        [TypeError, "options", new (class {})()],
        [TypeError, "options", [2]],
      ]) {
        const error = await thrown(() => createPool(options));
        check(error instanceof wanted && error.message.includes(name), name, String(Object.values(options)[0]), String(error));
      }
      for (const options of [undefined, {}, { size: 1, maxQueued: 0, idleTimeout: 0 }]) await createPool(options).close();
    },

    "a pool of workers has the functions of an Argon2": async () => {
      const pool = createPool({ size: 2, idleTimeout: 500 });
      const text = await pool.hash("x", { memory: 64 });
      check((await pool.verify(text, "x")) && !(await pool.verify(text, "y")) && (await pool.needsRehash(text)), text);
      check((await pool.logIn(text, "y")) === null && (await pool.logIn(text, "x", { memory: 64 })).hash === null, text);
      check(!(await pool.needsRehash((await pool.logIn(text, "x")).hash)), text);
      check((await pool.parse(text)).memory === 64);
      const tags = await Promise.all([4, 5, 6].map((length) => pool.raw("x", SALT, { ...SMALL, length })));
      check(tags.map((it) => it.length).join() === "4,5,6", tags);
      for (const call of [() => pool.verify("x", "x"), () => pool.hash("x", { ...SMALL, salt: "short" })]) {
        const error = await thrown(call);
        check(error instanceof Argon2Error && /^TEXT_INVALID|SALT_TOO_SHORT$/.test(error.code), String(error));
      }
      for (const options of [{ m: 1 }, { secret: undefined }, { secret: null }, { salt: 7 }, Object.create({ secret: "y" })]) {
        const error = await thrown(() => pool.hash("x", options));
        check(error instanceof TypeError, String(Object.keys(options)), String(error));
      }
      // (a call whose options can't be copied fails, and the pool goes on)
      check((await thrown(() => pool.hash("x", { secret: () => {} }))).name === "DataCloneError");
      const key = new Uint8Array(32).fill(7);
      const words = [key.subarray(8, 16), key.buffer, { ...SMALL, secret: new DataView(key.buffer, 4) }];
      const tag = pool.raw(...words);
      check(key.length === 32 && key.every((it) => it === 7), "the caller's bytes");
      check((await tag).join() === (await pool.raw(...words)).join());
      await pool.close();
    },

    "a pool: a secret that a hundred users change": async () => {
      const pool = createPool({ size: 3, maxQueued: 100 });
      await tryRotation(pool);
      await pool.close();
    },

    "a pool: real calls in their order, on the workers of its size": () =>
      withWorkers(async (started) => {
        for (const size of [1, 2]) {
          started.length = 0;
          const pool = createPool({ size, maxQueued: 6 });
          await Promise.all([1, 2].map(() => pool.raw("x", SALT, SMALL)));
          const ended = [];
          const calls = [LONG, SMALL, SMALL, LONG, SMALL, SMALL].map((costs, at) =>
            pool.raw("x", SALT, costs).then(() => ended.push(at)),
          );
          await Promise.all(calls);
          // (the second worker answers calls that wait while the first worker makes a long hash)
          if (size === 1) check(ended.join() === "0,1,2,3,4,5", ended);
          else check(ended.indexOf(0) > ended.indexOf(2), ended);
          check(started.length === size, started.length);
          await pool.close();
        }
      }),

    "a pool that is closed while its workers hash": async () => {
      const pool = createPool({ size: 2 });
      const calls = [LONG, LONG, SMALL, SMALL].map((costs) => pool.raw("x", SALT, costs));
      await pause(20);
      let isClosed = false;
      const closing = pool.close().then(() => (isClosed = true));
      check((await thrown(() => pool.raw("x", SALT, SMALL))).code === "POOL_CLOSED");
      const tags = await Promise.all(calls.map((it) => it.then((tag) => [tag.length, isClosed])));
      check(tags.every(([length, early]) => length === 32 && !early), tags);
      await closing;
    },

    "a pool: a worker that dies while it hashes": () =>
      withWorkers(async (started) => {
        const pool = createPool({ size: 1 });
        await pool.raw("x", SALT, SMALL);
        const calls = [pool.raw("x", SALT, { passes: 100000 }), pool.raw("x", SALT, SMALL)];
        await pause(50);
        die(started[0]);
        const error = await thrown(() => calls[0]);
        check(isRefused(error, "WORKER_DIED") && error.cause instanceof Error, String(error));
        check((await calls[1]).length === 32 && started.length === 2, started.length);
        await pool.close();
      }),

    "a pool: a worker without its script": async () => {
      const pool = createPool({ size: 1 });
      const error = await withWorkers(() => thrown(() => pool.raw("x", SALT, SMALL)), "./missing.mjs");
      check(isRefused(error, "WORKER_DIED") && isMissing(error.cause), String(error), String(error.cause));
      check((await pool.raw("x", SALT, SMALL)).length === 32);
      await pool.close();
    },

    "a pool: workers that are idle are ended, and started again": () =>
      withWorkers(async (started) => {
        const pool = createPool({ size: 2, idleTimeout: 50 });
        for (const wanted of [2, 4]) {
          await Promise.all([1, 2].map(() => pool.raw("x", SALT, SMALL)));
          check(started.length === wanted, started.length);
          await pause(300);
        }
        await pool.close();
      }),
  };
}
