// Tries the pools of a package that build/npm made, in node: node tests/npm/check-pool.mjs FOLDER. The last line is
// 'N passed, M failed'.

import { spawnSync } from "node:child_process";
import { readFileSync } from "node:fs";
import { syncBuiltinESMExports } from "node:module";
import { pathToFileURL } from "node:url";
import threads from "node:worker_threads";
import { check } from "./checks.mjs";
import { poolTests } from "./pool.mjs";
import { tryAll } from "./tests.mjs";

const folder = pathToFileURL(`${process.argv[2]}/`);
const module = await WebAssembly.compile(readFileSync(new URL("argon2.wasm", folder)));
const files = ["node-pool.mjs", "pool.mjs", "calls.mjs", "error.mjs"];
const entries = await Promise.all(files.map((it) => import(new URL(it, folder))));

const workers = {
  Worker: threads.Worker,
  setWorker: (it) => {
    threads.Worker = it;
    syncBuiltinESMExports();
  },
  die: (worker) => worker.terminate(),
  isMissing: ({ message }) => message.includes("missing.mjs"),
};

// Returns what a program with a pool prints. The program has to end by itself, with status 0.
function printed(program) {
  const head = `import { createPool } from ${JSON.stringify(new URL("node-pool.mjs", folder).href)};\n`;
  const words = ["--input-type=module", "-e", head + program];
  const { status, stdout, stderr } = spawnSync(process.execPath, words, { encoding: "utf8", timeout: 20000 });
  check(status === 0, status, stdout, stderr);
  return stdout.trim();
}

const TESTS = {
  // (in MiB; each of four workers keeps 64. If the machine is busy, the first may end before the last has begun.)
  "a pool gives back the memory of workers that are idle": () => {
    const [first, full, idle] = printed(`
      import { setTimeout as pause } from "node:timers/promises";
      const memory = () => process.memoryUsage.rss() / 2 ** 20;
      const pool = createPool({ size: 4, idleTimeout: 2000 });
      const first = memory();
      await Promise.all([1, 2, 3, 4].map(() => pool.raw("x", "somesalt", { memory: 65536, passes: 1 })));
      const full = memory();
      for (let tries = 0; tries < 100 && memory() > first + 64; tries++) await pause(100);
      console.log(first, full, memory());
    `).split(" ").map(Number);
    check(full - first > 192 && idle - first < 64, first, full, idle);
  },

  "a program ends though it has a pool that is not closed": () => {
    const program = `console.log((await createPool({ idleTimeout: 3600000 }).raw("x", "somesalt")).length);`;
    check(printed(program) === "32");
  },

  "a program waits for a pool that is closed": () => {
    const program = `
      const pool = createPool({ size: 1 });
      for (const it of [1, 2]) pool.raw("x", "somesalt").then(() => console.log(it));
      await pool.close();
      console.log("closed");
    `;
    check(printed(program) === "1\n2\nclosed", printed(program));
  },

  "a pool: a worker whose program fails": () => {
    const program = `
      import threads from "node:worker_threads";
      import { syncBuiltinESMExports } from "node:module";
      const { Worker } = threads;
      let last;
      threads.Worker = class extends Worker {
        constructor(...words) {
          super(...words);
          last = this;
        }
      };
      syncBuiltinESMExports();
      const pool = createPool({ size: 1 });
      await pool.raw("x", "somesalt");
      // (null is not a call, so the function of the worker fails)
      last.postMessage(null);
      last.ref();
      await new Promise((resolve) => last.on("exit", resolve));
      console.log((await pool.raw("x", "somesalt")).length);
    `;
    check(printed(program) === "32");
  },
};

const counts = { passed: 0, failed: 0 };
const tests = { ...poolTests(Object.assign({}, ...entries), module, workers), ...TESTS };
await tryAll(tests, (test) => test(), console.log, counts);
console.log(`${counts.passed} passed, ${counts.failed} failed`);
process.exitCode = counts.failed ? 1 : 0;
