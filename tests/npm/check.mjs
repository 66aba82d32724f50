// Tries a package that build/npm made, in node: node tests/npm/check.mjs FOLDER. The last line is 'N passed, M failed'.

import { spawnSync } from "node:child_process";
import { readFileSync } from "node:fs";
import { pathToFileURL } from "node:url";
import { check, thrown } from "./checks.mjs";
import { KNOWN, MODULES, runTests, toHex, tryCalls, tryModules, tryWorker } from "./tests.mjs";

const folder = pathToFileURL(`${process.argv[2]}/`);
const readModule = (name) => new Uint8Array(readFileSync(new URL(name, folder)));
const header = readFileSync(new URL("../../bindings/c/argon2_phc.h", import.meta.url), "utf8");
const WORKER = JSON.stringify(new URL("node-worker.mjs", folder).href);

// A program that reads the answer of a worker only after it has ended the worker.
const LATE = `
import { start } from ${WORKER};
const worker = start();
await worker.raw("x", "somesalt", { memory: 8 });
const waiting = worker.raw("x", "somesalt", { memory: 8 });
const begun = performance.now();
while (performance.now() - begun < 500);
worker.terminate();
console.log(await waiting.catch(({ message }) => message));
setTimeout(() => {}, 100);
`;

// Requires that node ends with status 0 for a program on standard input or after -e, and returns what the program writes.
function written(program, isInput) {
  const words = isInput ? ["--input-type=module", "-"] : ["--input-type=module", "-e", program];
  const { status, stdout, stderr } = spawnSync(process.execPath, words, { input: isInput ? program : "", encoding: "utf8" });
  check(status === 0, status, stdout, stderr);
  return stdout.trim();
}

const TESTS = {
  "the entries have the module of the package": async () => {
    for (const name of ["node.mjs", "inline.mjs"]) {
      const { load, Argon2Error } = await import(new URL(name, folder));
      const argon2 = await load();
      check(toHex(argon2.raw("password", "somesalt", { memory: 256 })) === KNOWN, name);
      check((await thrown(() => argon2.raw("x", ""))) instanceof Argon2Error, name);
    }
  },

  "node takes SIMD if it has that": async () => {
    const { load } = await import(new URL("node.mjs", folder));
    await tryModules(load, MODULES.map((name) => readModule(name).length));
  },

  "the codes of argon2_phc.h": async () => {
    const { CODES } = await import(new URL("header.mjs", folder));
    const codes = [...header.matchAll(/\bARGON2P_([A-Z_]+) = (-\d+)/g)];
    check(codes.length > 30 && codes.length === CODES.size, codes.length);
    for (const [, name, number] of codes) {
      const [code, message] = CODES.get(Number(number));
      check(code === name && message.length > 5, name, code);
    }
  },

  "the default bound of argon2_phc.h": async () => {
    const { DEFAULT_BOUND } = await import(new URL("header.mjs", folder));
    const numberOf = (name) => Number(header.match(new RegExp(`^#define ARGON2P_BOUND_${name} (\\d+)`, "m"))[1]);
    const wanted = ["MEMORY", "PASSES", "LANES", "MIN_OUTPUT", "MAX_OUTPUT"].map(numberOf);
    const { memory, passes, lanes, minLength, maxLength } = DEFAULT_BOUND;
    check([memory, passes, lanes, minLength, maxLength].join() === wanted.join(), DEFAULT_BOUND, wanted);
  },

  "a worker": async () => {
    const { start } = await import(new URL("node-worker.mjs", folder));
    await tryWorker(start);
    // (node ends although this worker exists)
    await start().raw("x", "somesalt");
  },

  "calls of a worker": async () => {
    await tryCalls(await import(new URL("calls.mjs", folder)));
  },

  "a worker of a program that is no file": () => {
    const program = `import { start } from ${WORKER}; console.log((await start().raw("x", "somesalt")).length);`;
    check(written(program, true) === "32" && written(program, false) === "32");
  },

  "a program ends though it has a worker without a call": () => {
    check(written(`import { start } from ${WORKER}; start();`, false) === "");
  },

  "a worker is ended after it has posted an answer": () => {
    check(written(LATE, false) === "the worker was terminated");
  },
};

const entry = await import(new URL("node.mjs", folder));
const counts = await runTests(entry, MODULES.map(readModule), console.log, TESTS);
console.log(`${counts.passed} passed, ${counts.failed} failed`);
process.exitCode = counts.failed ? 1 : 0;
