// Tries the package in a page, beside its folder argon2-proved, and posts the lines that tests/npm/check.mjs prints in node.

import { Calls } from "./argon2-proved/calls.mjs";
import * as entry from "./argon2-proved/page.mjs";
import * as poolEntry from "./argon2-proved/page-pool.mjs";
import { start } from "./argon2-proved/page-worker.mjs";
import { Pool } from "./argon2-proved/pool.mjs";
import { check } from "./checks.mjs";
import { makeKey } from "./key.mjs";
import { poolTests } from "./pool.mjs";
import { KNOWN, MODULES, runTests, toHex, tryModules, tryWorker } from "./tests.mjs";

const TESTS = {
  "the entries have the module of the package": async () => {
    const inline = await import("./argon2-proved/inline.mjs");
    for (const { load } of [entry, inline]) {
      check(toHex((await load()).raw("password", "somesalt", { memory: 256 })) === KNOWN);
    }
  },

  "a page takes SIMD if it has that": async () => tryModules(entry.load, await Promise.all(MODULES.map(async (it) => (await readModule(it)).length))),

  "a worker": () => tryWorker(start),

  "the page demo.html": async () => {
    const frame = document.createElement("iframe");
    frame.src = "demo.html";
    frame.width = 360;
    await new Promise((resolve) => {
      frame.onload = resolve;
      document.body.append(frame);
    });
    const page = frame.contentDocument;
    // Fills in and sends a form of the page, and returns what it says at the end.
    const send = (form, values) => {
      for (const [id, value] of Object.entries(values)) {
        page.getElementById(id).value = value;
        page.getElementById(id).dispatchEvent(new Event("input"));
      }
      const done = page.getElementById(`${form === "hashing" ? "hash" : "verify"}-done`);
      page.getElementById(form).requestSubmit();
      return new Promise((resolve) => {
        const timer = setInterval(() => {
          if (done.textContent === "") return;
          clearInterval(timer);
          resolve(done.textContent);
        }, 10);
      });
    };
    check(/^Hashed in \d+\.\d\d s, 16 MiB\.$/.test(await send("hashing", { password: "pass wörd", memory: 16, passes: 2 })));
    const text = page.getElementById("text").value;
    check(/^\$argon2id\$v=19\$m=16384,t=2,p=1\$[^$]{22}\$[^$]{43}$/.test(text), text);
    check((await entry.load(await readModule("argon2.wasm"))).verify(text, "pass wörd"), text);
    for (const [given, wanted] of [
      ["pass wörd", /^The text accepts this password\. \d+\.\d\d s, 16 MiB\.$/],
      ["pass word", /^The text does not accept this password\. /],
    ]) {
      const said = await send("verifying", { given });
      check(wanted.test(said), said);
    }
    const said = await send("verifying", { text: text.replace("t=2", "t=65") });
    check(/^Not done: .*bound/.test(said), said);
    check(page.documentElement.scrollWidth <= frame.clientWidth, page.documentElement.scrollWidth, frame.clientWidth);
    frame.remove();
  },

  // (the hash by Debian's libargon2)
  "the example of a key in the README": async () => {
    const key = "7664ad4ba1a3c999fcdd0991ffc2270f78302d2383233db5e7befc85d1bb1819";
    check(toHex(await makeKey("password", "somesaltsomesalt")) === key);
  },
};

async function readModule(name) {
  return new Uint8Array(await (await fetch(`./argon2-proved/${name}`)).arrayBuffer());
}

const workers = {
  Worker,
  setWorker: (it) => (globalThis.Worker = it),
  // (a page does not see a worker that the browser ends, so this is an error of its script)
  die: (worker) => worker.dispatchEvent(new ErrorEvent("error", { message: "killed" })),
  isMissing: ({ message }) => message === "the worker did not start",
};

const lines = [];
try {
  const modules = await Promise.all(MODULES.map(readModule));
  const pools = poolTests({ ...entry, ...poolEntry, Pool, Calls }, await WebAssembly.compile(modules[0]), workers);
  const counts = await runTests(entry, modules, (line) => lines.push(line), { ...TESTS, ...pools });
  lines.push(`${counts.passed} passed, ${counts.failed} failed`);
} catch (error) {
  lines.push(String(error), "0 passed, 1 failed");
}
await fetch("answer", { method: "POST", body: lines.join("\n") });
