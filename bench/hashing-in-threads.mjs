// Prints the hashes a second that 1, 2 and 4 threads of node make: node bench/hashing-in-threads.mjs FOLDER ROUNDS MODULE..
// FOLDER contains the modules, which are compiled from the reference's C, and its folder argon2-proved is the package. The
// highest number of the rounds counts.

import * as crypto from "node:crypto";
import { once } from "node:events";
import { readFileSync } from "node:fs";
import { join } from "node:path";
import { pathToFileURL } from "node:url";
import { promisify } from "node:util";
import { Worker } from "node:worker_threads";
import { COSTS, LENGTH, PASSWORD, SALT } from "./hashing.mjs";

const [folder, rounds, ...modules] = process.argv.slice(2);
const { createPool } = await import(pathToFileURL(join(folder, "argon2-proved/node-pool.mjs")));
const SIZES = [1, 2, 4];
const MILLISECONDS = 2000;

// Each peer hashes in `size` threads. `hash` gets the costs, and returns the promise of a tag. `end` ends the threads.
const PEERS = {
  "the package": (size) => {
    const pool = createPool({ size });
    return { hash: (costs) => pool.raw(PASSWORD, SALT, costs), end: pool.close };
  },
  ...Object.fromEntries(modules.map((name) => [name, (size) => referenceOf(readFileSync(join(folder, name)), size)])),
};
if (crypto.argon2) PEERS["node's crypto.argon2"] = () => ({ hash: hashOfNode, end: () => {} });

// Hashes with the reference's C in `size` threads. Each thread makes one hash at a time.
function referenceOf(bytes, size) {
  const script = new URL("./hashing-in-thread.mjs", import.meta.url);
  const idle = Array.from({ length: size }, () => new Worker(script, { workerData: bytes }));
  const hash = async (costs) => {
    const thread = idle.pop();
    thread.postMessage(costs);
    const [tag] = await once(thread, "message");
    idle.push(thread);
    return tag;
  };
  return { hash, end: () => Promise.all(idle.map((it) => it.terminate())) };
}

function hashOfNode({ memory, passes }) {
  const settings = { message: PASSWORD, nonce: SALT, parallelism: 1, tagLength: LENGTH, memory, passes };
  return promisify(crypto.argon2)("argon2id", settings);
}

// Returns the hashes a second while `size` calls are always under way.
async function rateOf(hash, size, costs, tags) {
  const begun = performance.now();
  let count = 0;
  const goOn = async () => {
    while (performance.now() - begun < MILLISECONDS) {
      tags.add(String(new Uint8Array(await hash(costs))));
      count++;
    }
  };
  await Promise.all(Array.from({ length: size }, goOn));
  return (1000 * count) / (performance.now() - begun);
}

for (const costs of COSTS.slice(0, 2)) {
  const most = new Map(Object.keys(PEERS).map((name) => [name, []]));
  const tags = new Set();
  for (const size of SIZES) {
    const peers = Object.entries(PEERS).map(([name, make]) => ({ name, ...make(size) }));
    for (let round = 0; round <= rounds; round++) {
      for (const { name, hash } of peers) {
        const rate = await rateOf(hash, size, costs, tags);
        // (the first round does not count, because it starts the threads)
        if (round > 0) most.get(name)[SIZES.indexOf(size)] = Math.max(rate, most.get(name)[SIZES.indexOf(size)] ?? 0);
      }
    }
    await Promise.all(peers.map(({ end }) => end()));
  }
  const found = tags.size === 1 ? "the same tags" : "OTHER TAGS";
  console.log(`m=${costs.memory} t=${costs.passes}: ${found}; ${SIZES.join(", ")} threads`);
  for (const [name, rates] of most) console.log(`  ${name.padEnd(20)} ${rates.map((it) => it.toFixed(1).padStart(7)).join("")}`);
}
if (!crypto.argon2) console.log(`skipped: node's crypto.argon2, which ${process.version} lacks (24.7 has it)`);
process.exit();
