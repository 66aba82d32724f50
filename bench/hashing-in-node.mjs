// Prints the times of hashes, in milliseconds of processor time: node bench/hashing-in-node.mjs FOLDER ROUNDS MODULE.. FOLDER
// contains the modules, and its folder argon2-proved is the package.

import { readFileSync } from "node:fs";
import { join } from "node:path";
import { pathToFileURL } from "node:url";
import { timesOf } from "./hashing.mjs";

const [folder, rounds, ...names] = process.argv.slice(2);
const { load } = await import(pathToFileURL(join(folder, "argon2-proved/node.mjs")));

function clock() {
  const { user, system } = process.cpuUsage();
  return (user + system) / 1000;
}

console.log((await timesOf(names, (name) => readFileSync(join(folder, name)), load, rounds, clock)).join("\n"));
