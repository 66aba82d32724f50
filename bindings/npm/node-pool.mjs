import { availableParallelism } from "node:os";
import { Worker } from "node:worker_threads";
import { callsOf } from "./node-calls.mjs";
import { readModule } from "./node-module.mjs";
import { Pool } from "./pool.mjs";

export { PoolError } from "./pool.mjs";

function start(module) {
  // (without node's own options, which may be for a program that comes from standard input)
  return callsOf(new Worker(new URL("./in-node-pool.mjs", import.meta.url), { execArgv: [], workerData: module }));
}

export const createPool = (options) => new Pool({ readModule, start, size: availableParallelism() }, options).functions();
