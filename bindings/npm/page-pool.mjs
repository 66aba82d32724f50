import { callsOf } from "./page-calls.mjs";
import { readModule } from "./page-module.mjs";
import { Pool } from "./pool.mjs";

export { PoolError } from "./pool.mjs";

function start(module) {
  const worker = new Worker(new URL("./in-page-pool.mjs", import.meta.url), { type: "module" });
  worker.postMessage(module);
  return callsOf(worker);
}

export const createPool = (options) => new Pool({ readModule, start, size: navigator.hardwareConcurrency }, options).functions();
