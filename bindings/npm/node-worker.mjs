import { Worker } from "node:worker_threads";
import { callsOf } from "./node-calls.mjs";

export function start() {
  // (without node's own options, which may be for a program that comes from standard input)
  return callsOf(new Worker(new URL("./in-node-worker.mjs", import.meta.url), { execArgv: [] })).functions();
}
