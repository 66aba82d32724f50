import { callsOf } from "./page-calls.mjs";

export function start() {
  return callsOf(new Worker(new URL("./in-page-worker.mjs", import.meta.url), { type: "module" })).functions();
}
