import { Calls } from "./calls.mjs";

/** Returns the calls of a thread. While the thread has no call, node does not wait for it. */
export function callsOf(worker) {
  const calls = new Calls(worker);
  worker.on("message", (it) => calls.take(it));
  worker.on("error", (error) => calls.end(error));
  worker.on("exit", () => calls.end(new Error("the worker ended")));
  worker.unref();
  return calls;
}
