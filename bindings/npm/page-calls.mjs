import { Calls } from "./calls.mjs";

/** Returns the calls of a worker of a page. */
export function callsOf(worker) {
  const calls = new Calls(worker);
  worker.onmessage = ({ data }) => calls.take(data);
  worker.onerror = ({ message }) => calls.end(new Error(message || "the worker did not start"));
  return calls;
}
