// Hashes with a module of the reference's C, in a thread. A message is the costs, and its answer is the tag.

import { parentPort, workerData } from "node:worker_threads";
import { hasherOf } from "./hashing.mjs";

const hash = await hasherOf(workerData);
parentPort.on("message", (costs) => parentPort.postMessage(hash(costs)));
