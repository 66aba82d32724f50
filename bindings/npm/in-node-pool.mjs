import { parentPort, workerData } from "node:worker_threads";
import { open } from "./argon2.mjs";
import { answering } from "./calls.mjs";

parentPort.on("message", answering(open(workerData), (it) => parentPort.postMessage(it)));
