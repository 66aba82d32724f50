import { parentPort } from "node:worker_threads";
import { answering } from "./calls.mjs";
import { load } from "./node.mjs";

parentPort.on("message", answering(load(), (it) => parentPort.postMessage(it)));
