// Posts the times of hashes, in milliseconds of wall time. The title of the page is the rounds and the names of the modules.

import { load } from "./argon2-proved/page.mjs";
import { timesOf } from "./hashing.mjs";

const [rounds, ...names] = document.title.split(" ");
const read = async (name) => (await fetch(`./${name}`)).arrayBuffer();
const lines = await timesOf(names, read, load, rounds, () => performance.now()).catch((error) => [String(error)]);
await fetch("answer", { method: "POST", body: lines.join("\n") });
