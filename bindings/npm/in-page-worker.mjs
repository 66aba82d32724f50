import { answering } from "./calls.mjs";
import { load } from "./page.mjs";

const answer = answering(load(), postMessage);
onmessage = ({ data }) => answer(data);
