import { open } from "./argon2.mjs";
import { answering } from "./calls.mjs";

// The first message is the module, and each later message is a call.
onmessage = ({ data: module }) => {
  const answer = answering(open(module), postMessage);
  onmessage = ({ data }) => answer(data);
};
