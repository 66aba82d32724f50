// Tries the cases of vectors/. For a page the server has to serve that folder.

import { ANSWERS, fromHex, inputsOf, isRight, toHex } from "../../vectors/runners/package.mjs";
import { ABOVE_BOUND } from "./cases.mjs";

const BOUND = { memory: 65536, passes: 16, lanes: 64, minLength: 4 };

/** Returns the tests of a file, each with its group. */
async function casesOf(name) {
  const url = new URL(`../../vectors/${name}.json`, import.meta.url);
  const isFile = url.protocol === "file:";
  const text = isFile ? await (await import("node:fs/promises")).readFile(url, "utf8") : await (await fetch(url)).text();
  return JSON.parse(text).testGroups.flatMap((group) => group.tests.map((test) => ({ group, test })));
}

function check(holds, test, found) {
  if (!holds) throw new Error(`case ${test.tcId}: ${found}`);
}

/** Requires the right answer of the package to each case of a file, except cases that take more than a second. */
async function tryFile(argon2, name) {
  for (const { group, test } of await casesOf(name)) {
    if (test.flags.includes("Slow")) continue;
    const answer = ANSWERS[name](argon2, group, test);
    check(isRight(answer), test, answer.found);
  }
}

export const VECTOR_TESTS = {
  "the tags of argon2_hash.json": ({ argon2 }) => tryFile(argon2, "argon2_hash"),

  "its tags of small costs, in turns": async ({ argon2 }) => {
    const small = (await casesOf("argon2_hash")).filter(({ test: { result, m, t } }) => result === "valid" && m * t < 4096);
    for (const { group, test } of small) {
      const found = toHex(await argon2.rawAsync(...inputsOf(group, test)));
      check(found === test.tag, test, found);
    }
    check(small.length > 600, {}, small.length);
  },

  "the texts of phc_argon2.json": ({ argon2 }) => tryFile(argon2, "phc_argon2"),

  "the texts of argon2_verify.json": ({ argon2 }) => tryFile(argon2, "argon2_verify"),

  "the logins of argon2_login.json": ({ argon2 }) => tryFile(argon2, "argon2_login"),

  "the texts of argon2_verify.json that are accepted, read and made": async ({ argon2 }) => {
    const isMade = ({ test: { result, flags } }) => result !== "invalid" && !["NoVersion", "OtherOrder"].some((it) => flags.includes(it));
    const accepted = (await casesOf("argon2_verify")).filter(isMade);
    for (const { test } of accepted) {
      const password = fromHex(test.password);
      const { hash, salt, ...shown } = argon2.parse(test.text);
      const options = { ...shown, length: hash.length, secret: fromHex(test.secret) };
      check(argon2.hash(password, { ...options, salt }) === test.text, test, "made");
      const [is, isMore] = [options, { ...options, passes: shown.passes + 1 }].map((it) => argon2.needsRehash(test.text, it));
      check(!is && isMore, test, "needsRehash");
      const isOld = argon2.verify(test.text, password, { secret: "a new secret", oldSecret: options.secret, bound: BOUND });
      check(isOld, test, "an old secret");
    }
    check(accepted.length > 100, {}, accepted.length);
  },

  "texts above a bound": ({ argon2 }) => {
    for (const [password, secret, text] of ABOVE_BOUND) {
      try {
        argon2.verify(text, fromHex(password), { secret: fromHex(secret), bound: BOUND });
      } catch ({ code }) {
        check(code === "ABOVE_BOUND", { tcId: text }, code);
        continue;
      }
      check(false, { tcId: text }, "verified");
    }
  },
};
