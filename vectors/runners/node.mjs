// Tries the package for npm on the files: node node.mjs ENTRY, where ENTRY is the file node.mjs of the package. It prints each
// case to which the package gives another answer, and last 'N passed, M failed, K skipped'.

import { readFileSync } from "node:fs";
import { pathToFileURL } from "node:url";
import { ANSWERS, isRight } from "./package.mjs";

const { load } = await import(pathToFileURL(process.argv[2]).href);
const argon2 = await load();
const counts = { passed: 0, failed: 0 };
let skipped = 0;

for (const name of ["argon2_hash", "argon2_long_hash", "blake2b", "phc_argon2", "argon2_verify", "argon2_login"]) {
  const { numberOfTests, testGroups } = JSON.parse(readFileSync(new URL(`../${name}.json`, import.meta.url), "utf8"));
  if (!(name in ANSWERS)) {
    skipped += numberOfTests;
    continue;
  }
  for (const group of testGroups) {
    for (const test of group.tests) {
      const answer = ANSWERS[name](argon2, group, test);
      counts[isRight(answer) ? "passed" : "failed"]++;
      if (!isRight(answer)) console.log(`${name} ${test.tcId}: ${answer.found}`);
    }
  }
}
console.log(`${counts.passed} passed, ${counts.failed} failed, ${skipped} skipped`);
process.exitCode = counts.failed ? 1 : 0;
