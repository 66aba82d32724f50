// Hashes a password and verifies it.
import { load } from "argon2-proved";

const argon2 = await load();
const stored = argon2.hash("correct horse");
console.log(stored);
console.log(argon2.verify(stored, "correct horse"), argon2.verify(stored, "wrong horse"));
