// Answers logins by hashes that are stored under a secret key ("pepper"), within a bound, and renews these hashes.
import { createPool } from "argon2-proved/pool";

// (at most four hashes at once, each in a thread, while at most 64 more logins wait)
const argon2 = createPool({ size: 4, maxQueued: 64 });
// A service reads its secret from a file that is not with the hashes.
const settings = { memory: 19456, passes: 2, lanes: 1, secret: "the secret" };
const bound = { memory: 65536, passes: 4 };

// Returns whether a user's stored hash accepts a password. If there is a new hash, it replaces the stored hash. An Argon2Error
// tells why a stored hash can't be verified, and a PoolError means that too many logins wait.
async function logIn(user, password) {
  const answer = await argon2.logIn(user.hash, password, { ...settings, bound });
  if (answer === null) return false;
  if (answer.hash !== null) user.hash = answer.hash;
  return true;
}

const user = { name: "ann", hash: await argon2.hash("correct horse", settings) };
console.log(user.hash);
console.log(await logIn(user, "correct horse"), await logIn(user, "wrong horse"));
