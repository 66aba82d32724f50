// Makes a key from a password in a page, which reacts to its user meanwhile.
import { load } from "argon2-proved";

const argon2 = await load();

// Returns the 32 bytes of the key. `onProgress` gets the share that is done. `signal` is an AbortSignal, which ends the work.
export function makeKey(password, salt, { onProgress, signal } = {}) {
  return argon2.rawAsync(password, salt, { memory: 65536, passes: 3, onProgress, signal });
}
