// Calls that the types of the package accept, and calls that they refuse. tests/npm/run compiles them with `tsc --strict`.

import { Argon2, Argon2Error, load, type Bound, type LogInAnswer, type LogInOptions, type TextOptions } from "argon2-proved";
import { load as loadInline } from "argon2-proved/inline";
import { createPool, PoolError, type Argon2Pool } from "argon2-proved/pool";
import { start } from "argon2-proved/worker";

const argon2: Argon2 = await load(fetch("argon2.wasm"));
const settings: TextOptions = { algorithm: "argon2id", memory: 65536, passes: 3, lanes: 1, secret: new Uint8Array(16) };
const bound: Bound = { memory: 65536 };
const text: string = argon2.hash("password", { ...settings, salt: new Uint8Array(16) });
const accepts: boolean = argon2.verify(text, new ArrayBuffer(8), { secret: "secret", oldSecret: undefined, bound });
const logInOptions: LogInOptions = { ...settings, oldSecret: "old secret", bound };
const logIn: LogInAnswer | null = argon2.logIn(text, "password", logInOptions);
const stored: string = logIn?.hash ?? text;
const isOld: boolean = argon2.needsRehash(text, settings) || argon2.isWeaker(text, settings);
const { version, salt }: { version: 16 | 19; salt: Uint8Array } = argon2.parse(text);
const key: Uint8Array = await argon2.rawAsync("password", salt, {
  passes: 3,
  onProgress: (share) => share.toFixed(),
  signal: new AbortController().signal,
});
const tags: Uint8Array[] = [key, (await loadInline()).raw("password", salt, { length: 16 })];

const worker = start();
const answers: [string, boolean, LogInAnswer | null, Uint8Array] = [
  await worker.hash("password", settings),
  await worker.verify(text, "password", { bound }),
  await worker.logIn(stored, "password", logInOptions),
  await worker.raw("password", salt),
];
worker.terminate();

const pool: Argon2Pool = createPool({ size: 4, maxQueued: 0, idleTimeout: 1000 });
const isCurrent: boolean = !(await pool.isWeaker(await pool.hash("password", settings), settings));
const accepted: LogInAnswer | null = await pool.logIn(text, "password", logInOptions);
const closing: Promise<void> = pool.close();

try {
  argon2.parse(text);
} catch (error) {
  if (error instanceof PoolError && error.code === "QUEUE_FULL") console.log(error.cause, isCurrent, accepted, closing);
  if (error instanceof Argon2Error) console.log(error.code, error.number, accepts, isOld, version, tags, answers);
}

// @ts-expect-error: a number is wanted
argon2.hash("password", { memory: "65536" });
// @ts-expect-error: a tag has no key identifier
argon2.raw("password", salt, { keyid: "key 1" });
// @ts-expect-error: the salt of a new hash is drawn
argon2.logIn(text, "password", { salt });
// @ts-expect-error: a login that is refused has no hash
argon2.logIn(text, "password").hash;
// @ts-expect-error: there is no such option
argon2.hash("password", { parallelism: 1 });
// @ts-expect-error: a queue has a bound
createPool({ maxQueued: undefined });
// @ts-expect-error: a pool has no such error
new PoolError("OUT_OF_MEMORY");
// @ts-expect-error: `load` returns a promise
load().hash("password");
// @ts-expect-error: `load` makes it
new Argon2();
