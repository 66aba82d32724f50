import type { Argon2 } from "./argon2.mjs";

type Promised<F> = F extends (...words: infer W) => infer R ? (...words: W) => Promise<R> : never;

/** The functions of an Argon2, each of which returns a promise. They copy the bytes that you pass. */
export type Functions = { [K in "hash" | "verify" | "logIn" | "needsRehash" | "isWeaker" | "parse" | "raw"]: Promised<Argon2[K]> };

export type Argon2Worker = Functions & {
  /** Ends the worker, and rejects the calls that wait. */
  terminate(): void;
};

/** Starts a worker with these functions, so that a hash keeps nothing else waiting. */
export function start(): Argon2Worker;
