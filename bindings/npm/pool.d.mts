import type { Functions } from "./worker.mjs";

export interface PoolOptions {
  /**
   * The most workers, at least 1. Each worker makes one hash at a time, and has the memory of one hash. If the size is left out,
   * it is the number of processors that the system offers.
   */
  size?: number;
  /** The most calls that wait for a worker; 64 if it is left out. With 0 no call waits. */
  maxQueued?: number;
  /** The milliseconds after which a worker without a call is ended, with its memory; 10000 if it is left out. */
  idleTimeout?: number;
}

/**
 * Why a pool did not answer a call. `code` is the name of the error:
 *
 * QUEUE_FULL: all workers have a call, and `maxQueued` calls wait. Nothing was hashed.
 * POOL_CLOSED: the call came after `close`. Nothing was hashed.
 * WORKER_DIED: the worker did not start, or ended before it answered; `cause` is the reason. The next call gets another worker.
 */
export class PoolError extends Error {
  constructor(code: PoolError["code"], options?: { cause?: unknown });
  readonly code: "QUEUE_FULL" | "POOL_CLOSED" | "WORKER_DIED";
}

/**
 * The functions of an Argon2 as promises. `hash`, `verify`, `logIn` and `raw` wait for a worker in the order of the calls. They
 * copy the bytes and options of a call, so the caller may change them later. `needsRehash`, `isWeaker` and `parse` make no hash,
 * so they need no worker, and do not wait.
 */
export type Argon2Pool = Functions & {
  /**
   * Closes the pool. Later calls are rejected, and earlier calls are answered. The promise is fulfilled when all workers have
   * ended.
   */
  close(): Promise<void>;
};

/** Makes a pool. A worker is started when a call needs one. In node a pool without calls lets the program end. */
export function createPool(options?: PoolOptions): Argon2Pool;
