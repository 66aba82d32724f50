/** Bytes. A string means its bytes in UTF-8; a string with half of a pair of surrogates is a TypeError. */
export type Bytes = string | ArrayBuffer | ArrayBufferView;

/** The variant of Argon2. "argon2id" is for passwords. */
export type Algorithm = "argon2d" | "argon2i" | "argon2id";

/** How a tag is made. An option that is `undefined` is refused; leave an option out for its default. */
export interface TagOptions {
  /** The variant; "argon2id" if it is left out. */
  algorithm?: Algorithm;
  /** The version; 19 if it is left out. */
  version?: 16 | 19;
  /** The memory in KiB, at least 8 for each lane; 19456 if it is left out. */
  memory?: number;
  /** The passes over the memory, at least 1; 2 if it is left out. */
  passes?: number;
  /** The lanes, from 1 to 16777215; 1 if it is left out. They change the tag, and are filled one after the other. */
  lanes?: number;
  /** The bytes of the tag, at least 4, and at most 64 in a stored hash, whose last field it is; 32 if it is left out. */
  length?: number;
  /** The secret key ("pepper"). It enters the tag, and no stored hash shows it. By default there is no secret. */
  secret?: Bytes;
  /** Associated data. It enters the tag. A stored hash shows it, and has at most 32 bytes of it. By default there is none. */
  data?: Bytes;
}

/** How a stored hash is made. */
export interface TextOptions extends TagOptions {
  /** A key identifier of at most 8 bytes, for example of the secret. The stored hash shows it, and it does not enter the tag. */
  keyid?: Bytes;
}

/**
 * The most that verifying a stored hash may cost, and the bytes that its tag may have. The defaults are those of argon2_phc.h,
 * except for less memory.
 */
export interface Bound {
  /** The most memory in KiB; 262144 if it is left out. */
  memory?: number;
  /** The most passes; 64 if it is left out. */
  passes?: number;
  /** The most lanes; 64 if it is left out. */
  lanes?: number;
  /** The fewest bytes of the tag; 16 if it is left out. */
  minLength?: number;
  /** The most bytes of the tag; 64 if it is left out. */
  maxLength?: number;
}

/** The options of a login: the secrets and the bound under which the stored hash is verified, and the settings of new hashes. */
export interface LogInOptions extends TextOptions {
  /** The secret key that is tried if the stored hash does not accept the password under `secret`. */
  oldSecret?: Bytes | undefined;
  /** The most that verifying the stored hash may cost. New hashes have to be within it. */
  bound?: Bound;
}

/** The answer to a login that is accepted. */
export interface LogInAnswer {
  /** The hash to store from now on instead of the stored one, or `null` if nothing is to be stored. */
  hash: string | null;
}

/** What a stored hash shows. */
export interface Parsed {
  /** The variant. */
  algorithm: Algorithm;
  /** The version, which is 16 if the stored hash shows none. */
  version: 16 | 19;
  /** The memory in KiB. */
  memory: number;
  /** The passes. */
  passes: number;
  /** The lanes. */
  lanes: number;
  /** The salt, which is empty if the stored hash has none. */
  salt: Uint8Array;
  /** The tag, which is empty if the stored hash has none. */
  hash: Uint8Array;
  /** The key identifier, which is empty if the stored hash has none. */
  keyid: Uint8Array;
  /** The associated data, which is empty if the stored hash has none. */
  data: Uint8Array;
}

/** Why the library refused a call. */
export class Argon2Error extends Error {
  /** Makes the error of a code of argon2_phc.h. */
  constructor(number: number);
  /** The name of the code in argon2_phc.h without ARGON2P_, such as "ABOVE_BOUND". */
  readonly code: string;
  /** The negative number of the code in argon2_phc.h. */
  readonly number: number;
}

/**
 * Hashes and verifies. `load` makes one.
 *
 * Each function throws a TypeError for an option that does not exist or has a wrong type, a RangeError for a number that is not
 * whole or not from 0 to 4294967295, and an Argon2Error for what the library refuses. Each function lists the codes of an
 * Argon2Error in the order in which it looks for them.
 */
export class Argon2 {
  private constructor();
  /**
   * Returns the stored hash of a password, a PHC string. An empty password is hashed and verified like any other. The salt has 8
   * to 48 bytes. If it is left out, the system draws a salt of 16 bytes.
   *
   * Codes: MEMORY_TOO_LITTLE, LANES_TOO_FEW, LANES_TOO_MANY, PASSES_TOO_FEW, OUTPUT_TOO_SHORT, KEYID_TOO_LONG, DATA_TOO_LONG,
   * ALGORITHM, VERSION, SALT_TOO_SHORT, SALT_TOO_LONG, OUTPUT_TOO_LONG, OUT_OF_MEMORY.
   */
  hash(password: Bytes, options?: TextOptions & { salt?: Bytes }): string;
  /**
   * Returns whether a stored hash accepts a password under the secret or, if you pass it, the old secret. It does not tell which
   * secret accepted. A stored hash that can't be verified is an error.
   *
   * Codes: TEXT_INVALID; TEXT_MEMORY, TEXT_PASSES, TEXT_LANES, TEXT_KEYID, TEXT_DATA or TEXT_PARAMETERS, by the first parameter
   * that is wrong; ABOVE_BOUND, TEXT_INCOMPLETE, ALGORITHM, VERSION, OUTPUT_OUT_OF_BOUND, OUT_OF_MEMORY.
   */
  verify(text: Bytes, password: Bytes, options?: { secret?: Bytes; oldSecret?: Bytes | undefined; bound?: Bound }): boolean;
  /**
   * Answers a login. The answer is `null` if a stored hash does not accept the password, as `verify` decides. Otherwise it is an
   * object, whose `hash` is a new hash to store from now on, or `null` if the stored hash stays.
   *
   * `logIn` makes a new hash under these options in two cases. In the first, only the old secret accepted the password. In the
   * second, the stored hash is weaker than new hashes, as `isWeaker` decides.
   *
   * An accepted password is never an error. If no new hash can be made, because the system refuses memory or random bytes, the
   * stored hash stays, and the next login tries again. Options under which no hash can be made, or whose hashes `bound` does not
   * allow, are refused at each login, whatever the stored hash and the password are.
   *
   * Codes: WANTED_OUT_OF_BOUND; the codes of `hash` from MEMORY_TOO_LITTLE to VERSION, and OUTPUT_TOO_LONG; then the codes of
   * `verify`.
   */
  logIn(text: Bytes, password: Bytes, options?: LogInOptions): LogInAnswer | null;
  /**
   * Returns whether a stored hash shows other settings than the wanted ones, also if it is stronger. To decide which hashes to
   * replace, call `logIn` or `isWeaker`. A stored hash does not show its secret.
   *
   * Codes: the codes of `hash` from MEMORY_TOO_LITTLE to VERSION, for the wanted settings; then the codes of `parse`.
   */
  needsRehash(text: Bytes, wanted?: TextOptions): boolean;
  /**
   * Returns whether a stored hash is weaker than new hashes, so that `logIn` would replace it. It is weaker if it has another
   * algorithm, version, key identifier or data, less memory, fewer passes or lanes, or a shorter tag. A stored hash with higher
   * costs or a longer tag is not weaker. A stored hash does not show its secret.
   *
   * Codes: the codes of `needsRehash`.
   */
  isWeaker(text: Bytes, wanted?: TextOptions): boolean;
  /**
   * Returns what a stored hash shows. Nothing is hashed.
   *
   * Codes: TEXT_INVALID; TEXT_MEMORY, TEXT_PASSES, TEXT_LANES, TEXT_KEYID, TEXT_DATA or TEXT_PARAMETERS, by the first parameter
   * that is wrong; ALGORITHM, VERSION.
   */
  parse(text: Bytes): Parsed;
  /**
   * Returns only a tag, of `length` bytes, for example as a key. The salt has at least 8 bytes.
   *
   * Codes: MEMORY_TOO_LITTLE, LANES_TOO_FEW, LANES_TOO_MANY, PASSES_TOO_FEW, OUTPUT_TOO_SHORT, ALGORITHM, VERSION,
   * SALT_TOO_SHORT, OUT_OF_MEMORY.
   */
  raw(password: Bytes, salt: Bytes, options?: TagOptions): Uint8Array;
  /**
   * Does what `raw` does, in turns between which others run: each fills a quarter of a lane, or goes on for 8 milliseconds.
   * The errors of `raw` reject the promise. After each turn `onProgress` gets the share that is done, from 0 to 1. If `signal`
   * is aborted, its reason rejects the promise.
   */
  rawAsync(
    password: Bytes,
    salt: Bytes,
    options?: TagOptions & { onProgress?: ((share: number) => void) | undefined; signal?: AbortSignal | undefined },
  ): Promise<Uint8Array>;
}

/**
 * Loads the module of the package, or another one, and returns its functions.
 *
 * A response whose status is not OK rejects the promise with an Error. Bytes that are no module reject it with the error of
 * WebAssembly.
 */
export function load(source?: Source | Promise<Source>): Promise<Argon2>;
/** A module of WebAssembly, its bytes, or a response with these bytes. */
export type Source = WebAssembly.Module | BufferSource | Response;
