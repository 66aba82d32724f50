import { CODES } from "./header.mjs";

/** A refusal. `code` is its name, such as ABOVE_BOUND, and `number` is the number of this name in argon2_phc.h. */
export class Argon2Error extends Error {
  constructor(number) {
    const [code, message] = CODES.get(number) ?? ["UNKNOWN", "Unknown error code"];
    super(message);
    this.name = "Argon2Error";
    this.code = code;
    this.number = number;
  }
}

/** Throws the error of a negative number, and returns any other number. */
export function must(number) {
  if (number < 0) throw new Argon2Error(number);
  return number;
}

export const OUT_OF_MEMORY = -22;
export const MISMATCH = -35;
