// ANSWERS has a function for each file. It returns the answer of the package for npm to a case, and the wanted answer. An answer
// is a value or the code of a refusal. For some cases, any of several codes is right. Node and pages import this.

const CODES = {
  Grammar: "TEXT_INVALID",
  // (for a text that also lacks parameters, the package answers one of the other codes)
  Incomplete: ["TEXT_INCOMPLETE", "TEXT_PARAMETERS", "TEXT_MEMORY"],
  ParametersInvalid: "TEXT_PARAMETERS",
  KeyidInvalid: "TEXT_KEYID",
  DataInvalid: "TEXT_DATA",
  MemoryInvalid: "TEXT_MEMORY",
  PassesInvalid: "TEXT_PASSES",
  LanesInvalid: "TEXT_LANES",
  AlgorithmUnknown: "ALGORITHM",
  VersionUnknown: "VERSION",
  WrongPassword: false,
  LanesTooFew: "LANES_TOO_FEW",
  LanesTooMany: "LANES_TOO_MANY",
  MemoryTooLittle: "MEMORY_TOO_LITTLE",
  OutputTooShort: "OUTPUT_TOO_SHORT",
  PassesTooFew: "PASSES_TOO_FEW",
  WantedAboveBound: "WANTED_OUT_OF_BOUND",
  AboveBound: "ABOVE_BOUND",
};
const BOUND = { memory: 2 ** 32 - 1, passes: 2 ** 10, lanes: 2 ** 10, minLength: 4 };

export const toHex = (bytes) => Array.from(bytes, (it) => it.toString(16).padStart(2, "0")).join("");
export const fromHex = (digits) => Uint8Array.from(digits.match(/../g) ?? [], (it) => parseInt(it, 16));

/** Returns the inputs of a tag, as the package accepts them. */
export function inputsOf({ algorithm, version }, { m, t, p, length, ...fields }) {
  const [password, salt, secret, data] = ["password", "salt", "secret", "data"].map((it) => fromHex(fields[it]));
  return [password, salt, { algorithm, version, memory: m, passes: t, lanes: p, length, secret, data }];
}

/** Returns what a call returns, or the code of the error that it throws. */
function found(call) {
  try {
    return call();
  } catch (error) {
    if (!("code" in error)) throw error;
    return error.code;
  }
}

/** Returns whether the answer of the package is a wanted answer. */
export const isRight = ({ found, wanted }) => [wanted].flat().includes(found);

export const ANSWERS = {
  argon2_hash(argon2, group, test) {
    const wanted = test.flags.includes("ShortSalt") ? "SALT_TOO_SHORT" : (test.tag ?? CODES[test.reason]);
    return { found: found(() => toHex(argon2.raw(...inputsOf(group, test)))), wanted };
  },

  phc_argon2(argon2, _, { text, reason, algorithm, version, m, t, p, ...fields }) {
    const of = (values) => JSON.stringify(values);
    const wanted = CODES[reason] ?? of([algorithm, version, m, t, p, fields.keyid, fields.data, fields.salt, fields.hash]);
    const shown = () => {
      // (the package also parses a text without a hash, and does not verify it)
      if (reason === "Incomplete") return argon2.verify(text, "");
      const it = argon2.parse(text);
      const bytes = [it.keyid, it.data, it.salt, it.hash].map(toHex);
      return of([it.algorithm, it.version, it.memory, it.passes, it.lanes, ...bytes]);
    };
    return { found: found(shown), wanted };
  },

  argon2_verify(argon2, _, { text, password, secret, reason }) {
    const options = { secret: fromHex(secret), bound: BOUND };
    return { found: found(() => argon2.verify(text, fromHex(password), options)), wanted: reason ? CODES[reason] : true };
  },

  argon2_login(argon2, _, { wanted, bound, text, reason, weaker, due, ...fields }) {
    const { m, t, p, keyid, data, ...kind } = wanted;
    const settings = { ...kind, memory: m, passes: t, lanes: p, keyid: fromHex(keyid), data: fromHex(data) };
    const secrets = { secret: fromHex(fields.secret), oldSecret: fields.oldSecret === null ? undefined : fromHex(fields.oldSecret) };
    const options = { ...settings, ...secrets, bound: { memory: bound.m, passes: bound.t, lanes: bound.p, minLength: 4 } };
    const logIn = (it) => argon2.logIn(it, fromHex(fields.password), options);
    const outcome = () => {
      const answer = logIn(text);
      if (answer === null) return false;
      if (answer.hash === null) return "current";
      return logIn(answer.hash)?.hash === null ? "renewed" : "a new hash that is not current";
    };
    // (a text that is no hash of Argon2 is not compared)
    const isWeaker = weaker === undefined ? undefined : found(() => argon2.isWeaker(text, settings));
    const outcomes = [CODES[reason] ?? (due ? "renewed" : "current")].flat();
    return { found: `${found(outcome)}, weaker: ${isWeaker}`, wanted: outcomes.map((it) => `${it}, weaker: ${weaker}`) };
  },
};
