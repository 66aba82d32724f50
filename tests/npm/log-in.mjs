// Tests of logIn, in node and in pages.

import { check, thrown } from "./checks.mjs";
import { LOG_INS, PASSWORD, SETTINGS } from "./log-in-cases.mjs";

// Returns the word of LOG_INS for an answer.
function nameOf(answer) {
  if (answer === null) return "refused";
  return answer.hash === null ? "stays" : "new";
}

// Returns the options and the words of a login of LOG_INS.
function wordsOf([, { password = PASSWORD, ...options }, , text]) {
  return [text, password, { ...SETTINGS, ...options }];
}

// Calls a function while a function of an object is replaced.
function replacing(object, name, value, body) {
  const own = Object.getOwnPropertyDescriptor(object, name);
  Object.defineProperty(object, name, { configurable: true, writable: true, value });
  try {
    return body();
  } finally {
    if (own) Object.defineProperty(object, name, own);
    else delete object[name];
  }
}

// Calls a function while the request for memory with this number, from 0 on, is refused. Returns its answer, and how many
// requests were made.
function refusing(at, body) {
  const { Instance, Memory } = WebAssembly;
  const { grow } = Memory.prototype;
  let requests = 0;
  const request = () => {
    if (requests++ === at) throw new RangeError("refused");
  };
  const growing = function (pages) {
    request();
    return grow.call(this, pages);
  };
  // (this is a function, because it replaces a constructor)
  const making = function (...words) {
    request();
    return new Instance(...words);
  };
  const answer = replacing(Memory.prototype, "grow", growing, () => replacing(WebAssembly, "Instance", making, body));
  return { answer, requests };
}

/** Changes the secret of a hundred users while they log in. `argon2` is an Argon2, a worker or a pool. */
export async function tryRotation(argon2) {
  const costs = { memory: 16, passes: 1 };
  const [old, both, fresh] = [
    { ...costs, secret: "the old secret" },
    { ...costs, secret: "the new secret", oldSecret: "the old secret" },
    { ...costs, secret: "the new secret" },
  ];
  const passwords = Array.from({ length: 100 }, (_, at) => `password ${at}`);
  const users = await Promise.all(passwords.map(async (password) => ({ password, hash: await argon2.hash(password, old) })));
  const absent = await argon2.hash("password", old);
  // Returns the answers to a login of each user, and stores their new hashes.
  const logIn = async (options, passwordOf = ({ password }) => password) =>
    Promise.all(
      users.map(async (user) => {
        const answer = await argon2.logIn(user.hash, passwordOf(user), options);
        if (answer?.hash) user.hash = answer.hash;
        return nameOf(answer);
      }),
    );
  const all = (answers, wanted) => check(answers.length === 100 && answers.every((it) => it === wanted), wanted, answers);
  all(await logIn(old), "stays");
  all(await logIn(fresh), "refused");
  all(await logIn(both, ({ password }) => `${password}0`), "refused");
  all(await logIn(both), "new");
  all(await logIn(both), "stays");
  // From here on the old secret is no longer used.
  all(await logIn(fresh), "stays");
  all(await logIn(fresh, ({ password }) => `${password}0`), "refused");
  all(await logIn(old), "refused");
  check((await argon2.logIn(absent, "password", fresh)) === null, "a user who was absent");
  check(new Set(users.map(({ hash }) => hash)).size === 100, "equal hashes");
}

export const LOG_IN_TESTS = {
  "log-ins by texts of the model": async ({ argon2, Argon2Error }) => {
    for (const it of LOG_INS) {
      const [what, , wanted] = it;
      const [text, password, options] = wordsOf(it);
      const { oldSecret, bound, ...settings } = options;
      const logIn = () => argon2.logIn(text, password, options);
      if (/^[A-Z]/.test(wanted)) {
        const error = await thrown(logIn);
        check(error instanceof Argon2Error && error.code === wanted, what, String(error));
        continue;
      }
      const answer = logIn();
      check(nameOf(answer) === (wanted === "kept" ? "stays" : wanted), what, answer);
      if (wanted !== "refused") check(Object.keys(answer).join() === "hash", what, answer);
      check(argon2.verify(text, password, { secret: settings.secret, oldSecret, bound }) === (wanted !== "refused"), what);
      const isDue = wanted === "new" || wanted === "kept";
      const isBySecret = argon2.verify(text, password, { secret: settings.secret, bound });
      if (isBySecret) check(argon2.isWeaker(text, settings) === isDue, what, "isWeaker");
      if (wanted !== "new") continue;
      check(!argon2.isWeaker(answer.hash, settings), what, answer);
      check(!argon2.needsRehash(answer.hash, settings) && argon2.parse(answer.hash).salt.length === 16, what, answer);
      check(argon2.verify(answer.hash, password, { secret: settings.secret }), what, answer);
      check(!argon2.verify(answer.hash, password, { secret: `${settings.secret} ` }), what, answer);
      check(nameOf(argon2.logIn(answer.hash, password, options)) === "stays", what, answer);
    }
    check(LOG_INS.length > 60);
  },

  "an accepted log-in keeps the stored text if the system gives no random bytes": ({ argon2 }) => {
    const renewed = LOG_INS.filter(([, , wanted]) => wanted === "new");
    const refuse = () => {
      throw new DOMException("refused", "OperationError");
    };
    const answers = replacing(crypto, "getRandomValues", refuse, () => renewed.map((it) => argon2.logIn(...wordsOf(it))));
    check(answers.length > 20 && answers.every((it) => nameOf(it) === "stays"), answers);
    check(nameOf(argon2.logIn(...wordsOf(renewed[0]))) === "new");
  },

  "each request for memory of a log-in is refused in turn": ({ Argon2 }, module) => {
    const [text, password, options] = wordsOf(LOG_INS.find(([what]) => what === "fewer passes"));
    const names = [];
    const logIn = () => {
      try {
        return nameOf(new Argon2(module).logIn(text, password, { ...options, memory: 1024 }));
      } catch ({ code }) {
        return code;
      }
    };
    for (let at = 0, isRefused = true; isRefused; at++) {
      const { answer, requests } = refusing(at, logIn);
      names.push(answer);
      isRefused = requests > at;
    }
    check(/^(OUT_OF_MEMORY ){2,}(stays )+new$/.test(names.join(" ")), names);
  },

  "log-ins with the default settings": ({ argon2 }) => {
    const text = argon2.hash("abc");
    check(nameOf(argon2.logIn(text, "abc")) === "stays" && nameOf(argon2.logIn(text, "abd")) === "refused", text);
    const weaker = argon2.hash("abc", { memory: 19455 });
    const answers = [0, 1].map(() => argon2.logIn(new TextEncoder().encode(weaker), new TextEncoder().encode("abc")).hash);
    for (const answer of answers) check(/^\$argon2id\$v=19\$m=19456,t=2,p=1\$[\w+/]{22}\$[\w+/]{43}$/.test(answer), answer);
    check(answers[0] !== answers[1]);
  },

  "options of a log-in of another kind": async ({ argon2 }) => {
    const text = argon2.hash("x", { memory: 8, passes: 1 });
    for (const [wanted, ...words] of [
      [TypeError, text, "x", { salt: "somesalt" }],
      [TypeError, text, "x", { secret: undefined }],
      [TypeError, text, "x", { oldSecret: null }],
      [TypeError, text, "x", { bound: undefined }],
      [TypeError, text, "x", { bound: { m: 8 } }],
      [TypeError, text, "x", { parallelism: 1 }],
      [TypeError, text, "x", null],
      [TypeError, text, "x", new (class {})()],
      [TypeError, text, "x", Object.create({ secret: "y" })],
      [TypeError, text, undefined, {}],
      [TypeError, text, "\ud800", {}],
      [TypeError, undefined, "x", {}],
      [RangeError, text, "x", { memory: "19456" }],
      [RangeError, text, "x", { length: undefined }],
      [RangeError, text, "x", { bound: { passes: -1 } }],
    ]) {
      const error = await thrown(() => argon2.logIn(...words));
      check(error instanceof wanted, words, String(error));
    }
  },

  "a secret that a hundred users change": ({ argon2 }) => tryRotation(argon2),
};
