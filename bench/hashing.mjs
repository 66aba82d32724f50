// Times hashes with several modules of WebAssembly, in node and in pages.

export const COSTS = [
  { memory: 65536, passes: 3 },
  { memory: 19456, passes: 2 },
  { memory: 4096, passes: 1 },
];
export const [PASSWORD, SALT] = ["password", "somesaltsomesalt"].map((it) => new TextEncoder().encode(it));
export const LENGTH = 32;

// Returns a function that hashes with the reference's C.
function referenceOf({ exports }) {
  const { memory, malloc, free, argon2_hash: hash } = exports;
  const put = (bytes) => {
    const at = malloc(bytes.length);
    new Uint8Array(memory.buffer, at, bytes.length).set(bytes);
    return at;
  };
  return ({ memory: blocks, passes }) => {
    const places = [PASSWORD, SALT, new Uint8Array(LENGTH)].map(put);
    const [password, salt, out] = places;
    // (Argon2id of version 19)
    const code = hash(passes, blocks, 1, password, PASSWORD.length, salt, SALT.length, out, LENGTH, 0, 0, 2, 19);
    if (code !== 0) throw new Error(`the reference's code ${code}`);
    const tag = new Uint8Array(memory.buffer, out, LENGTH).slice();
    places.forEach(free);
    return tag;
  };
}

/** Returns a function that hashes with a module. A module that exports `malloc` is the reference's, and needs no `load`. */
export async function hasherOf(bytes, load) {
  const module = await WebAssembly.compile(bytes);
  if (!WebAssembly.Module.exports(module).some(({ name }) => name === "malloc")) {
    const argon2 = await load(module);
    return (costs) => argon2.raw(PASSWORD, SALT, costs);
  }
  // (the module imports system calls for its C library, and never calls them)
  const imports = {};
  for (const { module: group, name } of WebAssembly.Module.imports(module)) (imports[group] ??= {})[name] = () => 0;
  const instance = new WebAssembly.Instance(module, imports);
  instance.exports._initialize?.();
  return referenceOf(instance);
}

/** Returns lines with the least milliseconds of a hash with each module, and whether all modules make the same tag. The modules
 * take turns. `read` returns the bytes of a module by its name, `load` is from the package, and `clock` returns milliseconds. */
export async function timesOf(names, read, load, rounds, clock) {
  const hashers = await Promise.all(names.map(async (name) => hasherOf(await read(name), load)));
  return COSTS.flatMap((costs) => {
    const least = names.map(() => Infinity);
    const tags = new Set();
    for (let round = 0; round < rounds; round++) {
      hashers.forEach((hash, at) => {
        const begun = clock();
        tags.add(String(hash(costs)));
        least[at] = Math.min(least[at], clock() - begun);
      });
    }
    return [
      `m=${costs.memory} t=${costs.passes}: ${tags.size === 1 ? "the same tags" : "OTHER TAGS"}`,
      ...names.map((name, at) => `  ${name.padEnd(20)} ${least[at].toFixed(1).padStart(6)}`),
    ];
  });
}
