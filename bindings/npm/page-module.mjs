import { hasSimd } from "./simd.mjs";

// (bundlers find the two files by these addresses)
const address = () => (hasSimd() ? new URL("./argon2-simd.wasm", import.meta.url) : new URL("./argon2.wasm", import.meta.url));

/** Reads the module of the package. */
export const readModule = () => fetch(address());
