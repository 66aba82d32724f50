import { readFile } from "node:fs/promises";
import { hasSimd } from "./simd.mjs";

/** Reads the module of the package. */
export const readModule = () => readFile(new URL(hasSimd() ? "argon2-simd.wasm" : "argon2.wasm", import.meta.url));
