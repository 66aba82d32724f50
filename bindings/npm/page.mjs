import { open } from "./argon2.mjs";
import { readModule } from "./page-module.mjs";

export { Argon2, Argon2Error } from "./argon2.mjs";

export const load = (source = readModule()) => open(source);
