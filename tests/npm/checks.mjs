// The checks of the tests in node and in pages.

export function check(holds, ...found) {
  if (!holds) throw new Error(found.map((it) => (typeof it === "string" ? it : JSON.stringify(it))).join(" "));
}

/** Returns the error that a call throws, or the error with which its promise is rejected. */
export async function thrown(call) {
  try {
    await call();
  } catch (error) {
    return error;
  }
  throw new Error(`no error by ${call}`);
}
