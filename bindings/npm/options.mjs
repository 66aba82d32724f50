// Checks options.

/** Refuses options with a prototype, because the prototype may have more options, which would be left out. */
export function requirePlain(options) {
  const prototype = Object.getPrototypeOf(options);
  if (prototype !== Object.prototype && prototype !== null) throw new TypeError("options are no plain object");
}

/**
 * Returns options with their defaults. An option that is undefined stays undefined, and is refused. So a secret that was not read
 * is not left out.
 */
export function complete(defaults, options) {
  requirePlain(options);
  for (const name of Object.keys(options)) {
    if (!Object.hasOwn(defaults, name)) throw new TypeError(`there is no option ${name}`);
  }
  return { ...defaults, ...options };
}

/** Returns a whole number, and refuses it below `least` and above `most`. */
export function whole(value, name, least = 0, most = 4294967295) {
  if (Number.isInteger(value) && value >= least && value <= most) return value;
  throw new RangeError(`${name} is no whole number from ${least} to ${most}`);
}
