// A module with instructions of SIMD. If an engine can't run them on this processor, it refuses the module.
const PROBE = Uint8Array.of(
  ...[0, 97, 115, 109, 1, 0, 0, 0, 1, 5, 1, 96, 0, 1, 123, 3, 2, 1, 0],
  ...[10, 10, 1, 8, 0, 65, 0, 253, 15, 253, 98, 11],
);

/** Returns whether this engine runs the module with SIMD. */
export const hasSimd = () => WebAssembly.validate(PROBE);
