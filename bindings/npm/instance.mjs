// The proved module imports nothing and requests no memory. Its memory begins with the stack and its constants. After them this
// file lends it the places that it reads and writes.

import { Argon2Error, OUT_OF_MEMORY } from "./error.mjs";

const PAGE = 65536;
const STACK = 65536; // build/npm links the module with this size
// The last page never exists, because a stack that is too deep would continue in it, below address 0.
const LARGEST = 2 ** 32 - PAGE;
const BLOCK = 1024;

const encoder = new TextEncoder();
const decoder = new TextDecoder();

/** An instance of the module. A place in its memory is an address and a length, which are arguments of its functions. */
export class Instance {
  #exports;
  #begin;
  #end;

  constructor(module) {
    this.#exports = requested(() => new WebAssembly.Instance(module)).exports;
    this.#begin = this.#end = Number(this.#exports.__heap_base.value);
  }

  /** The number of bytes of its memory, which never shrinks. */
  get size() {
    return this.#exports.memory.buffer.byteLength;
  }

  call(name, ...words) {
    return this.#exports[`argon2_c_${name}`](...words);
  }

  /** Returns a place of `length` bytes, which are zero. */
  lend(length, alignment = 16) {
    const at = Math.ceil(this.#end / alignment) * alignment;
    this.#grow(at + length);
    this.#end = at + length;
    return [BigInt(at), BigInt(length)];
  }

  /** Lends blocks. Returns a function that returns the place of `number` blocks from the block `first` on. */
  lendBlocks(count) {
    const at = Number(this.lend(count * BLOCK, BLOCK)[0]);
    return (first, number) => [BigInt(at + first * BLOCK), BigInt(number)];
  }

  /** Returns a place with a value, which is bytes, or a string that is written in UTF-8. */
  write(value, name) {
    if (typeof value === "string") return this.#writeText(value, name);
    const bytes = bytesOf(value, name);
    const place = this.lend(bytes.length);
    this.#bytes(place).set(bytes);
    return place;
  }

  /** Returns the address of a structure of numbers of 32 bits. */
  writeNumbers(...numbers) {
    const place = this.lend(4 * numbers.length);
    this.setNumbers(place, ...numbers);
    return place[0];
  }

  setNumbers(place, ...numbers) {
    const view = this.#view(place);
    numbers.forEach((it, index) => view.setUint32(4 * index, it, true));
  }

  /** Returns a copy of the bytes at a place. */
  read(place) {
    return this.#bytes(place).slice();
  }

  readNumbers(place, count) {
    const view = this.#view(place);
    return Array.from({ length: count }, (_, index) => view.getUint32(4 * index, true));
  }

  /** Returns the string before the first zero byte of a place. */
  readText(place) {
    const bytes = this.#bytes(place);
    return decoder.decode(bytes.slice(0, bytes.indexOf(0)));
  }

  /** Takes back and clears all places that were lent, and clears the stack. */
  clear() {
    const bytes = new Uint8Array(this.#exports.memory.buffer);
    bytes.fill(0, 0, STACK);
    bytes.fill(0, this.#begin, this.#end);
    this.#end = this.#begin;
  }

  // The bytes of the string go directly into the memory of the module, so no other copy has to be cleared.
  #writeText(text, name) {
    if (/\p{Surrogate}/u.test(text)) throw new TypeError(`${name} has half of a pair of surrogates`);
    const [at, room] = this.lend(3 * text.length);
    const { written } = encoder.encodeInto(text, this.#bytes([at, room]));
    return [at, BigInt(written)];
  }

  #grow(end) {
    const { memory } = this.#exports;
    const pages = Math.ceil((end - memory.buffer.byteLength) / PAGE);
    if (pages <= 0) return;
    if (end > LARGEST) throw new Argon2Error(OUT_OF_MEMORY);
    requested(() => memory.grow(pages));
  }

  #bytes([at, length]) {
    return new Uint8Array(this.#exports.memory.buffer, Number(at), Number(length));
  }

  #view([at, length]) {
    return new DataView(this.#exports.memory.buffer, Number(at), Number(length));
  }
}

// Returns the answer of a function that requests memory. If the engine refuses the memory, this throws an Argon2Error.
function requested(body) {
  try {
    return body();
  } catch (error) {
    throw error instanceof RangeError ? new Argon2Error(OUT_OF_MEMORY) : error;
  }
}

/** Returns whether a value is bytes, which are a buffer or a view of a buffer. */
export function isBytes(value) {
  return ArrayBuffer.isView(value) || value instanceof ArrayBuffer;
}

/** Returns the bytes of a buffer or a view, without a copy. */
export function bytesOf(value, name) {
  if (!isBytes(value)) throw new TypeError(`${name} is neither a string nor bytes`);
  return ArrayBuffer.isView(value) ? new Uint8Array(value.buffer, value.byteOffset, value.byteLength) : new Uint8Array(value);
}
