/*
 * SPDX-FileCopyrightText: 2026 The maintainers of this repository
 * SPDX-License-Identifier: MIT OR Apache-2.0
 *
 * Argon2 (RFC 9106), proved: the library for C, version @VERSION@, in one file. argon2.h and argon2_phc.h describe its functions, and
 * README.md says how to compile it.
 *
 * This file is generated, so do not edit it. It consists of the following parts:
 *
 * - port.h, what the library needs of a system and of a compiler;
 * - private.h, what the parts share;
 * - machine.h, instructions of WebAssembly as functions of C;
 * - module.c, the proved crate argon2_c. Its authors wrote it in Rattle, which is Rust with contracts. A prover checked that it does
 *   what its contracts state, and a compiler, which no proof covers, made it a module of WebAssembly. Here each instruction of the
 *   module is a line of C: a value on the stack of WebAssembly is a variable with the type and the place of the value (i0 has 32
 *   bits, j0 has 64 bits, v0 is a vector), and a local is l0, l1 and so on. A comment before a function has its name in the crate;
 * - calls.c, the functions of the crate as the other parts call them;
 * - memory.c, argon2.c, argon2_phc.c and threads.c, the functions of the headers. They were written by hand.
 */
