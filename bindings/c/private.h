/*
 * SPDX-FileCopyrightText: 2026 The maintainers of this repository
 * SPDX-License-Identifier: MIT OR Apache-2.0
 *
 * What the files of this library share: the functions of the proved crate argon2_c, and the functions of one file that another file
 * calls. No program sees these names.
 */
#ifndef ARGON2_PRIVATE_H
#define ARGON2_PRIVATE_H

#include "port.h"

#include "argon2.h"
#include "argon2_phc.h"

#ifdef __GNUC__
#pragma GCC visibility push(hidden)
#endif

/* ---- what the crate exports (a slice is a pointer, which is never null, and a length) */

/* (the crate's lengths have 64 bits, and its words of 64 bits lie at multiples of 8) */
typedef const uint8_t *bytes;

typedef struct {
    _Alignas(8) uint64_t words[128];
} block;

/* More blocks can't be in memory. (4 MiB are for what malloc and new_blocks put beside them.) */
#define MOST_BLOCKS ((SIZE_MAX - (4 << 20)) / sizeof(block))

struct request {
    uint32_t algorithm, version, m_cost, t_cost, lanes, threads;
    bool lacks_output, lacks_pwd, lacks_salt, lacks_secret, lacks_associated, has_allocate, has_free;
};

int32_t argon2_c_refusal(const struct request *, size_t output, size_t pwd, size_t salt, size_t secret,
    size_t associated);
int32_t argon2_c_hash(const struct request *, bytes pwd, size_t, bytes salt, size_t, bytes secret, size_t,
    bytes associated, size_t, block *memory, size_t, uint8_t *out, size_t);
int32_t argon2_c_length_refusal(size_t output, size_t pwd, size_t salt);
int32_t argon2_c_compare(bytes, size_t, bytes, size_t);
int32_t argon2_c_encode(const struct request *, bytes salt, size_t, bytes tag, size_t, uint8_t *out, size_t);
size_t argon2_c_encoded_length(uint32_t algorithm, uint32_t m_cost, uint32_t t_cost, uint32_t lanes,
    uint32_t salt, uint32_t tag);
/* What a text says. Its salt and its tag are at the beginning of the room that was lent for them. */
struct shown {
    uint32_t version, m_cost, t_cost, lanes;
    _Alignas(8) uint64_t salt, tag; /* lengths */
};

int32_t argon2_c_decode(uint32_t algorithm, bool has_text, bytes text, size_t, size_t pwd, bool lacks_pwd, struct shown *,
    uint8_t *room, size_t);

/* The parts of a hash, which threads.c puts together. */
struct segment_at {
    uint32_t pass, slice, lane;
};

int32_t argon2_c_begin(const struct request *, bytes pwd, size_t, bytes salt, size_t, bytes secret, size_t,
    bytes associated, size_t, size_t output, block *slice, size_t);
int32_t argon2_c_segment(const struct request *, bytes secret, size_t, bytes associated, size_t, const block *before,
    size_t, block *own, size_t, const block *after, size_t, const struct segment_at *);
int32_t argon2_c_finish(const struct request *, const block *last, size_t, uint8_t *out, size_t);

/* ---- what the crate exports for argon2_phc.h */

struct phc_bound {
    uint32_t m_cost, t_cost, p_cost, min_output, max_output;
};

/* The members of argon2p_shown after its size. */
struct phc_shown {
    uint32_t name_len, has_version, text_version, params_at, params_len, salt_len, output_len;
    uint32_t algorithm, version, m_cost, t_cost, p_cost, keyid_len, associated_len;
    uint8_t salt[ARGON2P_MAX_SALT], output[ARGON2P_MAX_OUTPUT], keyid[ARGON2P_MAX_KEYID], associated[ARGON2P_MAX_DATA];
};

struct phc_lengths {
    _Alignas(8) uint64_t keyid, associated, secret, output;
    bool has_output;
};

int32_t argon2_c_params_refusal(const struct request *, const struct phc_lengths *);
int32_t argon2_c_text_refusal(const struct request *, const struct phc_lengths *, size_t salt, size_t hash, size_t pwd);
int32_t argon2_c_tag_refusal(const struct request *, const struct phc_lengths *, size_t out, size_t pwd, size_t salt);

int32_t argon2_c_phc_encode(const struct request *, bytes keyid, size_t, bytes associated, size_t, bytes salt, size_t,
    bytes hash, size_t, uint8_t *out, size_t);
int32_t argon2_c_phc_show(bytes text, size_t, struct phc_shown *);
int32_t argon2_c_phc_renewal(const struct request *, size_t output, bytes keyid, size_t, bytes associated, size_t,
    bytes text, size_t);
int32_t argon2_c_phc_wanted_refusal(const struct request *, const struct phc_lengths *, const struct phc_bound *,
    bytes secret, size_t, bytes verifying, size_t);
int32_t argon2_c_phc_is_due(const struct request *, size_t output, bytes keyid, size_t, bytes associated, size_t,
    bool by_old_secret, bytes text, size_t);
int32_t argon2_c_phc_admit(const struct phc_bound *, bytes text, size_t, size_t pwd, size_t secret, size_t old_secret,
    struct phc_shown *);
int32_t argon2_c_fill(const struct request *, bytes pwd, size_t, bytes salt, size_t, bytes secret, size_t,
    bytes associated, size_t, block *memory, size_t);

/* ---- what the files share */

/* Stands for a null pointer, with length 0. */
static _Alignas(block) uint8_t nothing[1];

static inline uint8_t *some(const void *at) { return at ? (uint8_t *)at : nothing; }
static inline size_t length(const void *at, size_t n) { return at ? n : 0; }

/* The inputs of a context that is not refused. A missing input has length 0. */
#define SECRET_AND_DATA(c) some((c)->secret), (c)->secretlen, some((c)->ad), (c)->adlen
#define INPUTS(c) some((c)->pwd), (c)->pwdlen, some((c)->salt), (c)->saltlen, SECRET_AND_DATA(c)

/* Returns how many blocks a hash uses, which is m_cost rounded down to a multiple of 4 lanes. */
static inline size_t block_count(const argon2_context *c) {
    return (size_t)(c->m_cost / (4 * c->lanes)) * (4 * c->lanes);
}

/* memory.c */
void wipe(void *at, size_t n);
void wipe_and_free(uint8_t *at, size_t n);
void wipe_stack(void);
block *new_blocks(size_t n);
bool is_given_back(size_t n);
void erase(const argon2_context *c, block *blocks, size_t apart);
void free_blocks(block *blocks, size_t n);

/* argon2.c */
bool meet(const void *a, size_t n, const void *b, size_t m);
bool meets_input(const argon2_context *c, const void *at, size_t n);
struct request requested(const argon2_context *c, argon2_type type);
int hash_on(const argon2_context *c, argon2_type type, uint8_t *out, block *memory, bool wipes);
int hash_into(const argon2_context *c, argon2_type type, uint8_t *out);

/* threads.c */
uint32_t worker_count(const argon2_context *c);
int hash_in_threads(const argon2_context *c, const struct request *request, uint8_t *out, block *memory, bool wipes,
    uint32_t workers);

#ifdef __GNUC__
#pragma GCC visibility pop
#endif

#endif
