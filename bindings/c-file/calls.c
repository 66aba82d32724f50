/*
 * SPDX-FileCopyrightText: 2026 The maintainers of this repository
 * SPDX-License-Identifier: MIT OR Apache-2.0
 *
 * The functions of the crate argon2_c, over the module above. A call lends the module a stack, which is wiped when the call ends.
 * The module's numbers are little-endian. So each structure is brought into this order, and back if the module writes to it. A
 * second change of the order undoes the first, and on a little-endian processor none changes anything.
 */

static void order32(void *at, size_t n) {
    u32 number;
    for (u8 *it = at; n > 0; n--, it += sizeof number) number = read32(ADDRESS(it)), memcpy(it, &number, sizeof number);
}

static void order64(void *at, size_t n) {
    u64 number;
    for (u8 *it = at; n > 0; n--, it += sizeof number) number = read64(ADDRESS(it)), memcpy(it, &number, sizeof number);
}

/* Calls a function of the module. Its stack begins at a multiple of 16. */
#define CALL(name, ...) \
    u64 stack[2 + name##_stack / sizeof(u64)]; \
    const u64 answer = wasm_##name((ADDRESS(stack) + sizeof stack) & ~(u64)15, __VA_ARGS__); \
    wipe(stack, sizeof stack)

#define RETURN(name, ...) \
    CALL(name, __VA_ARGS__); \
    return (int32_t)(u32)answer

/* The structures as the module expects them. */
static struct request ordered_request(const struct request *it) {
    struct request own = *it;
    order32(&own, 6);
    return own;
}

static struct phc_lengths ordered_lengths(const struct phc_lengths *it) {
    struct phc_lengths own = *it;
    order64(&own, 4);
    return own;
}

static struct segment_at ordered_place(const struct segment_at *it) {
    struct segment_at own = *it;
    order32(&own, 3);
    return own;
}

static struct phc_bound ordered_bound(const struct phc_bound *it) {
    struct phc_bound own = *it;
    order32(&own, 5);
    return own;
}

static void order_shown(struct shown *it) { order32(it, 4), order64(&it->salt, 2); }
static void order_phc_shown(struct phc_shown *it) { order32(it, offsetof(struct phc_shown, salt) / sizeof(u32)); }

/* ---- the functions, in the order of private.h */

NOINLINE int32_t argon2_c_refusal(const struct request *request, size_t output, size_t pwd, size_t salt, size_t secret,
    size_t associated) {
    const struct request own = ordered_request(request);
    RETURN(argon2_c_refusal, ADDRESS(&own), output, pwd, salt, secret, associated);
}

NOINLINE int32_t argon2_c_hash(const struct request *request, bytes pwd, size_t pwd_len, bytes salt, size_t salt_len,
    bytes secret, size_t secret_len, bytes associated, size_t associated_len, block *memory, size_t n, uint8_t *out,
    size_t out_len) {
    const struct request own = ordered_request(request);
    RETURN(argon2_c_hash, ADDRESS(&own), ADDRESS(pwd), pwd_len, ADDRESS(salt), salt_len, ADDRESS(secret), secret_len,
        ADDRESS(associated), associated_len, ADDRESS(memory), n, ADDRESS(out), out_len);
}

NOINLINE int32_t argon2_c_length_refusal(size_t output, size_t pwd, size_t salt) {
    RETURN(argon2_c_length_refusal, output, pwd, salt);
}

NOINLINE int32_t argon2_c_compare(bytes a, size_t n, bytes b, size_t m) {
    RETURN(argon2_c_compare, ADDRESS(a), n, ADDRESS(b), m);
}

NOINLINE int32_t argon2_c_encode(const struct request *request, bytes salt, size_t salt_len, bytes tag, size_t tag_len,
    uint8_t *out, size_t out_len) {
    const struct request own = ordered_request(request);
    RETURN(argon2_c_encode, ADDRESS(&own), ADDRESS(salt), salt_len, ADDRESS(tag), tag_len, ADDRESS(out), out_len);
}

/* A length that no size_t can hold becomes the greatest one, which no memory has. */
NOINLINE size_t argon2_c_encoded_length(uint32_t algorithm, uint32_t m_cost, uint32_t t_cost, uint32_t lanes, uint32_t salt,
    uint32_t tag) {
    CALL(argon2_c_encoded_length, algorithm, m_cost, t_cost, lanes, salt, tag);
    return answer < SIZE_MAX ? (size_t)answer : SIZE_MAX;
}

NOINLINE int32_t argon2_c_decode(uint32_t algorithm, bool has_text, bytes text, size_t n, size_t pwd, bool lacks_pwd,
    struct shown *shown, uint8_t *room, size_t size) {
    order_shown(shown);
    CALL(argon2_c_decode, algorithm, has_text, ADDRESS(text), n, pwd, lacks_pwd, ADDRESS(shown), ADDRESS(room), size);
    order_shown(shown);
    return (int32_t)(u32)answer;
}

NOINLINE int32_t argon2_c_begin(const struct request *request, bytes pwd, size_t pwd_len, bytes salt, size_t salt_len,
    bytes secret, size_t secret_len, bytes associated, size_t associated_len, size_t output, block *slice, size_t n) {
    const struct request own = ordered_request(request);
    RETURN(argon2_c_begin, ADDRESS(&own), ADDRESS(pwd), pwd_len, ADDRESS(salt), salt_len, ADDRESS(secret), secret_len,
        ADDRESS(associated), associated_len, output, ADDRESS(slice), n);
}

NOINLINE int32_t argon2_c_segment(const struct request *request, bytes secret, size_t secret_len, bytes associated,
    size_t associated_len, const block *before, size_t before_len, block *segment, size_t n, const block *after,
    size_t after_len, const struct segment_at *at) {
    const struct request own = ordered_request(request);
    const struct segment_at place = ordered_place(at);
    RETURN(argon2_c_segment, ADDRESS(&own), ADDRESS(secret), secret_len, ADDRESS(associated), associated_len,
        ADDRESS(before), before_len, ADDRESS(segment), n, ADDRESS(after), after_len, ADDRESS(&place));
}

NOINLINE int32_t argon2_c_finish(const struct request *request, const block *last, size_t n, uint8_t *out, size_t out_len) {
    const struct request own = ordered_request(request);
    RETURN(argon2_c_finish, ADDRESS(&own), ADDRESS(last), n, ADDRESS(out), out_len);
}

NOINLINE int32_t argon2_c_params_refusal(const struct request *request, const struct phc_lengths *lengths) {
    const struct request own = ordered_request(request);
    const struct phc_lengths own_lengths = ordered_lengths(lengths);
    RETURN(argon2_c_params_refusal, ADDRESS(&own), ADDRESS(&own_lengths));
}

NOINLINE int32_t argon2_c_text_refusal(const struct request *request, const struct phc_lengths *lengths, size_t salt,
    size_t hash, size_t pwd) {
    const struct request own = ordered_request(request);
    const struct phc_lengths own_lengths = ordered_lengths(lengths);
    RETURN(argon2_c_text_refusal, ADDRESS(&own), ADDRESS(&own_lengths), salt, hash, pwd);
}

NOINLINE int32_t argon2_c_tag_refusal(const struct request *request, const struct phc_lengths *lengths, size_t out,
    size_t pwd, size_t salt) {
    const struct request own = ordered_request(request);
    const struct phc_lengths own_lengths = ordered_lengths(lengths);
    RETURN(argon2_c_tag_refusal, ADDRESS(&own), ADDRESS(&own_lengths), out, pwd, salt);
}

NOINLINE int32_t argon2_c_phc_encode(const struct request *request, bytes keyid, size_t keyid_len, bytes associated,
    size_t associated_len, bytes salt, size_t salt_len, bytes hash, size_t hash_len, uint8_t *out, size_t out_len) {
    const struct request own = ordered_request(request);
    RETURN(argon2_c_phc_encode, ADDRESS(&own), ADDRESS(keyid), keyid_len, ADDRESS(associated), associated_len, ADDRESS(salt),
        salt_len, ADDRESS(hash), hash_len, ADDRESS(out), out_len);
}

NOINLINE int32_t argon2_c_phc_show(bytes text, size_t n, struct phc_shown *shown) {
    order_phc_shown(shown);
    CALL(argon2_c_phc_show, ADDRESS(text), n, ADDRESS(shown));
    order_phc_shown(shown);
    return (int32_t)(u32)answer;
}

NOINLINE int32_t argon2_c_phc_renewal(const struct request *request, size_t output, bytes keyid, size_t keyid_len,
    bytes associated, size_t associated_len, bytes text, size_t n) {
    const struct request own = ordered_request(request);
    RETURN(argon2_c_phc_renewal, ADDRESS(&own), output, ADDRESS(keyid), keyid_len, ADDRESS(associated), associated_len,
        ADDRESS(text), n);
}

NOINLINE int32_t argon2_c_phc_admit(const struct phc_bound *bound, bytes text, size_t n, size_t pwd, size_t secret,
    size_t old_secret, struct phc_shown *shown) {
    const struct phc_bound own = ordered_bound(bound);
    order_phc_shown(shown);
    CALL(argon2_c_phc_admit, ADDRESS(&own), ADDRESS(text), n, pwd, secret, old_secret, ADDRESS(shown));
    order_phc_shown(shown);
    return (int32_t)(u32)answer;
}

NOINLINE int32_t argon2_c_phc_wanted_refusal(const struct request *request, const struct phc_lengths *lengths,
    const struct phc_bound *bound, bytes secret, size_t secret_len, bytes verifying, size_t verifying_len) {
    const struct request own = ordered_request(request);
    const struct phc_lengths own_lengths = ordered_lengths(lengths);
    const struct phc_bound own_bound = ordered_bound(bound);
    RETURN(argon2_c_phc_wanted_refusal, ADDRESS(&own), ADDRESS(&own_lengths), ADDRESS(&own_bound), ADDRESS(secret), secret_len,
        ADDRESS(verifying), verifying_len);
}

NOINLINE int32_t argon2_c_phc_is_due(const struct request *request, size_t output, bytes keyid, size_t keyid_len,
    bytes associated, size_t associated_len, bool by_old_secret, bytes text, size_t n) {
    const struct request own = ordered_request(request);
    RETURN(argon2_c_phc_is_due, ADDRESS(&own), output, ADDRESS(keyid), keyid_len, ADDRESS(associated), associated_len,
        by_old_secret, ADDRESS(text), n);
}

/* The caller reads the blocks as words of its own. */
NOINLINE int32_t argon2_c_fill(const struct request *request, bytes pwd, size_t pwd_len, bytes salt, size_t salt_len,
    bytes secret, size_t secret_len, bytes associated, size_t associated_len, block *memory, size_t n) {
    const struct request own = ordered_request(request);
    CALL(argon2_c_fill, ADDRESS(&own), ADDRESS(pwd), pwd_len, ADDRESS(salt), salt_len, ADDRESS(secret), secret_len,
        ADDRESS(associated), associated_len, ADDRESS(memory), n);
    if (answer == 0) order64(memory, n * (sizeof(block) / sizeof(u64)));
    return (int32_t)(u32)answer;
}
