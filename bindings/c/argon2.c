/*
 * The functions of argon2.h, over the proved crate argon2_c. The crate decides what is refused, and makes tags and texts. It
 * requests no memory, because the C lends it memory. The C turns null pointers, C strings and contexts into arguments of the crate,
 * requests memory, copies what overlaps, calls the callbacks, wipes memory, and contains the constant texts.
 */
#include "private.h"

#include <stdlib.h>

/* ---- hashing */

/* Whether two ranges have a byte in common. */
bool meet(const void *a, size_t n, const void *b, size_t m) {
    return a && b && n && m && ((uintptr_t)a - (uintptr_t)b < m || (uintptr_t)b - (uintptr_t)a < n);
}

/* Whether a range has a byte in common with an input. */
bool meets_input(const argon2_context *c, const void *at, size_t n) {
    return meet(at, n, c->pwd, c->pwdlen) || meet(at, n, c->salt, c->saltlen)
        || meet(at, n, c->secret, c->secretlen) || meet(at, n, c->ad, c->adlen);
}

struct request requested(const argon2_context *c, argon2_type type) {
    return (struct request){
        .algorithm = type, .version = c->version,
        .m_cost = c->m_cost, .t_cost = c->t_cost, .lanes = c->lanes, .threads = c->threads,
        .lacks_output = !c->out,
        .lacks_pwd = !c->pwd && c->pwdlen, .lacks_salt = !c->salt && c->saltlen,
        .lacks_secret = !c->secret && c->secretlen, .lacks_associated = !c->ad && c->adlen,
        .has_allocate = c->allocate_cbk != NULL, .has_free = c->free_cbk != NULL,
    };
}

static int refusal(const argon2_context *c, argon2_type type) {
    const struct request request = requested(c, type);
    const int answer = argon2_c_refusal(&request, c->outlen, c->pwdlen, c->saltlen, c->secretlen, c->adlen);
    return answer == ARGON2_OK && block_count(c) > MOST_BLOCKS ? ARGON2_MEMORY_ALLOCATION_ERROR : answer;
}

/* Hashes as a context states, on `memory`, into `out`. The context is not refused. `out` has the length in the context, and
 * overlaps neither an input nor the memory. */
int hash_on(const argon2_context *c, argon2_type type, uint8_t *out, block *memory, bool wipes) {
    const struct request request = requested(c, type);
    const uint32_t workers = worker_count(c);
    const size_t n = block_count(c);
    const bool gives_back = wipes && is_given_back(n);
    int answer;
    if (workers > 1) {
        answer = hash_in_threads(c, &request, out, memory, wipes && !gives_back, workers);
        if (gives_back) erase(c, memory, n / (4 * c->lanes)); /* the memory is laid out slice by slice */
    } else {
        answer = argon2_c_hash(&request, INPUTS(c), memory, n, out, c->outlen);
        if (wipes) erase(c, memory, n / c->lanes);
    }
    wipe_stack();
    return answer;
}

/* Does the same on memory from malloc. */
int hash_into(const argon2_context *c, argon2_type type, uint8_t *out) {
    const size_t n = block_count(c);
    block *const memory = new_blocks(n);
    int answer;
    if (!memory) return ARGON2_MEMORY_ALLOCATION_ERROR;
    answer = hash_on(c, type, out, memory, true);
    free_blocks(memory, n);
    return answer;
}

/* Clears an input as a flag asks, and its length in the caller's context. */
static void clear_input(uint8_t *at, uint32_t n, uint32_t *context_length) {
    if (at) explicit_bzero(at, n);
    *context_length = 0;
}

int argon2_ctx(argon2_context *context, argon2_type type) {
    argon2_context c; /* as it is now: a callback may change it */
    uint8_t *given = NULL, *apart = NULL;
    size_t n;
    bool is_lent;
    int answer;
    if (!context) return ARGON2_INCORRECT_PARAMETER;
    c = *context;
    answer = refusal(&c, type);
    if (answer != ARGON2_OK) return answer;
    n = block_count(&c) * sizeof(block);
    if (c.allocate_cbk) {
        (void)c.allocate_cbk(&given, n);
        if (!given) return ARGON2_MEMORY_ALLOCATION_ERROR;
    }
    is_lent = given && (uintptr_t)given % _Alignof(block) == 0 && !meets_input(&c, given, n);
    if (meets_input(&c, c.out, c.outlen) || meet(c.out, c.outlen, given, n)
        || meet(c.out, c.outlen, context, sizeof c)) /* whose lengths a flag clears */
        apart = malloc(c.outlen);
    else apart = c.out;
    if (!apart) answer = ARGON2_MEMORY_ALLOCATION_ERROR;
    else if (is_lent) answer = hash_on(&c, type, apart, (block *)given, false);
    else answer = hash_into(&c, type, apart);
    if (answer == ARGON2_OK && c.flags & ARGON2_FLAG_CLEAR_PASSWORD) clear_input(c.pwd, c.pwdlen, &context->pwdlen);
    if (answer == ARGON2_OK && c.flags & ARGON2_FLAG_CLEAR_SECRET) clear_input(c.secret, c.secretlen, &context->secretlen);
    if (given) wipe(given, n);
    if (answer == ARGON2_OK && apart != c.out) memcpy(c.out, apart, c.outlen);
    if (apart && apart != c.out) wipe_and_free(apart, c.outlen);
    if (given) c.free_cbk(given, n);
    return answer;
}

int argon2_hash(uint32_t t_cost, uint32_t m_cost, uint32_t lanes, const void *pwd, size_t pwdlen, const void *salt,
    size_t saltlen, void *hash, size_t hashlen, char *encoded, size_t encodedlen, argon2_type type, uint32_t version) {
    argon2_context c = {
        .out = nothing /* while it may be refused */, .outlen = (uint32_t)hashlen /* lengths above are refused first */,
        .pwd = (uint8_t *)pwd, .pwdlen = (uint32_t)pwdlen, .salt = (uint8_t *)salt, .saltlen = (uint32_t)saltlen,
        .t_cost = t_cost, .m_cost = m_cost, .lanes = lanes, .threads = lanes, .version = version,
    };
    size_t room = 0; /* for the text, exactly */
    int answer = argon2_c_length_refusal(hashlen, pwdlen, saltlen);
    if (answer == ARGON2_OK) answer = refusal(&c, type);
    if (answer != ARGON2_OK) return answer;
    if (encoded && encodedlen) {
        room = argon2_encodedlen(t_cost, m_cost, lanes, c.saltlen, c.outlen, type);
        if (encodedlen < room) return ARGON2_ENCODING_FAIL;
    }
    c.out = hashlen <= SIZE_MAX - room ? malloc(hashlen + room) : NULL;
    if (!c.out) return ARGON2_MEMORY_ALLOCATION_ERROR;
    answer = hash_into(&c, type, c.out);
    if (answer == ARGON2_OK && room) {
        const struct request request = requested(&c, type);
        answer = argon2_c_encode(&request, salt, saltlen, c.out, hashlen, c.out + hashlen, room);
    }
    if (answer == ARGON2_OK && hash) memcpy(hash, c.out, hashlen);
    if (answer == ARGON2_OK && room) memcpy(encoded, c.out + hashlen, room);
    wipe_and_free(c.out, hashlen + room);
    wipe_stack();
    return answer;
}

size_t argon2_encodedlen(uint32_t t_cost, uint32_t m_cost, uint32_t lanes, uint32_t saltlen, uint32_t hashlen,
    argon2_type type) {
    return argon2_c_encoded_length(type, m_cost, t_cost, lanes, saltlen, hashlen);
}

/* ---- verifying */

/* Returns how many bytes of the room were written: the salt and the tag of a text, and the tag that was made. A text that can't
 * be read may have filled the room. It has written nothing if it lacks the four marks before a salt and a tag. */
static size_t used(const struct shown *shown, int answer, const char *text, size_t n) {
    if (answer != ARGON2_DECODING_FAIL) return shown->salt + 2 * shown->tag;
    for (int marks = 0; text && marks < 4; marks++)
        if ((text = strchr(text, '$'))) text++;
    return text ? 2 * n : 0;
}

/* By the law `verifying` of argon2_c, all three calls of the crate return 0 if and only if neither the call nor the text has a
 * fault, and the hash of the text is the tag of the password. */
int argon2_verify(const char *encoded, const void *pwd, size_t pwdlen, argon2_type type) {
    const size_t n = encoded ? strnlen(encoded, SIZE_MAX / 2) : 0;
    uint8_t *const room = malloc(2 * n); /* for what the text says, and for the tag that is made: two bytes for each of the text */
    struct shown shown = {0};
    int answer = argon2_c_decode(type, encoded != NULL, some(encoded), n, pwdlen, !pwd && pwdlen, &shown, some(room),
        length(room, 2 * n));
    if (answer == ARGON2_OK) {
        const argon2_context c = {
            .out = room + shown.salt + shown.tag, .outlen = (uint32_t)shown.tag, .pwd = (uint8_t *)pwd,
            .pwdlen = (uint32_t)pwdlen, .salt = room, .saltlen = (uint32_t)shown.salt, .t_cost = shown.t_cost,
            .m_cost = shown.m_cost, .lanes = shown.lanes, .threads = shown.lanes, .version = shown.version,
        };
        answer = hash_into(&c, type, c.out);
        if (answer == ARGON2_OK) answer = argon2_c_compare(room + c.saltlen, c.outlen, c.out, c.outlen);
    }
    if (room) wipe_and_free(room, used(&shown, answer, encoded, n));
    wipe_stack();
    return answer;
}

int argon2_verify_ctx(argon2_context *c, const char *hash, argon2_type type) {
    const argon2_context before = c ? *c : (argon2_context){0}; /* a callback may change it */
    int answer;
    if (c && meet(hash, c->outlen, c->out, c->outlen)) { /* the tag of any password would be compared with itself */
        answer = refusal(c, type);
        return answer == ARGON2_OK ? ARGON2_OUT_PTR_MISMATCH : answer;
    }
    answer = argon2_ctx(c, type);
    if (answer != ARGON2_OK) return answer;
    return argon2_c_compare(some(hash), length(hash, before.outlen), before.out, before.outlen);
}

/* ---- the variants */

#define VARIANT(prefix, type) \
    int prefix##_ctx(argon2_context *context) { return argon2_ctx(context, type); } \
    int prefix##_verify_ctx(argon2_context *context, const char *hash) { \
        return argon2_verify_ctx(context, hash, type); \
    } \
    int prefix##_verify(const char *encoded, const void *pwd, size_t pwdlen) { \
        return argon2_verify(encoded, pwd, pwdlen, type); \
    } \
    int prefix##_hash_raw(uint32_t t_cost, uint32_t m_cost, uint32_t lanes, const void *pwd, size_t pwdlen, \
        const void *salt, size_t saltlen, void *hash, size_t hashlen) { \
        return argon2_hash(t_cost, m_cost, lanes, pwd, pwdlen, salt, saltlen, hash, hashlen, NULL, 0, type, \
            ARGON2_VERSION_NUMBER); \
    } \
    int prefix##_hash_encoded(uint32_t t_cost, uint32_t m_cost, uint32_t lanes, const void *pwd, size_t pwdlen, \
        const void *salt, size_t saltlen, size_t hashlen, char *encoded, size_t encodedlen) { \
        return argon2_hash(t_cost, m_cost, lanes, pwd, pwdlen, salt, saltlen, NULL, hashlen, encoded, encodedlen, \
            type, ARGON2_VERSION_NUMBER); \
    }

VARIANT(argon2d, Argon2_d)
VARIANT(argon2i, Argon2_i)
VARIANT(argon2id, Argon2_id)

const char *argon2_type2string(argon2_type type, int uppercase) {
    static const char *const names[][2] = {
        {"argon2d", "Argon2d"}, {"argon2i", "Argon2i"}, {"argon2id", "Argon2id"},
    };
    return (unsigned)type < 3 ? names[type][uppercase != 0] : NULL;
}

const char *argon2_error_message(int code) {
    static const char *const texts[] = {
        "OK", "Output pointer is NULL", "Output is too short", "Output is too long",
        "Password is too short", "Password is too long", "Salt is too short", "Salt is too long",
        "Associated data is too short", "Associated data is too long", "Secret is too short", "Secret is too long",
        "Time cost is too small", "Time cost is too large", "Memory cost is too small", "Memory cost is too large",
        "Too few lanes", "Too many lanes",
        "Password pointer is NULL, but password length is not 0", "Salt pointer is NULL, but salt length is not 0",
        "Secret pointer is NULL, but secret length is not 0", "Associated data pointer is NULL, but ad length is not 0",
        "Memory allocation error", "The free memory callback is NULL", "The allocate memory callback is NULL",
        "Argon2_Context context is NULL",
        "There is no such version of Argon2", "Output pointer mismatch",
        "Not enough threads", "Too many threads", "Missing arguments",
        "Encoding failed", "Decoding failed", "Threading failure",
        "Some of encoded parameters are too long or too short", "The password does not match the supplied hash",
    };
    return code <= 0 && code >= ARGON2_VERIFY_MISMATCH ? texts[-code] : "Unknown error code";
}
