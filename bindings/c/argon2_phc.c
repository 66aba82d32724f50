/*
 * The functions of argon2_phc.h, over the module phc of the crate argon2_c. The crate reads and writes texts, decides what
 * is refused, and verifies. The C reads structures, finds null pointers and overlaps, draws salts, and lends memory.
 */
#include "private.h"

_Static_assert(sizeof(argon2p_shown) == offsetof(argon2p_shown, name_len) + sizeof(struct phc_shown)
    && offsetof(argon2p_shown, data) == offsetof(argon2p_shown, name_len) + offsetof(struct phc_shown, associated),
    "the same layout");
_Static_assert(sizeof(argon2p_block) == sizeof(block), "the same blocks");

/* ---- structures of the caller */

enum { LARGEST = 4096 }; /* size of a structure; a larger number is no size */

/* Returns whether a structure is given that has at least `known` bytes, and only zeros after them. If so, `own` gets these
 * bytes. */
static bool is_read(void *own, size_t known, const void *given) {
    size_t size = 0;
    if (given) memcpy(&size, given, sizeof size);
    if (size < known || size > LARGEST) return false;
    for (size_t i = known; i < size; i++)
        if (((const uint8_t *)given)[i] != 0) return false;
    memcpy(own, given, known);
    return true;
}

static int read_params(argon2p_params *own, const argon2p_params *given) {
    const bool is_known = is_read(own, sizeof *own, given) && own->reserved == 0;
    return is_known && (own->has_output_len || !own->output_len) ? ARGON2P_OK : ARGON2P_STRUCT;
}

static int read_verifier(argon2p_verifier *own, const argon2p_verifier *given) {
    const bool is_known = is_read(own, sizeof *own, given) && own->reserved == 0;
    return is_known && (own->has_old_secret || (!own->old_secret && !own->old_secret_len)) ? ARGON2P_OK : ARGON2P_STRUCT;
}

static bool lacks(const void *at, size_t n) { return !at && n; }

/* Returns the code of the first null pointer in parameters, or ARGON2P_OK. */
static int params_null(const argon2p_params *p) {
    return lacks(p->secret, p->secret_len) ? ARGON2P_SECRET_NULL : lacks(p->data, p->data_len) ? ARGON2P_DATA_NULL
        : lacks(p->keyid, p->keyid_len) ? ARGON2P_KEYID_NULL : ARGON2P_OK;
}

static struct phc_lengths lengths_of(const argon2p_params *p) {
    return (struct phc_lengths){p->keyid_len, p->data_len, p->secret_len, p->output_len, p->has_output_len != 0};
}

/* Returns the number of bytes of the hash in a text with these parameters. */
static size_t hash_length(const argon2p_params *p) {
    return p->has_output_len ? p->output_len : ARGON2P_DEFAULT_OUTPUT;
}

/* Returns parameters, a password and a salt as a context. Its lengths, of 32 bits, are right if nothing is refused. */
static argon2_context context_of(const argon2p_params *p, const void *pwd, size_t pwd_len, const void *salt, size_t salt_len,
    uint8_t *out, size_t out_len) {
    return (argon2_context){
        .out = out, .outlen = (uint32_t)out_len, .pwd = (uint8_t *)pwd, .pwdlen = (uint32_t)pwd_len,
        .salt = (uint8_t *)salt, .saltlen = (uint32_t)salt_len, .secret = (uint8_t *)p->secret,
        .secretlen = (uint32_t)p->secret_len, .ad = (uint8_t *)p->data, .adlen = (uint32_t)p->data_len,
        .t_cost = p->t_cost, .m_cost = p->m_cost, .lanes = p->p_cost,
        .threads = p->threads && p->threads < p->p_cost ? p->threads : p->p_cost, .version = p->version,
    };
}

/* Parameters that were read, and the arguments of the crate's functions that are made of them. */
struct call {
    argon2p_params params;
    argon2_context context;
    struct request request;
    struct phc_lengths lengths;
};

/* Sets the other members of a call. Its parameters were read, and no pointer is missing. */
static void begin_call(struct call *call, const void *pwd, size_t pwd_len, const void *salt, size_t salt_len, uint8_t *out,
    size_t out_len) {
    call->context = context_of(&call->params, pwd, pwd_len, salt, salt_len, out, out_len);
    call->request = requested(&call->context, call->params.algorithm);
    call->lengths = lengths_of(&call->params);
}

/* ---- texts */

/* Writes the text of a hash under a call's parameters into `made`, which has room for any text. */
static int encode(const struct call *call, bytes salt, size_t salt_len, bytes hash, size_t hash_len, uint8_t *made) {
    const argon2p_params *p = &call->params;
    return argon2_c_phc_encode(&call->request, some(p->keyid), p->keyid_len, some(p->data), p->data_len, salt, salt_len, hash,
        hash_len, made, ARGON2P_TEXT_SIZE);
}

/* Returns ARGON2P_OK if the stored hash of a call with a salt of this length fits into `room` bytes. */
static int room_refusal(const struct call *call, size_t salt_len, size_t room) {
    static const uint8_t zeros[ARGON2P_MAX_OUTPUT];
    uint8_t made[ARGON2P_TEXT_SIZE];
    const int answer = encode(call, zeros, salt_len, zeros, hash_length(&call->params), made);
    if (answer != ARGON2P_OK) return answer;
    return strlen((char *)made) < room ? ARGON2P_OK : ARGON2P_ROOM_TOO_SHORT;
}

/* Makes the tag of a call, and writes the stored hash with a zero byte to `text`, which has room for it. */
static int write_hash(struct call *call, char *text) {
    uint8_t tag[ARGON2P_MAX_OUTPUT] = {0}, made[ARGON2P_TEXT_SIZE];
    int answer;
    call->context.out = tag, call->context.outlen = (uint32_t)hash_length(&call->params);
    answer = hash_into(&call->context, call->params.algorithm, tag);
    if (answer == ARGON2P_OK) answer = encode(call, call->context.salt, call->context.saltlen, tag, call->context.outlen, made);
    if (answer == ARGON2P_OK) memcpy(text, made, strlen((char *)made) + 1);
    wipe(tag, sizeof tag), wipe(made, sizeof made);
    return answer;
}

int argon2p_hash(const argon2p_params *params, const void *pwd, size_t pwd_len, const void *salt, size_t salt_len, char *text,
    size_t room) {
    uint8_t drawn[ARGON2P_DRAWN_SALT] = {0};
    const bool draws = !salt && !salt_len;
    struct call call;
    int answer = read_params(&call.params, params);
    if (answer != ARGON2P_OK) return answer;
    if (lacks(pwd, pwd_len)) return ARGON2P_PASSWORD_NULL;
    if (lacks(salt, salt_len)) return ARGON2P_SALT_NULL;
    answer = params_null(&call.params);
    if (answer != ARGON2P_OK) return answer;
    if (!text) return ARGON2P_TEXT_NULL;
    if (draws) salt = drawn, salt_len = sizeof drawn;
    begin_call(&call, pwd, pwd_len, some(salt), salt_len, nothing, 0);
    answer = argon2_c_text_refusal(&call.request, &call.lengths, salt_len, hash_length(&call.params), pwd_len);
    if (answer == ARGON2P_OK) answer = room_refusal(&call, salt_len, room);
    if (answer == ARGON2P_OK && draws && !is_drawn(drawn, sizeof drawn)) answer = ARGON2P_NO_RANDOM;
    if (answer == ARGON2P_OK) answer = write_hash(&call, text);
    wipe_stack();
    return answer;
}

int argon2p_encode(const argon2p_params *params, const void *salt, size_t salt_len, const void *hash, size_t hash_len,
    char *text, size_t room) {
    uint8_t made[ARGON2P_TEXT_SIZE];
    struct call call;
    int answer = read_params(&call.params, params);
    if (answer != ARGON2P_OK) return answer;
    if (lacks(salt, salt_len)) return ARGON2P_SALT_NULL;
    if (lacks(hash, hash_len)) return ARGON2P_OUTPUT_NULL;
    answer = params_null(&call.params);
    if (answer != ARGON2P_OK) return answer;
    if (!text) return ARGON2P_TEXT_NULL;
    begin_call(&call, NULL, 0, NULL, 0, nothing, 0);
    answer = argon2_c_text_refusal(&call.request, &call.lengths, salt_len, hash_len, 0);
    if (answer != ARGON2P_OK) return answer;
    answer = encode(&call, some(salt), salt_len, some(hash), hash_len, made);
    if (answer == ARGON2P_OK && strlen((char *)made) >= room) answer = ARGON2P_ROOM_TOO_SHORT;
    if (answer == ARGON2P_OK) memcpy(text, made, strlen((char *)made) + 1);
    wipe(made, sizeof made);
    wipe_stack();
    return answer;
}

int argon2p_check(const argon2p_params *params) {
    struct call call;
    int answer = read_params(&call.params, params);
    if (answer == ARGON2P_OK) answer = params_null(&call.params);
    if (answer != ARGON2P_OK) return answer;
    begin_call(&call, NULL, 0, NULL, 0, nothing, 0);
    return argon2_c_params_refusal(&call.request, &call.lengths);
}

int argon2p_parse(const char *text, size_t text_len, argon2p_shown *shown) {
    struct phc_shown own = {0};
    size_t size;
    int answer;
    if (!shown) return ARGON2P_STRUCT;
    memcpy(&size, shown, sizeof size);
    if (size < sizeof *shown || size > LARGEST) return ARGON2P_STRUCT;
    if (lacks(text, text_len)) return ARGON2P_TEXT_NULL;
    answer = argon2_c_phc_show(some(text), text_len, &own);
    if (answer != ARGON2P_TEXT_INVALID) {
        memset((uint8_t *)shown + sizeof size, 0, size - sizeof size);
        memcpy((uint8_t *)shown + offsetof(argon2p_shown, name_len), &own, sizeof own);
    }
    wipe(&own, sizeof own);
    wipe_stack();
    return answer;
}

/* Reads the wanted parameters of argon2p_needs_rehash and of argon2p_is_weaker, and returns the code of the first null pointer. */
static int begin_comparing(struct call *call, const argon2p_params *wanted, const char *text, size_t text_len, const int *answer) {
    int code = read_params(&call->params, wanted);
    if (code != ARGON2P_OK) return code;
    call->params.secret = NULL, call->params.secret_len = 0;
    code = params_null(&call->params);
    if (code != ARGON2P_OK) return code;
    if (lacks(text, text_len)) return ARGON2P_TEXT_NULL;
    if (!answer) return ARGON2P_OUTPUT_NULL;
    begin_call(call, NULL, 0, NULL, 0, nothing, 0);
    return argon2_c_params_refusal(&call->request, &call->lengths);
}

int argon2p_needs_rehash(const argon2p_params *wanted, const char *text, size_t text_len, int *answer) {
    struct call call;
    int code = begin_comparing(&call, wanted, text, text_len, answer);
    if (code != ARGON2P_OK) return code;
    code = argon2_c_phc_renewal(&call.request, hash_length(&call.params), some(call.params.keyid), call.params.keyid_len,
        some(call.params.data), call.params.data_len, some(text), text_len);
    wipe_stack();
    if (code < 0) return code;
    *answer = code;
    return ARGON2P_OK;
}

/* Returns 1 if a new hash is due, 0 if it is not, or the code of what is wrong with the stored hash. */
static int is_due(const struct call *call, bool by_old_secret, const char *text, size_t text_len) {
    const argon2p_params *p = &call->params;
    return argon2_c_phc_is_due(&call->request, hash_length(p), some(p->keyid), p->keyid_len, some(p->data), p->data_len,
        by_old_secret, some(text), text_len);
}

int argon2p_is_weaker(const argon2p_params *wanted, const char *text, size_t text_len, int *answer) {
    struct call call;
    int code = begin_comparing(&call, wanted, text, text_len, answer);
    if (code != ARGON2P_OK) return code;
    code = is_due(&call, false, text, text_len);
    wipe_stack();
    if (code < 0) return code;
    *answer = code;
    return ARGON2P_OK;
}

/* ---- verifying */

/* Makes the tag of a context on `memory`, and compares it with the tag of a text. */
static int verify_on(const argon2_context *c, const struct phc_shown *shown, block *memory) {
    int answer = hash_on(c, shown->algorithm, c->out, memory, true);
    if (answer == ARGON2_OK) answer = argon2_c_compare(shown->output, shown->output_len, c->out, c->outlen);
    wipe(c->out, c->outlen);
    return answer;
}

/* Returns ARGON2P_OK if an admitted text accepts a password under a verifier's secret, or under its old secret. Sets `is_old`
 * if the old secret is tried. */
static int verify_admitted(const argon2p_verifier *own, const struct phc_shown *shown, const void *pwd, size_t pwd_len,
    bool *is_old) {
    uint8_t tag[ARGON2P_MAX_OUTPUT];
    argon2_context c = {
        .out = tag, .outlen = shown->output_len, .pwd = some(pwd), .pwdlen = (uint32_t)pwd_len,
        .salt = (uint8_t *)shown->salt, .saltlen = shown->salt_len, .secret = (uint8_t *)own->secret,
        .secretlen = (uint32_t)own->secret_len, .ad = (uint8_t *)shown->associated, .adlen = shown->associated_len,
        .t_cost = shown->t_cost, .m_cost = shown->m_cost, .lanes = shown->p_cost,
        .threads = own->threads && own->threads < shown->p_cost ? own->threads : shown->p_cost, .version = shown->version,
    };
    block *memory = new_blocks(block_count(&c));
    int answer = memory ? verify_on(&c, shown, memory) : ARGON2P_OUT_OF_MEMORY;
    if (answer == ARGON2P_MISMATCH && own->has_old_secret) {
        c.secret = (uint8_t *)own->old_secret, c.secretlen = (uint32_t)own->old_secret_len;
        answer = verify_on(&c, shown, memory);
        *is_old = true;
    }
    if (memory) free_blocks(memory, block_count(&c));
    return answer;
}

/* Returns the code of the first null pointer among the inputs of a call that verifies, or ARGON2P_OK. */
static int verifier_null(const argon2p_verifier *own, const char *text, size_t text_len, const void *pwd, size_t pwd_len) {
    if (lacks(text, text_len)) return ARGON2P_TEXT_NULL;
    if (lacks(pwd, pwd_len)) return ARGON2P_PASSWORD_NULL;
    return lacks(own->secret, own->secret_len) || lacks(own->old_secret, own->old_secret_len) ? ARGON2P_SECRET_NULL : ARGON2P_OK;
}

static struct phc_bound bound_of(const argon2p_verifier *own) {
    return (struct phc_bound){own->m_cost, own->t_cost, own->p_cost, own->min_output, own->max_output};
}

/* Verifies by a verifier that was read. By the law `verifying_within` of argon2_c, all three calls of the crate return 0 if and only
 * if the text is within the bound, accepts the password under the secret of the calls, and neither secret is too long. */
static int verify(const argon2p_verifier *own, const char *text, size_t text_len, const void *pwd, size_t pwd_len, bool *is_old) {
    const struct phc_bound bound = bound_of(own);
    struct phc_shown shown = {0};
    int answer = argon2_c_phc_admit(&bound, some(text), text_len, pwd_len, own->secret_len, own->old_secret_len, &shown);
    if (answer == ARGON2P_OK) answer = verify_admitted(own, &shown, pwd, pwd_len, is_old);
    wipe(&shown, sizeof shown);
    return answer;
}

int argon2p_verify(const argon2p_verifier *verifier, const char *text, size_t text_len, const void *pwd, size_t pwd_len,
    int *by_old_secret) {
    argon2p_verifier own;
    bool is_old = false;
    int answer = read_verifier(&own, verifier);
    if (answer == ARGON2P_OK) answer = verifier_null(&own, text, text_len, pwd, pwd_len);
    if (answer != ARGON2P_OK) return answer;
    answer = verify(&own, text, text_len, pwd, pwd_len, &is_old);
    wipe_stack();
    if (answer == ARGON2P_OK && by_old_secret) *by_old_secret = is_old;
    return answer;
}

/* ---- logging in */

/* Writes a new hash of the password to `fresh`, and returns the outcome of the login. */
static int renew(struct call *wanted, char *fresh) {
    uint8_t drawn[ARGON2P_DRAWN_SALT] = {0};
    if (!is_drawn(drawn, sizeof drawn)) return ARGON2P_KEPT;
    wanted->context.salt = drawn, wanted->context.saltlen = sizeof drawn;
    return write_hash(wanted, fresh) == ARGON2P_OK ? ARGON2P_RENEWED : ARGON2P_KEPT;
}

/* The crate decides by argon2_c_phc_wanted_refusal, by the calls of `verify`, and by argon2_c_phc_is_due. Its law `logging_in`
 * states which login the outcome is. */
int argon2p_log_in(const argon2p_params *wanted, const argon2p_verifier *verifier, const char *text, size_t text_len,
    const void *pwd, size_t pwd_len, char *fresh, size_t room, int *outcome) {
    argon2p_verifier own;
    struct phc_bound bound;
    struct call call;
    bool is_old = false;
    int answer = read_params(&call.params, wanted), due;
    if (answer == ARGON2P_OK) answer = read_verifier(&own, verifier);
    if (answer == ARGON2P_OK) answer = verifier_null(&own, text, text_len, pwd, pwd_len);
    if (answer == ARGON2P_OK) answer = params_null(&call.params);
    if (answer == ARGON2P_OK && (!fresh || !outcome)) answer = ARGON2P_OUTPUT_NULL;
    if (answer != ARGON2P_OK) return answer;
    bound = bound_of(&own);
    begin_call(&call, pwd, pwd_len, NULL, 0, nothing, 0);
    answer = argon2_c_phc_wanted_refusal(&call.request, &call.lengths, &bound, some(call.params.secret), call.params.secret_len,
        some(own.secret), own.secret_len);
    if (answer == ARGON2P_OK) answer = room_refusal(&call, ARGON2P_DRAWN_SALT, room);
    if (answer == ARGON2P_OK) answer = verify(&own, text, text_len, pwd, pwd_len, &is_old);
    if (answer == ARGON2P_OK) {
        due = is_due(&call, is_old, text, text_len);
        *outcome = due ? renew(&call, fresh) : ARGON2P_CURRENT;
    }
    wipe_stack();
    return answer;
}

/* ---- tags, and memory that is filled */

size_t argon2p_block_count(uint32_t m_cost, uint32_t p_cost) {
    const argon2_context c = {.m_cost = m_cost, .lanes = p_cost};
    return p_cost >= ARGON2_MIN_LANES && p_cost <= ARGON2_MAX_LANES ? block_count(&c) : 0;
}

/* Returns why no tag of `out_len` bytes is made, or why the memory is not filled. `is_lent` says whether the caller lent it. */
static int tag_refusal(const struct call *call, size_t out_len, size_t pwd_len, size_t salt_len, bool is_lent, const void *memory,
    size_t blocks) {
    const argon2_context *c = &call->context;
    const int answer = argon2_c_tag_refusal(&call->request, &call->lengths, out_len, pwd_len, salt_len);
    if (answer != ARGON2P_OK) return answer;
    if (is_lent && blocks < block_count(c)) return ARGON2P_BLOCKS_TOO_FEW;
    if (meets_input(c, c->out, c->outlen)) return ARGON2P_OVERLAP;
    if (is_lent && (meets_input(c, memory, block_count(c) * sizeof(block))
        || meet(c->out, c->outlen, memory, block_count(c) * sizeof(block)))) return ARGON2P_OVERLAP;
    return ARGON2P_OK;
}

static bool is_block(const void *at) { return at && (uintptr_t)at % _Alignof(block) == 0; }

/* Returns the code of the first null pointer in the inputs of a tag, or ARGON2P_OK. */
static int inputs_null(const argon2p_params *p, const void *pwd, size_t pwd_len, const void *salt, size_t salt_len) {
    return lacks(pwd, pwd_len) ? ARGON2P_PASSWORD_NULL : lacks(salt, salt_len) ? ARGON2P_SALT_NULL
        : lacks(p->secret, p->secret_len) ? ARGON2P_SECRET_NULL : lacks(p->data, p->data_len) ? ARGON2P_DATA_NULL : ARGON2P_OK;
}

int argon2p_hash_into(const argon2p_params *params, const void *pwd, size_t pwd_len, const void *salt, size_t salt_len, void *out,
    size_t out_len, argon2p_block *memory, size_t blocks) {
    const bool is_lent = memory || blocks;
    struct call call;
    int answer = read_params(&call.params, params);
    if (answer == ARGON2P_OK) answer = inputs_null(&call.params, pwd, pwd_len, salt, salt_len);
    if (answer != ARGON2P_OK) return answer;
    if (!out) return ARGON2P_OUTPUT_NULL;
    if (is_lent && !is_block(memory)) return ARGON2P_BLOCKS_NULL;
    begin_call(&call, pwd, pwd_len, salt, salt_len, out, out_len);
    answer = tag_refusal(&call, out_len, pwd_len, salt_len, is_lent, memory, blocks);
    if (answer != ARGON2P_OK) return answer;
    if (is_lent) {
        answer = argon2_c_hash(&call.request, INPUTS(&call.context), (block *)memory, block_count(&call.context), out, out_len);
        wipe_stack();
    } else {
        answer = hash_into(&call.context, call.params.algorithm, out);
    }
    return answer;
}

int argon2p_fill_memory(const argon2p_params *params, const void *pwd, size_t pwd_len, const void *salt, size_t salt_len,
    argon2p_block *memory, size_t blocks) {
    struct call call;
    int answer = read_params(&call.params, params);
    if (answer == ARGON2P_OK) answer = inputs_null(&call.params, pwd, pwd_len, salt, salt_len);
    if (answer != ARGON2P_OK) return answer;
    if (!is_block(memory)) return ARGON2P_BLOCKS_NULL;
    begin_call(&call, pwd, pwd_len, salt, salt_len, nothing, 0);
    answer = tag_refusal(&call, call.params.has_output_len ? call.params.output_len : ARGON2P_MIN_OUTPUT, pwd_len, salt_len, true,
        memory, blocks);
    if (answer != ARGON2P_OK) return answer;
    answer = argon2_c_fill(&call.request, INPUTS(&call.context), (block *)memory, block_count(&call.context));
    wipe_stack();
    return answer;
}

/* ---- messages */

const char *argon2p_error_message(int code) {
    switch (code) {
    case ARGON2P_OK: return "OK";
    case ARGON2P_OUTPUT_NULL: return "The pointer to the output is NULL";
    case ARGON2P_OUTPUT_TOO_SHORT: return "The output is too short";
    case ARGON2P_OUTPUT_TOO_LONG: return "The output is too long";
    case ARGON2P_PASSWORD_TOO_LONG: return "The password is too long";
    case ARGON2P_SALT_TOO_SHORT: return "The salt is too short";
    case ARGON2P_SALT_TOO_LONG: return "The salt is too long";
    case ARGON2P_DATA_TOO_LONG: return "The associated data is too long";
    case ARGON2P_SECRET_TOO_LONG: return "The secret is too long";
    case ARGON2P_PASSES_TOO_FEW: return "There is no pass";
    case ARGON2P_MEMORY_TOO_LITTLE: return "The memory cost is too small";
    case ARGON2P_LANES_TOO_FEW: return "There is no lane";
    case ARGON2P_LANES_TOO_MANY: return "There are too many lanes";
    case ARGON2P_PASSWORD_NULL: return "The pointer to the password is NULL, but its length is not 0";
    case ARGON2P_SALT_NULL: return "The pointer to the salt is NULL, but its length is not 0";
    case ARGON2P_SECRET_NULL: return "The pointer to a secret is NULL, but its length is not 0";
    case ARGON2P_DATA_NULL: return "The pointer to the associated data is NULL, but its length is not 0";
    case ARGON2P_OUT_OF_MEMORY: return "Out of memory";
    case ARGON2P_MISMATCH: return "The text does not accept the password";
    case ARGON2P_STRUCT: return "A structure is missing, of another size or version, or has a value without its has_ member";
    case ARGON2P_TEXT_NULL: return "The pointer to the text is NULL";
    case ARGON2P_KEYID_NULL: return "The pointer to the key identifier is NULL, but its length is not 0";
    case ARGON2P_BLOCKS_NULL: return "The pointer to the blocks is NULL, or not aligned";
    case ARGON2P_OVERLAP: return "Outputs and inputs overlap";
    case ARGON2P_KEYID_TOO_LONG: return "The key identifier is too long";
    case ARGON2P_ALGORITHM: return "There is no such algorithm";
    case ARGON2P_VERSION: return "There is no such version";
    case ARGON2P_ROOM_TOO_SHORT: return "The text does not fit into its room";
    case ARGON2P_BLOCKS_TOO_FEW: return "Too few blocks were lent";
    case ARGON2P_NO_RANDOM: return "The system gives no random bytes";
    case ARGON2P_WANTED_OUT_OF_BOUND: return "New hashes are outside the verifier's bound";
    case ARGON2P_SECRETS_DIFFER: return "New hashes have another secret than the verifier";
    case ARGON2P_TEXT_INVALID: return "The text is outside the grammar";
    case ARGON2P_TEXT_MEMORY: return "The text's memory cost is not valid";
    case ARGON2P_TEXT_PASSES: return "The text's number of passes is not valid";
    case ARGON2P_TEXT_LANES: return "The text's number of lanes is not valid";
    case ARGON2P_TEXT_KEYID: return "The text's key identifier is not valid";
    case ARGON2P_TEXT_DATA: return "The text's associated data is not valid";
    case ARGON2P_TEXT_PARAMETERS: return "The text's parameters are not those of Argon2";
    case ARGON2P_TEXT_INCOMPLETE: return "The text has no salt or no hash";
    case ARGON2P_ABOVE_BOUND: return "The text asks for more than the bound";
    case ARGON2P_OUTPUT_OUT_OF_BOUND: return "The text's hash is shorter or longer than is allowed";
    default: return "Unknown error code";
    }
}
