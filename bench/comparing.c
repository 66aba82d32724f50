/*
 * Compares libraries that have the functions of argon2.h:
 *
 *   comparing requests COUNT OTHER OURS    hashes random contexts, a third of them with faults
 *   comparing texts COUNT OTHER OURS       writes texts, and verifies them, after half of them were damaged
 *   comparing times ROUNDS LIBRARY..       times hashes at some costs, with one lane and with four
 *   comparing rates ROUNDS LIBRARY..       hashes for a second by one thread, and by four threads at once
 *
 * The first two print the cases in which the libraries differ, and then a line of counts. In `times` and `rates` the libraries
 * take turns. `times` prints lines of memory, passes, lanes, and the least milliseconds of wall time and of processor time of
 * each library. It times the third hash of a process, so that no library gets memory that another library has used. `rates`
 * prints lines of memory, passes, threads, and the most hashes a second of each library. A library of `rates` may be libsodium.
 */
#define _GNU_SOURCE
#include <argon2.h>

#include <dlfcn.h>
#include <pthread.h>
#include <stdio.h>
#include <stdlib.h>
#include <string.h>
#include <sys/resource.h>
#include <sys/wait.h>
#include <time.h>
#include <unistd.h>

enum { MOST = 8, THREADS = 4 };

static struct library {
    int (*ctx)(argon2_context *, argon2_type);
    int (*verify)(const char *, const void *, size_t, argon2_type);
    int (*hash)(uint32_t, uint32_t, uint32_t, const void *, size_t, const void *, size_t, void *, size_t, char *,
        size_t, argon2_type, uint32_t);
    size_t (*encodedlen)(uint32_t, uint32_t, uint32_t, uint32_t, uint32_t, argon2_type);
    int (*crypto_pwhash)(unsigned char *, unsigned long long, const char *, unsigned long long, const unsigned char *,
        unsigned long long, size_t, int);
} tried[MOST];

static void load(struct library *library, const char *path) {
    void *file = dlopen(path, RTLD_NOW | RTLD_LOCAL | RTLD_DEEPBIND);
    if (!file) fprintf(stderr, "comparing: %s\n", dlerror()), exit(2);
    *(void **)&library->ctx = dlsym(file, "argon2_ctx");
    *(void **)&library->verify = dlsym(file, "argon2_verify");
    *(void **)&library->hash = dlsym(file, "argon2_hash");
    *(void **)&library->encodedlen = dlsym(file, "argon2_encodedlen");
    *(void **)&library->crypto_pwhash = dlsym(file, "crypto_pwhash");
}

static uint64_t state = 88172645463325252ull;

/* A random number below a bound. */
static uint32_t below(uint32_t bound) {
    state ^= state << 13, state ^= state >> 7, state ^= state << 17;
    return (uint32_t)(state >> 20) % bound;
}

static void fill(uint8_t *at, size_t n) { while (n--) *at++ = (uint8_t)below(256); }

static size_t lent;
static int take(uint8_t **at, size_t n) { *at = malloc(n), lent += n; return *at ? 0 : -1; }
static void give(uint8_t *at, size_t n) { lent -= n, free(at); }

static int requests(long count) {
    long same = 0, hashed = 0, codes = 0, outputs = 0;
    for (long i = 0; i < count; i++) {
        uint8_t out[2][256], pwd[2][64], secret[2][64], salt[64], ad[32];
        int bad = below(3) == 0, answers[2];
        uint32_t lanes = bad ? below(4) : 1 + below(4);
        argon2_type type = bad ? below(4) : below(3);
        argon2_context contexts[2] = {{
            .outlen = bad ? below(12) : 4 + below(200), .pwdlen = below(65), .salt = salt,
            .saltlen = bad ? below(12) : 8 + below(50), .secretlen = below(65), .ad = ad, .adlen = below(33),
            .t_cost = bad ? below(3) : 1 + below(3), .m_cost = bad ? below(40) : 8 * lanes + below(40),
            .lanes = lanes, .threads = bad ? below(3) : lanes, .version = below(2) ? 0x10 : 0x13, .flags = below(4),
        }};
        fill(pwd[0], 64), fill(secret[0], 64), fill(salt, 64), fill(ad, 32);
        memcpy(pwd[1], pwd[0], 64), memcpy(secret[1], secret[0], 64), memset(out, 7, sizeof out);
        if (below(2)) contexts->allocate_cbk = take, contexts->free_cbk = give;
        if (bad && !below(9)) contexts->free_cbk = NULL;
        if (bad && !below(9)) contexts->allocate_cbk = NULL;
        if (bad && !below(8)) contexts->salt = NULL;
        if (bad && !below(8)) contexts->ad = NULL;
        contexts[1] = contexts[0];
        int no_out = bad && !below(8), no_pwd = bad && !below(8), no_secret = !below(8);
        for (int k = 0; k < 2; k++) {
            contexts[k].out = no_out ? NULL : out[k];
            contexts[k].pwd = no_pwd ? NULL : pwd[k];
            contexts[k].secret = no_secret ? NULL : secret[k];
            if (no_secret && !bad) contexts[k].secretlen = 0;
            answers[k] = tried[k].ctx(&contexts[k], type);
            if (lent) printf("not given back: %zu bytes\n", lent), exit(1);
        }
        if (answers[0] != answers[1]) codes++, printf("codes %d and %d\n", answers[0], answers[1]);
        else if (memcmp(out[0], out[1], 256) || memcmp(pwd[0], pwd[1], 64) || memcmp(secret[0], secret[1], 64)
            || contexts[0].pwdlen != contexts[1].pwdlen) outputs++;
        else same++, hashed += answers[0] == 0;
    }
    printf("%ld requests alike, %ld of them hashed; %ld differ in the code, %ld in what is written\n", same, hashed,
        codes, outputs);
    return codes || outputs;
}

/* Changes a byte of a text, cuts the text off, removes a byte, or inserts a byte. */
static void damage(char *text) {
    static const char marks[] = "$,=amptv0129A/+-";
    size_t n = strlen(text), at = below(n);
    char mark = marks[below(sizeof marks - 1)];
    switch (below(4)) {
        case 0: text[at] = mark; break;
        case 1: text[at] = 0; break;
        case 2: memmove(text + at, text + at + 1, n - at); break;
        default: memmove(text + at + 1, text + at, n - at + 1), text[at] = mark;
    }
}

/* Whether a text asks for more than 100000 blocks or 100 passes. */
static int is_costly(const char *text) {
    const char *m = strstr(text, "m="), *t = strstr(text, "t=");
    return (m && strtoul(m + 2, NULL, 10) > 100000) || (t && strtoul(t + 2, NULL, 10) > 100);
}

static int texts(long count) {
    long same = 0, right = 0, codes = 0, accepted = 0, written = 0;
    for (long i = 0; i < count; i++) {
        char text[2][600], damaged[601];
        uint8_t pwd[16], salt[64], out[2][80];
        argon2_type type = below(3);
        uint32_t lanes = 1 + below(12), saltlen = 8 + below(41), outlen = 4 + below(61), m = 8 * lanes + below(9);
        uint32_t t = 1 + below(2), version = below(2) ? 0x10 : 0x13, room = below(6) ? 600 : 1 + below(200);
        int answers[2];
        fill(pwd, 16), fill(salt, 64), memset(out, 0, sizeof out), memset(text, 1, sizeof text);
        for (int k = 0; k < 2; k++)
            answers[k] = tried[k].hash(t, m, lanes, pwd, 16, salt, saltlen, out[k], outlen, text[k], room, type, version);
        if (answers[0] != answers[1] || (!answers[0] && (strcmp(text[0], text[1]) || memcmp(out[0], out[1], 80)))
            || tried[0].encodedlen(t, m, lanes, saltlen, outlen, type)
            != tried[1].encodedlen(t, m, lanes, saltlen, outlen, type)) written++;
        if (answers[0]) {
            i--;
            continue;
        }
        strcpy(damaged, text[0]);
        if (i % 2) damage(damaged);
        else if (below(2)) pwd[3] ^= 1;
        if (is_costly(damaged)) {
            i--;
            continue;
        }
        for (int k = 0; k < 2; k++) answers[k] = tried[k].verify(damaged, pwd, 16, type);
        if (answers[0] == answers[1]) same++, right += answers[0] == 0;
        else codes++, printf("codes %d and %d: %s\n", answers[0], answers[1], damaged);
        accepted += (answers[0] == 0) != (answers[1] == 0);
    }
    printf("%ld texts alike, %ld of them accepted; %ld differ in the code, %ld in whether they are accepted; "
        "%ld written differently\n", same, right, codes, accepted, written);
    return accepted || written;
}

static double wall(void) {
    struct timespec now;
    clock_gettime(CLOCK_MONOTONIC, &now);
    return now.tv_sec * 1e3 + now.tv_nsec / 1e6;
}

static double processor(void) {
    struct rusage used;
    getrusage(RUSAGE_SELF, &used);
    return (used.ru_utime.tv_sec + used.ru_stime.tv_sec) * 1e3 + (used.ru_utime.tv_usec + used.ru_stime.tv_usec) / 1e3;
}

/* Measures the milliseconds of wall time and of processor time of the third hash of a new process. */
static int measured(const struct library *it, uint32_t m, uint32_t t, uint32_t lanes, double found[2]) {
    int ends[2], status;
    if (pipe(ends)) return 1;
    const pid_t child = fork();
    if (child < 0) return 1;
    if (!child) {
        for (int i = 0; i < 3; i++) {
            uint8_t out[32];
            const double begun = wall(), used = processor();
            if (it->hash(t, m, lanes, "password", 8, "somesaltsomesalt", 16, out, 32, NULL, 0, Argon2_id, 0x13)) _exit(1);
            found[0] = wall() - begun, found[1] = processor() - used;
        }
        _exit(write(ends[1], found, 2 * sizeof *found) < 0);
    }
    close(ends[1]);
    const ssize_t n = read(ends[0], found, 2 * sizeof *found);
    close(ends[0]);
    return waitpid(child, &status, 0) != child || n != 2 * sizeof *found;
}

static int times(long rounds, int count) {
    static const uint32_t costs[][2] = {{4096, 1}, {19456, 2}, {65536, 3}, {1 << 18, 1}, {1 << 20, 1}};
    for (int row = 0; row < 10; row++) {
        const uint32_t m = costs[row / 2][0], t = costs[row / 2][1], lanes = row % 2 ? 4 : 1;
        double least[MOST][2];
        for (int k = 0; k < count; k++) least[k][0] = least[k][1] = 1e9;
        for (long i = 0; i < count * rounds; i++) {
            double found[2];
            if (measured(&tried[i % count], m, t, lanes, found)) return 1;
            for (int j = 0; j < 2; j++)
                if (found[j] < least[i % count][j]) least[i % count][j] = found[j];
        }
        printf("%u %u %u", m, t, lanes);
        for (int k = 0; k < count; k++) printf(" %.1f %.1f", least[k][0], least[k][1]);
        puts("");
        fflush(stdout);
    }
    return 0;
}

static struct work {
    const struct library *library;
    uint32_t m, t;
    double rate;
} works[THREADS];

/* Hashes for a second, and computes the hashes a second. */
static void *hash_on(void *at) {
    static const uint8_t salt[] = "somesaltsomesalt";
    struct work *it = at;
    const struct library *by = it->library;
    const double begun = wall();
    double took;
    uint8_t out[32];
    long made = 0;
    do {
        if (by->crypto_pwhash ? by->crypto_pwhash(out, 32, "password", 8, salt, it->t, (size_t)it->m << 10, 2)
            : by->hash(it->t, it->m, 1, "password", 8, salt, 16, out, 32, NULL, 0, Argon2_id, 0x13))
            fprintf(stderr, "comparing: no hash\n"), exit(1);
        made++, took = wall() - begun;
    } while (took < 1e3);
    it->rate = made * 1e3 / took;
    return NULL;
}

/* Returns the hashes a second of `count` threads that hash at once. */
static double rate(const struct library *library, uint32_t m, uint32_t t, int count) {
    pthread_t threads[THREADS];
    double all = 0;
    for (int i = 0; i < count; i++) {
        works[i] = (struct work){library, m, t, 0};
        if (pthread_create(&threads[i], NULL, hash_on, &works[i])) fprintf(stderr, "comparing: no thread\n"), exit(1);
    }
    for (int i = 0; i < count; i++) pthread_join(threads[i], NULL), all += works[i].rate;
    return all;
}

static int rates(long rounds, int count) {
    static const uint32_t costs[][2] = {{19456, 2}, {65536, 3}};
    for (int row = 0; row < 4; row++) {
        const uint32_t m = costs[row / 2][0], t = costs[row / 2][1];
        const int threads = row % 2 ? THREADS : 1;
        double most[MOST] = {0};
        for (long i = 0; i < count * rounds; i++) {
            const double found = rate(&tried[i % count], m, t, threads);
            if (found > most[i % count]) most[i % count] = found;
        }
        printf("%u %u %d", m, t, threads);
        for (int k = 0; k < count; k++) printf(" %.1f", most[k]);
        puts("");
        fflush(stdout);
    }
    return 0;
}

int main(int argc, char **argv) {
    const long count = argc > 2 ? atol(argv[2]) : 0;
    const int libraries = argc - 3;
    if (libraries < 1 || libraries > MOST) return 2;
    for (int k = 0; k < libraries; k++) load(&tried[k], argv[3 + k]);
    if (!strcmp(argv[1], "times")) return times(count, libraries);
    if (!strcmp(argv[1], "rates")) return rates(count, libraries);
    if (libraries != 2) return 2;
    return strcmp(argv[1], "texts") ? requests(count) : texts(count);
}
