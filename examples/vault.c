/* Encrypts a file under a passphrase by `vault seal FILE VAULT`, and decrypts it by `vault open VAULT FILE`. To compile it:
 *
 *     cc vault.c $(pkg-config --cflags --libs libargon2-proved libsodium) -o vault
 *
 * You type the passphrase, or it is the first line of standard input. Argon2id makes the key from it. libsodium's secretstream
 * encrypts the file in chunks, and marks the last chunk. A vault begins with a header, which is authenticated. The header
 * contains the version, the costs and the salt. */
#include <argon2_phc.h>
#include <errno.h>
#include <signal.h>
#include <sodium.h>
#include <stdio.h>
#include <stdlib.h>
#include <string.h>
#include <termios.h>
#include <unistd.h>

enum { NAME = 7, COSTS = 3, SALT = 16, HEADER = NAME + 1 + 4 * COSTS + SALT, VERSION = 2, CHUNK = 1 << 16, ROOM = 1024 };
enum { KEY = crypto_secretstream_xchacha20poly1305_KEYBYTES, START = crypto_secretstream_xchacha20poly1305_HEADERBYTES };
enum { MORE = crypto_secretstream_xchacha20poly1305_ABYTES, LAST = crypto_secretstream_xchacha20poly1305_TAG_FINAL };
typedef crypto_secretstream_xchacha20poly1305_state state;

/* The memory in KiB, the passes and the lanes of a new vault, and the largest ones for a vault that is opened. Anybody may have
 * written the costs of that vault. */
static const uint32_t costs_of_new[COSTS] = {65536, 3, 4}, most[COSTS] = {1048576, 16, 16};

/* The name of the file beside the target, while this file exists. */
static char beside[4096];

/* Removes the file beside the target, and ends the program with a message. */
static void refuse(const char *path, const char *why)
{
    if (*beside)
        unlink(beside);
    fprintf(stderr, "vault: %s: %s\n", path, why);
    exit(1);
}

static void must(int holds, const char *path)
{
    if (!holds)
        refuse(path, strerror(errno));
}

/* Removes the file beside the target, and ends the program by a signal. */
static void end(int number)
{
    if (*beside)
        unlink(beside);
    signal(number, SIG_DFL);
    raise(number);
}

/* Begins the file beside the target, which only its owner may read. When all is written, the file is renamed to the target. So
 * the target has its old content or the whole new content. */
static FILE *begin(const char *target)
{
    FILE *out;
    int file;

    if (strlen(target) + sizeof ".XXXXXX" > sizeof beside)
        refuse(target, "the name is too long");
    signal(SIGINT, end), signal(SIGTERM, end), signal(SIGHUP, end);
    strcat(strcpy(beside, target), ".XXXXXX");
    file = mkstemp(beside);
    if (file < 0)
        *beside = 0;
    must(file >= 0, target);
    out = fdopen(file, "wb");
    must(out != NULL, target);
    return out;
}

/* Reads the first line of standard input, and returns its length. A terminal does not show what you type. Signals that end or
 * stop the program wait until the settings of the terminal are restored. */
static size_t read_line(const char *question, char *line)
{
    struct termios before, hidden;
    const int is_terminal = tcgetattr(STDIN_FILENO, &before) == 0;
    sigset_t waiting, old;
    size_t length = 0;
    char byte = 0;

    sigemptyset(&waiting);
    sigaddset(&waiting, SIGINT), sigaddset(&waiting, SIGQUIT), sigaddset(&waiting, SIGTSTP);
    sigaddset(&waiting, SIGTERM), sigaddset(&waiting, SIGHUP);
    if (is_terminal) {
        sigprocmask(SIG_BLOCK, &waiting, &old);
        hidden = before;
        hidden.c_lflag &= ~(tcflag_t)ECHO;
        tcsetattr(STDIN_FILENO, TCSAFLUSH, &hidden);
        fputs(question, stderr);
    }
    while (read(STDIN_FILENO, &byte, 1) == 1 && byte != '\n' && length < ROOM)
        line[length++] = byte;
    if (is_terminal) {
        fputc('\n', stderr);
        tcsetattr(STDIN_FILENO, TCSAFLUSH, &before);
        sigprocmask(SIG_SETMASK, &old, NULL);
    }
    if (length == ROOM)
        refuse("standard input", "the passphrase is too long");
    if (length == 0)
        refuse("standard input", "there is no passphrase");
    return length;
}

/* Reads a passphrase, and makes its key. You type a new passphrase twice, because nobody can open the vault if it has a typing
 * error. The salt is new for each vault, so no stored hash of the passphrase has the same bytes. */
static unsigned char *make_key(const char *path, int is_new, const uint32_t costs[COSTS], const unsigned char *salt)
{
    argon2p_params params = ARGON2P_PARAMS_INIT;
    char *line = sodium_malloc(ROOM), *again = sodium_malloc(ROOM);
    unsigned char *key = sodium_malloc(KEY);
    size_t length;
    int code;

    must(line && again && key, path);
    length = read_line("passphrase: ", line);
    if (is_new && isatty(STDIN_FILENO)
        && (read_line("passphrase again: ", again) != length || sodium_memcmp(line, again, length) != 0))
        refuse("standard input", "the passphrases differ");
    params.m_cost = costs[0], params.t_cost = costs[1], params.p_cost = costs[2];
    code = argon2p_hash_into(&params, line, length, salt, SALT, key, KEY, NULL, 0);
    sodium_free(line), sodium_free(again);
    if (code != ARGON2P_OK)
        refuse(path, argon2p_error_message(code));
    return key;
}

/* Writes a vault. */
static FILE *seal(FILE *in, const char *source, const char *target)
{
    static unsigned char chunk[CHUNK], sealed[CHUNK + MORE];
    unsigned char header[HEADER] = "A2VAULT", start[START];
    unsigned char *key;
    FILE *out;
    state it;
    int i;

    header[NAME] = VERSION;
    for (i = 0; i < 4 * COSTS; i++)
        header[NAME + 1 + i] = (unsigned char)(costs_of_new[i / 4] >> (24 - 8 * (i % 4)));
    randombytes_buf(header + HEADER - SALT, SALT);
    key = make_key(source, 1, costs_of_new, header + HEADER - SALT);
    crypto_secretstream_xchacha20poly1305_init_push(&it, start, key);
    sodium_free(key);
    out = begin(target);
    must(fwrite(header, sizeof header, 1, out) == 1 && fwrite(start, sizeof start, 1, out) == 1, target);
    do {
        const size_t length = fread(chunk, 1, CHUNK, in);
        const int is_last = length < CHUNK;

        must(!ferror(in), source);
        crypto_secretstream_xchacha20poly1305_push(&it, sealed, NULL, chunk, length, header, sizeof header,
            (unsigned char)(is_last ? LAST : 0));
        must(fwrite(sealed, length + MORE, 1, out) == 1, target);
    } while (!feof(in));
    return out;
}

/* Writes the content of a vault. If somebody changed the vault, the target does not get this content. */
static FILE *open_vault(FILE *in, const char *source, const char *target)
{
    static unsigned char chunk[CHUNK], sealed[CHUNK + MORE];
    unsigned char header[HEADER], start[START], tag = 0;
    uint32_t costs[COSTS] = {0};
    unsigned char *key;
    FILE *out;
    state it;
    int i;

    if (fread(header, sizeof header, 1, in) != 1 || fread(start, sizeof start, 1, in) != 1
        || memcmp(header, "A2VAULT", NAME) != 0)
        refuse(source, "it is no vault");
    if (header[NAME] != VERSION)
        refuse(source, "it is a vault of another version");
    for (i = 0; i < 4 * COSTS; i++)
        costs[i / 4] = costs[i / 4] << 8 | header[NAME + 1 + i];
    for (i = 0; i < COSTS; i++)
        if (costs[i] > most[i])
            refuse(source, "its memory, passes or lanes are above the bound");
    key = make_key(source, 0, costs, header + HEADER - SALT);
    crypto_secretstream_xchacha20poly1305_init_pull(&it, start, key);
    sodium_free(key);
    out = begin(target);
    while (tag != LAST) {
        unsigned long long length;
        const size_t given = fread(sealed, 1, sizeof sealed, in);

        must(!ferror(in), source);
        if (crypto_secretstream_xchacha20poly1305_pull(&it, chunk, &length, &tag, sealed, given, header, sizeof header) != 0)
            refuse(source, "the passphrase is wrong, or the vault is damaged");
        must(length == 0 || fwrite(chunk, (size_t)length, 1, out) == 1, target);
    }
    return out;
}

int main(int argc, char **argv)
{
    const int is_new = argc == 4 && strcmp(argv[1], "seal") == 0;
    FILE *in, *out;

    if (argc != 4 || (!is_new && strcmp(argv[1], "open") != 0)) {
        fputs("usage: vault seal FILE VAULT, or vault open VAULT FILE\n", stderr);
        return 2;
    }
    if (sodium_init() < 0)
        refuse(argv[2], "libsodium does not start");
    in = fopen(argv[2], "rb");
    must(in != NULL, argv[2]);
    out = (is_new ? seal : open_vault)(in, argv[2], argv[3]);
    must(fflush(out) == 0 && fsync(fileno(out)) == 0 && fclose(out) == 0 && rename(beside, argv[3]) == 0, argv[3]);
    return 0;
}
