/*
 * Prints how many instructions argon2_ctx runs, and a digest of their addresses:
 *
 *   steps TYPE NUMBER
 *
 * TYPE is 0 for Argon2d, 1 for Argon2i and 2 for Argon2id. The password and the secret are made of NUMBER. The call, with 8
 * blocks and two passes, is in a process that runs step by step.
 */
#define _GNU_SOURCE
#include <argon2.h>

#include <signal.h>
#include <stdio.h>
#include <stdlib.h>
#include <sys/ptrace.h>
#include <sys/user.h>
#include <sys/wait.h>
#include <unistd.h>

enum { LENGTH = 16 };

/* (a call gets the same memory each time) */
static uint8_t memory[1 << 14];
static int take(uint8_t **at, size_t n) { *at = memory; return n <= sizeof memory ? 0 : -1; }
static void give(uint8_t *at, size_t n) { (void)at, (void)n; }

/* Hashes, and stops the process before the hash and after it. */
static int hash(argon2_type type, unsigned number) {
    static uint8_t out[32], pwd[LENGTH], secret[LENGTH], salt[LENGTH];
    argon2_context context = {
        .out = out, .outlen = sizeof out, .pwd = pwd, .pwdlen = LENGTH, .salt = salt, .saltlen = LENGTH, .secret = secret,
        .secretlen = LENGTH, .t_cost = 2, .m_cost = 8, .lanes = 1, .threads = 1, .version = ARGON2_VERSION_13,
        .allocate_cbk = take, .free_cbk = give,
    };
    for (int i = 0; i < LENGTH; i++) pwd[i] = (uint8_t)rand_r(&number), secret[i] = (uint8_t)rand_r(&number);
    if (ptrace(PTRACE_TRACEME, 0, NULL, NULL)) return 1;
    raise(SIGSTOP);
    const int answer = argon2_ctx(&context, type);
    raise(SIGSTOP);
    return answer != ARGON2_OK;
}

int main(int argc, char **argv) {
    unsigned long long digest = 14695981039346656037ull;
    long count = 0;
    int status;
    if (argc != 3) return 2;
    const pid_t child = fork();
    if (!child) _exit(hash((argon2_type)atoi(argv[1]), (unsigned)atoi(argv[2])));
    if (child < 0 || waitpid(child, &status, 0) != child) return 1;
    for (;;) {
        struct user_regs_struct registers;
        if (ptrace(PTRACE_SINGLESTEP, child, NULL, NULL) || waitpid(child, &status, 0) != child || !WIFSTOPPED(status)) return 1;
        if (WSTOPSIG(status) != SIGTRAP) break;
        if (ptrace(PTRACE_GETREGS, child, NULL, &registers)) return 1;
        digest = (digest ^ registers.rip) * 1099511628211ull, count++;
    }
    if (ptrace(PTRACE_CONT, child, NULL, NULL) || waitpid(child, &status, 0) != child || !WIFEXITED(status)) return 1;
    printf("%ld instructions, %016llx\n", count, digest);
    return WEXITSTATUS(status);
}
