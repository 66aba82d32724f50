/*
 * SPDX-FileCopyrightText: 2026 The maintainers of this repository
 * SPDX-License-Identifier: MIT OR Apache-2.0
 *
 * How each command starts. The command's file contains the program as compiled for one or more levels of x86-64. This start
 * calls the program of the highest level that the processor has. Before the call it forbids core dumps, and sets a umask for
 * argon2-passwd, so that a new file is for its owner only. While the program runs, the start puts large memory into huge pages,
 * and hides what is typed after a question.
 *
 * build/link compiles this file, and defines NAME as the command's name.
 */
#define _GNU_SOURCE
#include <errno.h>
#include <signal.h>
#include <stdbool.h>
#include <stdint.h>
#include <stdlib.h>
#include <string.h>
#include <sys/mman.h>
#include <sys/prctl.h>
#include <sys/resource.h>
#include <sys/stat.h>
#include <sys/uio.h>
#include <termios.h>
#include <unistd.h>

/* The program for each level. The linker leaves NULL for a level that the command lacks. */
typedef int program(int argc, char **argv, char **environment);
extern program main_v2 __attribute__((weak)), main_v3 __attribute__((weak)), main_v4 __attribute__((weak));

/* By --wrap the linker sends the program's calls of malloc, write and writev to the functions __wrap_ below. */
extern void *__real_malloc(size_t bytes);
extern void *__wrap_malloc(size_t bytes);
extern ssize_t __real_write(int file, const void *bytes, size_t count);
extern ssize_t __wrap_write(int file, const void *bytes, size_t count);
extern ssize_t __real_writev(int file, const struct iovec *parts, int count);
extern ssize_t __wrap_writev(int file, const struct iovec *parts, int count);

/* Allocates memory as malloc does. Memory of 2 MiB and more fills whole huge pages if the system has them. A large hash then has
 * few page faults, and each of its blocks begins on a line of the cache. */
void *__wrap_malloc(size_t bytes)
{
    const size_t huge = 2 << 20, whole = (bytes + huge - 1) & -huge;
    void *memory;

    /* (if the rounding overflows, malloc refuses the request) */
    if (bytes < huge || whole < bytes)
        return __real_malloc(bytes);
    memory = aligned_alloc(huge, whole);
    if (memory != NULL)
        madvise(memory, whole, MADV_HUGEPAGE);
    return memory;
}

/* The signals that end, stop or continue a command at a terminal, and what each did before the terminal hid what is typed. */
static const int SIGNALS[] = {SIGHUP, SIGINT, SIGQUIT, SIGTERM, SIGTSTP, SIGCONT};
enum { COUNT = sizeof SIGNALS / sizeof *SIGNALS };
static struct sigaction actions[COUNT];

/* Whether the terminal hides what is typed, and the modes that the terminal had before. */
static volatile sig_atomic_t is_hidden;
static struct termios modes;

/* Makes the terminal hide what is typed. */
static void hide(void)
{
    struct termios hidden = modes;

    hidden.c_lflag &= ~(tcflag_t)(ECHO | ECHONL);
    tcsetattr(STDIN_FILENO, TCSADRAIN, &hidden);
}

/* Whether the terminal is for this command now. While a shell has it in the background, the shell sets the terminal's modes, and a
 * change by this command would stop the command. */
static bool is_in_foreground(void)
{
    pid_t foreground = tcgetpgrp(STDIN_FILENO);

    /* (-1: it is another session's terminal, or none) */
    return foreground == -1 || foreground == getpgrp();
}

/* The terminal shows what is typed before a signal ends or stops the command, and hides it again after a stop. */
static void take_signal(int number)
{
    const struct sigaction usual = {.sa_handler = SIG_DFL};
    struct sigaction own;
    int error = errno;

    if (number != SIGCONT) {
        if (is_in_foreground())
            tcsetattr(STDIN_FILENO, TCSADRAIN, &modes);
        sigaction(number, &usual, &own);
        raise(number);
        sigaction(number, &own, NULL);
    }
    if (is_hidden && is_in_foreground())
        hide();
    errno = error;
}

/* Begins to hide what is typed, if standard input is a terminal. */
static void begin_hiding(void)
{
    /* (SA_NODEFER: the signal that take_signal raises comes at once. A read of the terminal goes on after a stop.) */
    const struct sigaction taking = {.sa_handler = take_signal, .sa_flags = SA_NODEFER | SA_RESTART};
    int i;

    /* (tcdrain stops a command in the background until it is in the foreground; until then the terminal has a shell's modes) */
    if (is_hidden || tcdrain(STDIN_FILENO) != 0 || tcgetattr(STDIN_FILENO, &modes) != 0)
        return;
    is_hidden = true;
    for (i = 0; i < COUNT; i++) {
        sigaction(SIGNALS[i], &taking, &actions[i]);
        /* (a signal that the caller told the command to ignore stays ignored) */
        if (actions[i].sa_handler == SIG_IGN)
            sigaction(SIGNALS[i], &actions[i], NULL);
    }
    hide();
}

/* Makes the terminal show what is typed again. */
static void end_hiding(void)
{
    int i, error = errno;

    if (!is_hidden)
        return;
    /* (first, so that a signal from now on does not hide it again) */
    is_hidden = false;
    tcsetattr(STDIN_FILENO, TCSADRAIN, &modes);
    for (i = 0; i < COUNT; i++)
        sigaction(SIGNALS[i], &actions[i], NULL);
    errno = error;
}

/* Writes the bytes of several parts. A question is text on standard error that does not end its line. The terminal begins to
 * hide what is typed before the question is written, and shows it again after the program has ended the line. */
ssize_t __wrap_writev(int file, const struct iovec *parts, int count)
{
    const char *last = NULL;
    ssize_t written;
    int i;

    for (i = 0; i < count; i++)
        if (parts[i].iov_len > 0)
            last = (const char *)parts[i].iov_base + parts[i].iov_len - 1;
    if (file == STDERR_FILENO && last != NULL && *last != '\n')
        begin_hiding();
    written = __real_writev(file, parts, count);
    if (file == STDERR_FILENO && last != NULL && *last == '\n')
        end_hiding();
    return written;
}

/* Does the same for bytes in one place. */
ssize_t __wrap_write(int file, const void *bytes, size_t count)
{
    const struct iovec part = {(void *)(uintptr_t)bytes, count};

    return file == STDERR_FILENO ? __wrap_writev(file, &part, 1) : __real_write(file, bytes, count);
}

int main(int argc, char **argv, char **environment)
{
    /* A new file with accounts is for its owner only. */
    if (strcmp(NAME, "argon2-passwd") == 0)
        umask(077);
    /* A core dump would contain the password. The kernel does not look at the limit if a program collects core dumps. */
    setrlimit(RLIMIT_CORE, &(struct rlimit){0, 0});
    prctl(PR_SET_DUMPABLE, 0, 0, 0, 0);
    atexit(end_hiding);
    /* (on an older processor, the program of the lowest level says what the processor lacks) */
    if (main_v4 != NULL && (__builtin_cpu_supports("x86-64-v4") || (main_v3 == NULL && main_v2 == NULL)))
        return main_v4(argc, argv, environment);
    if (main_v3 != NULL && (__builtin_cpu_supports("x86-64-v3") || main_v2 == NULL))
        return main_v3(argc, argv, environment);
    return main_v2(argc, argv, environment);
}
