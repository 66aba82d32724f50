/*
 * SPDX-FileCopyrightText: 2026 The maintainers of this repository
 * SPDX-License-Identifier: MIT OR Apache-2.0
 *
 * What the library needs of a system and of a compiler: erasing that no compiler removes, random bytes, huge pages, and threads.
 * A system is Windows, Linux, or another one with POSIX threads.
 */
#ifndef ARGON2_PORT_H
#define ARGON2_PORT_H

#ifndef _GNU_SOURCE
#define _GNU_SOURCE
#endif
#include <errno.h>
#include <stdbool.h>
#include <stddef.h>
#include <stdint.h>
#include <string.h>

#ifndef __has_attribute
#define __has_attribute(it) 0
#endif

#if defined __GNUC__
#define NOINLINE __attribute__((noinline))
#elif defined _MSC_VER
#define NOINLINE __declspec(noinline)
#else
#define NOINLINE
#endif

/* Tells the processor that a loop waits for another thread. */
static inline void relax(void) {
#if defined __GNUC__ && (defined __x86_64__ || defined __i386__)
    __builtin_ia32_pause();
#elif defined __GNUC__ && defined __aarch64__
    __asm__ volatile("yield");
#endif
}

enum { MOST_THREADS = 1024 };

#ifdef _WIN32

#define WIN32_LEAN_AND_MEAN
#include <windows.h>

enum { MADV_HUGEPAGE, MADV_NOHUGEPAGE };

static inline void explicit_bzero(void *at, size_t n) { SecureZeroMemory(at, n); }

/* This is RtlGenRandom of advapi32. */
BOOLEAN NTAPI SystemFunction036(void *, ULONG);
#ifdef _MSC_VER
#pragma comment(lib, "advapi32")
#endif

static inline bool is_drawn(uint8_t *at, size_t n) { return SystemFunction036(at, (ULONG)n); }

static inline void advise(void *at, size_t n, int advice) { (void)at, (void)n, (void)advice; }
static inline bool give_back(void *at, size_t n) { return (void)at, (void)n, false; }

typedef HANDLE thread;
typedef SRWLOCK mutex;
typedef CONDITION_VARIABLE condition;
#define MUTEX SRWLOCK_INIT
#define CONDITION CONDITION_VARIABLE_INIT
#define WORK static DWORD WINAPI

static inline void lock(mutex *it) { AcquireSRWLockExclusive(it); }
static inline void unlock(mutex *it) { ReleaseSRWLockExclusive(it); }
static inline void sleep_until(condition *changed, mutex *it) { SleepConditionVariableSRW(changed, it, INFINITE, 0); }
static inline void wake_all(condition *changed) { WakeAllConditionVariable(changed); }
static inline void join(thread it) { WaitForSingleObject(it, INFINITE), CloseHandle(it); }

static inline uint32_t processor_count(void) {
    SYSTEM_INFO info;
    GetSystemInfo(&info);
    return info.dwNumberOfProcessors;
}

static inline int hold_cancelling(void) { return 0; }
static inline void restore_cancelling(int before) { (void)before; }

/* Starts up to `n` threads, with room for `stack` bytes beside 1 MiB, and returns how many. */
static inline uint32_t start_all(thread *threads, uint32_t n, DWORD (WINAPI *work)(void *), void *argument, size_t stack) {
    uint32_t started = 0;
    while (started < n && (threads[started] = CreateThread(NULL, (1 << 20) + stack, work, argument,
        STACK_SIZE_PARAM_IS_A_RESERVATION, NULL))) started++;
    return started;
}

#else

#include <pthread.h>
#include <signal.h>
#include <sys/mman.h>
#include <unistd.h>

#ifdef __linux__
#include <sched.h>
#include <sys/random.h>

static inline bool is_drawn(uint8_t *at, size_t n) {
    const int error = errno;
    ssize_t got;
    do got = getrandom(at, n, 0);
    while (got < 0 && errno == EINTR);
    errno = error;
    return got == (ssize_t)n;
}

/* Returns 0 if a filter of system calls reports success and writes nothing. */
static inline uint32_t processor_count(void) {
    const int error = errno;
    cpu_set_t set;
    const bool is_known = sched_getaffinity(0, sizeof set, &set) == 0;
    errno = error;
    return is_known ? (uint32_t)CPU_COUNT(&set) : MOST_THREADS;
}

#else

#ifdef __APPLE__
#include <sys/random.h>
#endif

static inline bool is_drawn(uint8_t *at, size_t n) {
    const int error = errno, answer = getentropy(at, n);
    errno = error;
    return answer == 0;
}

static inline uint32_t processor_count(void) {
    const int error = errno;
    const long n = sysconf(_SC_NPROCESSORS_ONLN);
    errno = error;
    return n > 0 ? (uint32_t)n : 1;
}

#endif

#if defined __APPLE__ || defined __NetBSD__
static void *(*const volatile set_bytes)(void *, int, size_t) = memset;
static inline void explicit_bzero(void *at, size_t n) { set_bytes(at, 0, n); }
#endif

#ifdef MADV_HUGEPAGE
static inline void advise(void *at, size_t n, int advice) {
    const int error = errno;
    (void)madvise(at, n, advice);
    errno = error;
}
#else
enum { MADV_HUGEPAGE, MADV_NOHUGEPAGE };
static inline void advise(void *at, size_t n, int advice) { (void)at, (void)n, (void)advice; }
#endif

/* Gives pages back to the system, which clears them before a program gets them. Returns false if they stay as they are. A system
 * other than Linux may leave their bytes in them. */
static inline bool give_back(void *at, size_t n) {
#ifdef __linux__
    return madvise(at, n, MADV_DONTNEED) == 0;
#else
    return (void)at, (void)n, false;
#endif
}

typedef pthread_t thread;
typedef pthread_mutex_t mutex;
typedef pthread_cond_t condition;
#define MUTEX PTHREAD_MUTEX_INITIALIZER
#define CONDITION PTHREAD_COND_INITIALIZER
#define WORK static void *

static inline void lock(mutex *it) { pthread_mutex_lock(it); }
static inline void unlock(mutex *it) { pthread_mutex_unlock(it); }
static inline void sleep_until(condition *changed, mutex *it) { pthread_cond_wait(changed, it); }
static inline void wake_all(condition *changed) { pthread_cond_broadcast(changed); }
static inline void join(thread it) { pthread_join(it, NULL); }

static inline int hold_cancelling(void) {
    int before = 0;
#ifdef PTHREAD_CANCEL_DISABLE
    pthread_setcancelstate(PTHREAD_CANCEL_DISABLE, &before);
#endif
    return before;
}

static inline void restore_cancelling(int before) {
#ifdef PTHREAD_CANCEL_DISABLE
    pthread_setcancelstate(before, NULL);
#endif
    (void)before;
}

/* Starts up to `n` threads, with room for `stack` bytes beside the default size, and returns how many. They accept no signals
 * except the signals of their own faults. */
static inline uint32_t start_all(thread *threads, uint32_t n, void *(*work)(void *), void *argument, size_t stack) {
    static const int faults[] = {SIGSEGV, SIGBUS, SIGILL, SIGFPE, SIGTRAP, SIGSYS};
    const int error = errno;
    uint32_t started = 0;
    pthread_attr_t attributes;
    size_t size = 0;
    sigset_t blocked, before;
    if (pthread_attr_init(&attributes) != 0) return 0;
    pthread_attr_getstacksize(&attributes, &size);
    pthread_attr_setstacksize(&attributes, size + stack);
    sigfillset(&blocked);
    for (size_t i = 0; i < sizeof faults / sizeof *faults; i++) sigdelset(&blocked, faults[i]);
    pthread_sigmask(SIG_BLOCK, &blocked, &before);
    while (started < n && pthread_create(&threads[started], &attributes, work, argument) == 0) started++;
    pthread_sigmask(SIG_SETMASK, &before, NULL);
    pthread_attr_destroy(&attributes);
    errno = error;
    return started;
}

#endif

#endif
