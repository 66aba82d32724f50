/* The test programs of this folder share these counts, and the number of processors that the system reports to them. */
#include <errno.h>
#include <sched.h>
#include <stdbool.h>
#include <stdio.h>
#include <string.h>

static int passed, failed, skipped;

/* Counts a check. `what` says what is checked, and `row` is its row or a number that was found. */
static void check(bool holds, const char *what, long row) {
    if (holds) passed++;
    else failed++, printf("failed: %s (%ld)\n", what, row);
}

/* Prints the counts, and returns the status of the program. */
static int ended(void) {
    printf("%d passed, %d failed", passed, failed);
    if (skipped) printf(", %d skipped", skipped);
    printf("\n");
    return failed != 0 || passed == 0;
}

/* How many processors the system reports. If this is below 0, the call fails. */
static int processors = 4;

int sched_getaffinity(pid_t process, size_t n, cpu_set_t *set) {
    (void)process, memset(set, 0, n);
    for (int i = 0; i < processors; i++) CPU_SET(i, set);
    return processors < 0 ? errno = EPERM, -1 : 0;
}
