#include "wait.h"

#include <limits.h>
#include <linux/futex.h>
#include <sys/syscall.h>
#include <time.h>
#include <unistd.h>

enum { SECOND = 1000000000, LOOKS = 15000 }; /* a wait looks so often before it sleeps */

uint64_t monotonic_now(void)
{
    struct timespec now;
    clock_gettime(CLOCK_MONOTONIC, &now);
    return (uint64_t)now.tv_sec * SECOND + (uint64_t)now.tv_nsec;
}

void wake_all(_Atomic uint32_t *word)
{
    syscall(SYS_futex, word, FUTEX_WAKE, INT_MAX, NULL, NULL, 0);
}

void sleep_on(const _Atomic uint32_t *word, uint32_t seen, uint64_t nanoseconds)
{
    struct timespec most = { .tv_sec = (time_t)(nanoseconds / SECOND), .tv_nsec = (long)(nanoseconds % SECOND) };
    bool for_ever = nanoseconds >= (uint64_t)SECOND << 30;
    syscall(SYS_futex, word, FUTEX_WAIT, seen, for_ever ? NULL : &most, NULL, 0);
}

bool meets(int64_t value, uint32_t condition, int64_t against)
{
    switch (condition) {
    case HD_EQ: return value == against;
    case HD_NE: return value != against;
    case HD_LT: return value < against;
    default: return value >= against;
    }
}

/* Sleeps on the sequence between looks at the value: a change that comes after the look changes the sequence too. */
static int64_t sleep_until(seam_word word, uint32_t condition, int64_t against, uint64_t nanoseconds, bool busy)
{
    uint64_t begin = monotonic_now();
    for (;;) {
        uint32_t seen = atomic_load(word.sequence);
        int64_t value = atomic_load(word.value);
        uint64_t gone = monotonic_now() - begin;
        if (meets(value, condition, against) || gone >= nanoseconds) return value;
        if (busy) rest();
        else sleep_on(word.sequence, seen, nanoseconds - gone);
    }
}

int64_t wait_for_value(seam_word word, uint32_t condition, int64_t against, uint64_t nanoseconds, bool busy)
{
    for (int look = 0; look < LOOKS; look++) {
        int64_t value = atomic_load(word.value);
        if (meets(value, condition, against) || !nanoseconds) return value;
        rest();
    }
    if (busy) return sleep_until(word, condition, against, nanoseconds, true);
    atomic_fetch_add(word.waiters, 1);
    int64_t value = sleep_until(word, condition, against, nanoseconds, false);
    atomic_fetch_sub(word.waiters, 1);
    return value;
}
