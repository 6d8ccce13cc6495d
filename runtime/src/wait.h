/* Time, and sleeping on a word of 32 bits, on either side of the seam. */
#ifndef WAIT_H
#define WAIT_H

#include "seam.h"

#define FOR_EVER UINT64_MAX

/* Nanoseconds of the monotonic clock. */
uint64_t monotonic_now(void);
/* Wakes all that sleep on a word. */
void wake_all(_Atomic uint32_t *word);
/* Sleeps while a word is as it was seen, for so long at most. */
void sleep_on(const _Atomic uint32_t *word, uint32_t seen, uint64_t nanoseconds);

/* A short rest between two looks. There is no `pause` instruction in it: a virtual machine may take a loop of them as a reason to run
   another (pause-loop exiting), which takes tens of microseconds. */
static inline void rest(void)
{
    for (volatile int turn = 0; turn < 4; turn++) ;
}

/* Whether a value meets a condition (HD_EQ ..) against another. */
bool meets(int64_t value, uint32_t condition, int64_t against);
/* Waits until a signal's value meets a condition, or for so long; the last value that was seen. A busy wait doesn't sleep. */
int64_t wait_for_value(seam_word word, uint32_t condition, int64_t against, uint64_t nanoseconds, bool busy);

#endif
