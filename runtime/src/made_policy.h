/* The policy of a program that was given none: one client that may do all on one agent, with as much as a policy can have, and the
   kernels that the program has loaded so far. */
#ifndef MADE_POLICY_H
#define MADE_POLICY_H

#include "seam.h"

typedef struct made_kernel {
    char *text, *entry;
} made_kernel;

/* The text of the policy, which is the caller's, or NULL where there is no memory. Signal n begins with signals[n]. */
char *make_policy(const int64_t *signals, const made_kernel *kernels, uint32_t count, size_t *length);

#endif
