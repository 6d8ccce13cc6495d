/* A module of BRIG becomes a text of HSAIL. */
#ifndef HSAIL_OF_BRIG_H
#define HSAIL_OF_BRIG_H

#include <stddef.h>

/* The text of a module, which is the caller's, or NULL, and `why` tells what isn't in the profile. */
char *hsail_of_brig(const void *module, size_t size, char *why, size_t room);

#endif
