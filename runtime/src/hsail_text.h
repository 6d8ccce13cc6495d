/* Texts of HSAIL, by their tokens. */
#ifndef HSAIL_TEXT_H
#define HSAIL_TEXT_H

#include <stdbool.h>
#include <stddef.h>
#include <stdint.h>

/* Whether two texts have the same tokens: blanks and comments don't count. */
bool same_text(const char *text, const char *other);
/* The names of the kernels that a text defines, with their `&`, each the caller's: how many, at most `most`, or -1 without memory. */
int kernels_of_text(const char *text, char **entries, uint32_t most);

#endif
