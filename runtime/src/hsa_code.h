/* What the files of code share: a code object is a text of HSAIL, or was a module of BRIG, of which the text is made. */
#ifndef HSA_CODE_H
#define HSA_CODE_H

#include "hsa_common.h"

typedef struct code {
    char *text;
    uint32_t count;
    char *entries[SEAM_KERNELS];    /* its kernels' names, with their `&` */
    uint64_t symbols[SEAM_KERNELS]; /* their handles as code symbols */
} code;

typedef struct reader {
    size_t size;
    char bytes[];
} reader;

/* The code object of some bytes. */
hsa_status_t code_of_bytes(const void *bytes, size_t size, code **out);
/* A code object's handle, and those of its symbols. */
hsa_status_t give_code(code *made, hsa_code_object_t *out);
/* The policy's kernels that are a code object's, in its order. What may be launched are the kernels of the policy: a text is one of them
   where they are equal token by token. A policy that was made gets it as a further one. */
hsa_status_t kernels_of_code(const code *of, uint32_t *numbers);
/* Whether a symbol's name is the one that is asked for, with or without its `&`. */
bool is_named(const char *entry, const char *name);

#endif
