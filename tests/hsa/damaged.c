/* `damaged ROUNDS FILE..`: each module of BRIG with bytes changed at random, or cut short, is read in memory of its own length. It is built
   with the sanitizers of addresses and of undefined behaviour. */
#include <stdint.h>
#include <stdio.h>
#include <stdlib.h>
#include <string.h>

#include "hsail_of_brig.h"

enum { MOST = 1 << 20 };
static uint64_t state = 88172645463325252u;

static uint64_t next_random(void)
{
    state ^= state << 13;
    state ^= state >> 7;
    state ^= state << 17;
    return state;
}

/* Up to four bytes are changed: a bit of one, or all of it. */
static void damage(char *bytes, size_t size, int changes)
{
    for (; changes && size; changes--) {
        uint64_t random = next_random();
        size_t at = (random >> 8) % size;
        bytes[at] = (char)(random >> 40 & 1 ? random >> 32 : (uint64_t)bytes[at] ^ (uint64_t)1 << (random >> 33 & 7));
    }
}

int main(int count, char **words)
{
    static char bytes[MOST];
    char why[200];
    long read = 0, refused = 0;
    long rounds = count > 1 ? atol(words[1]) : 1;
    for (int file = 2; file < count; file++) {
        FILE *from = fopen(words[file], "rb");
        size_t size = from ? fread(bytes, 1, sizeof bytes, from) : 0;
        if (from) fclose(from);
        for (long round = 0; round < rounds; round++) {
            size_t length = round % 10 == 9 ? (size_t)(next_random() % (size + 1)) : size;
            char *copy = malloc(length ? length : 1);
            if (!copy) return 2;
            memcpy(copy, bytes, length);
            damage(copy, length, (int)(round % 4) + 1);
            char *text = hsail_of_brig(copy, length, why, sizeof why);
            if (text) read++;
            else refused++;
            free(text);
            free(copy);
        }
    }
    printf("%ld read, %ld refused\n", read, refused);
    return 0;
}
