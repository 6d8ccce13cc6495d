/* Emptied audits that tests/instructions.py counts, through the calls of hobbydresser.h:

     c_emptied MEBIBYTES TIMES

   Over a region of 64 KB, or so many MiB of regions of 16 MiB each, 4 KB are written by sixteen writes, and the audit is emptied by
   hd_truncate; so often. */
#include <stdio.h>
#include <stdlib.h>
#include <string.h>

#include "hobbydresser.h"

enum { CLIENT = 1, REGION = 1, WRITES = 16, PLACES = 16384 };

static hd_broker broker = HD_BROKER;

static void must(hd_status status, const char *call)
{
    if (status == HD_OK) return;
    fprintf(stderr, "%s: status %u\n", call, (unsigned)status);
    exit(1);
}
#define MUST(call) must((call), #call)

/* A policy with the region of 64 KB, or with regions of 16 MiB each. */
static size_t put_policy(char *policy, size_t room, long mebibytes)
{
    int length = snprintf(policy, room, "[[client]]\nname = \"c\"\n[[region]]\nname = \"r\"\nlength = %d\n", mebibytes ? 16777216 : 65536);
    for (long others = 1; others < mebibytes / 16; others++)
        length += snprintf(policy + length, room - (size_t)length, "[[region]]\nname = \"r%ld\"\nlength = 16777216\n", others);
    length += snprintf(policy + length, room - (size_t)length, "[[allow]]\nclient = \"c\"\nkind = \"region\"\nobject = \"r\"\nrights = [\"READ\", \"WRITE\"]\n");
    return (size_t)length;
}

int main(int count, char **words)
{
    static char policy[1 << 13];
    static uint8_t bytes[256];
    hd_fault fault;
    if (count != 3) return 2;
    size_t length = put_policy(policy, sizeof policy, atol(words[1]));
    MUST(hd_open(&broker, (const uint8_t *)policy, length, PLACES, &fault));
    MUST(hd_grant(&broker, CLIENT, HD_REGION, REGION, HD_READ | HD_WRITE));
    for (long left = atol(words[2]); left > 0; left--) {
        memset(bytes, (int)left, sizeof bytes);
        for (uint64_t write = 0; write < WRITES; write++)
            MUST(hd_write(&broker, CLIENT, ((uint64_t)REGION << 32) + write * sizeof bytes, bytes, sizeof bytes));
        MUST(hd_truncate(&broker));
    }
    return hd_close(&broker) != HD_OK;
}
