/* Each request for memory of a packet's life, from the opening of a broker on, is refused once, in turn: the call that wanted it says so and
   nothing else, and made once more it is answered as ever. Linked with -Wl,--wrap=malloc,--wrap=realloc. */
#include <stdio.h>
#include <stdlib.h>
#include <string.h>

#include "hobbydresser.h"

void *__real_malloc(size_t size);
void *__real_realloc(void *at, size_t size);
void *__wrap_malloc(size_t size);
void *__wrap_realloc(void *at, size_t size);

static long left = -1; /* how many requests are answered before one is refused; none is where this is less than 0 */
static int was_refused;
static int are_all_refused;

static int refuses(void)
{
    if (!are_all_refused && (left < 0 || left-- > 0)) return 0;
    was_refused = 1;
    return 1;
}

void *__wrap_malloc(size_t size) { return refuses() ? NULL : __real_malloc(size); }
void *__wrap_realloc(void *at, size_t size) { return refuses() ? NULL : __real_realloc(at, size); }

/* Makes a call, and once more where memory for it was refused. */
#define MAKE(call)                                                                            \
    do {                                                                                      \
        was_refused = 0;                                                                      \
        hd_status status = (call);                                                            \
        if (status == HD_OUT_OF_MEMORY && was_refused) status = (call);                       \
        if (status != HD_OK) {                                                                \
            printf("refused at %ld, line %d: status %u\n", at, __LINE__, (unsigned)status);   \
            return 1;                                                                         \
        }                                                                                     \
    } while (0)

static uint8_t policy[1 << 20];
static size_t length;
static const hd_digest NO_DIGEST[1];

/* Whether an audit is emptied where every request is refused, and none is made. */
static int is_emptied(hd_broker *broker)
{
    uint64_t before, entries = 1;
    was_refused = 0;
    are_all_refused = 1;
    hd_status status = hd_truncate(broker);
    are_all_refused = 0;
    return status == HD_OK && !was_refused && hd_audit_count(broker, &before, &entries) == HD_OK && entries == 0;
}

/* A kernel's packet is published, run and completed, with the request of this number refused. */
static int life(long at, int *was_told)
{
    static const uint8_t wanted[16] = { 1, 0, 0, 0, 1, 0, 0, 0, 1, 0, 0, 0, 1 };
    uint8_t packet[64] = { 0x02, 0x14, 1, 0, 2, 0, 1, 0, 1, 0, 0, 0, 4, 0, 0, 0, 1, 0, 0, 0, 1 }, read[16];
    hd_broker broker = HD_BROKER;
    hd_fault fault;
    hd_taken taken;
    hd_worked worked;
    hd_held held[8];
    hd_error error;
    hd_chain chain;
    char line[512];
    uint64_t queue, next, count, errors, needed, where = (uint64_t)1 << 32, arguments = (uint64_t)2 << 32, one = 1;
    uint32_t rights, launched;
    int64_t value;
    memcpy(packet + 32, &one, 8);
    memcpy(packet + 40, &arguments, 8);
    memcpy(packet + 56, &one, 8);
    left = at;
    MAKE(hd_open(&broker, policy, length, 100, &fault));
    MAKE(hd_grant(&broker, 1, HD_AGENT, 1, HD_USE));
    MAKE(hd_grant(&broker, 1, HD_REGION, 1, HD_READ | HD_WRITE));
    MAKE(hd_grant(&broker, 1, HD_REGION, 2, HD_READ | HD_WRITE));
    MAKE(hd_grant(&broker, 1, HD_SIGNAL, 1, HD_WAIT | HD_CHANGE));
    MAKE(hd_grant(&broker, 1, HD_KERNEL, 1, HD_LAUNCH));
    MAKE(hd_open_queue(&broker, 1, 1, 16, &queue));
    MAKE(hd_write(&broker, 1, arguments, (const uint8_t *)&where, 8));
    MAKE(hd_take(&broker, queue, 0, packet, &taken, &next));
    launched = taken.became;
    MAKE(hd_run(&broker, queue, 0, &worked));
    MAKE(hd_run(&broker, queue, 0, &worked));
    MAKE(hd_finish(&broker, queue, 0));
    MAKE(hd_read(&broker, 1, where, read, sizeof read));
    MAKE(hd_load(&broker, 1, 1, &value));
    MAKE(hd_list(&broker, 1, held, 8, &count));
    MAKE(hd_rights(&broker, 1, HD_REGION, 2, &rights));
    MAKE(hd_journal_head(&broker, NO_DIGEST, 0, line, sizeof line, &needed, &chain));
    MAKE(hd_journal_line(&broker, line, sizeof line, &needed, &chain));
    MAKE(hd_journal_end(&chain, line, sizeof line, &needed));
    MAKE(hd_audit_line(&broker, 1, line, sizeof line, &needed));
    MAKE(hd_reload(&broker, policy, length, &fault, &queue, &next));
    MAKE(hd_rotate(&broker));
    MAKE(hd_open_queue(&broker, 1, 1, 16, &queue));
    MAKE(hd_take(&broker, queue, 0, packet, &taken, &next));
    MAKE(hd_take(&broker, 1, 1, packet, &taken, &next));
    for (int turn = 0; turn < 2; turn++) {
        MAKE(hd_run(&broker, queue, 0, &worked));
        if (!is_emptied(&broker) || !is_emptied(&broker)) {
            printf("refused at %ld: an emptied audit wants memory\n", at);
            return 1;
        }
    }
    MAKE(hd_finish(&broker, queue, 0));
    packet[0] = 0;
    MAKE(hd_take(&broker, 1, 2, packet, &taken, &next));
    MAKE(hd_errors(&broker, 1, &error, 1, &errors));
    if (hd_close_queue(&broker, 1) != HD_OK) {
        printf("refused at %ld: a close wants memory\n", at);
        return 1;
    }
    *was_told = left < 0;
    left = -1;
    MAKE(hd_close(&broker));
    if (memcmp(read, wanted, 16) != 0 || value != 0 || launched != HD_LAUNCHED || worked.became != HD_RAN || worked.left != 0) {
        printf("refused at %ld: another answer\n", at);
        return 1;
    }
    if (count != 5 || rights != (HD_READ | HD_WRITE) || chain.number != 1 || needed != 26 || memcmp(line, "1 grant alice agent 1 USE\n", 26) != 0 || errors != 1) {
        printf("refused at %ld: another list, line or error\n", at);
        return 1;
    }
    return 0;
}

int main(int count, char **names)
{
    FILE *file = count == 2 ? fopen(names[1], "rb") : NULL;
    if (!file) return 2;
    length = fread(policy, 1, sizeof policy, file);
    fclose(file);
    int was_told = 1;
    long at = 0;
    for (; was_told; at++)
        if (life(at, &was_told)) return 1;
    printf("%ld requests for memory, each refused once\n", at - 1);
    return at > 10 ? 0 : 3;
}
