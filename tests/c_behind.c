/* What stands behind the last call: what it left, which right it lacked, and its status by name; and what agents take. Over the policy
   of crates/brokerd/data/sample.toml. */
#include <stdio.h>
#include <stdlib.h>
#include <string.h>

#include "hobbydresser.h"

_Static_assert(sizeof(hd_effect) == 64, "a change's record has 64 bytes");

static int failed;

static void is(int line, const char *what, uint64_t came, uint64_t wanted)
{
    if (came == wanted) return;
    printf("line %d: %s: %llu, not %llu\n", line, what, (unsigned long long)came, (unsigned long long)wanted);
    failed = 1;
}
#define IS(call, wanted) is(__LINE__, #call, (uint64_t)(call), (uint64_t)(wanted))

static const uint64_t BUF = (uint64_t)1 << 32;

/* What is told of the last call in a buffer of 256 bytes. */
static uint8_t buffer[256];
static uint64_t needed, entry;

static hd_status effects(hd_broker *broker, size_t length)
{
    memset(buffer, 7, sizeof buffer);
    needed = entry = 99;
    return hd_effects(broker, buffer, length, &needed, &entry);
}

/* The last call left nothing. */
static void left_nothing(int line, hd_broker *broker)
{
    is(line, "hd_effects", effects(broker, sizeof buffer), HD_OK);
    is(line, "needed", needed, 0);
    is(line, "entry", entry, 0);
    is(line, "the buffer", buffer[0], 7);
}
#define LEFT_NOTHING(broker) left_nothing(__LINE__, broker)

/* The last call left an entry of this number that tells no change. */
static void left_bare(int line, hd_broker *broker, uint64_t number)
{
    is(line, "hd_effects", effects(broker, 0), HD_OK);
    is(line, "needed", needed, 0);
    is(line, "entry", entry, number);
}
#define LEFT_BARE(broker, number) left_bare(__LINE__, broker, number)

static void lacked(int line, hd_broker *broker, uint32_t kind, uint64_t number, uint32_t right)
{
    hd_held lacking = { 9, 9, 9 };
    is(line, "hd_lacking", hd_lacking(broker, &lacking), right ? HD_OK : HD_NO_SUCH);
    is(line, "the kind", lacking.kind, right ? kind : 9);
    is(line, "the number", lacking.number, right ? number : 9);
    is(line, "the right", lacking.rights, right ? right : 9);
}
#define LACKED(broker, kind, number, right) lacked(__LINE__, broker, kind, number, right)
#define LACKED_NOTHING(broker) lacked(__LINE__, broker, 0, 0, 0)

/* Each call that asks for one right is denied, and what it lacked is told until the next call. */
static void denials(hd_broker *broker)
{
    uint8_t bytes[4] = { 0 };
    uint64_t queue, count;
    int64_t value;
    uint32_t word;
    LACKED_NOTHING(broker);
    IS(hd_open_queue(broker, 1, 1, 2, &queue), HD_DENIED);
    LACKED(broker, HD_AGENT, 1, HD_USE);
    LACKED(broker, HD_AGENT, 1, HD_USE);
    LEFT_NOTHING(broker);
    IS(hd_effect_count(broker, &count), HD_OK);
    LACKED(broker, HD_AGENT, 1, HD_USE);
    IS(hd_open_queue(broker, 9, 1, 2, &queue), HD_UNKNOWN_CLIENT);
    LACKED_NOTHING(broker);
    IS(hd_write(broker, 1, BUF + 4, bytes, 4), HD_DENIED);
    LACKED(broker, HD_REGION, 1, HD_WRITE);
    IS(hd_write(broker, 1, BUF, bytes, 0), HD_BAD_SIZE);
    LACKED_NOTHING(broker);
    IS(hd_read(broker, 1, 2 * BUF, bytes, 4), HD_DENIED);
    LACKED(broker, HD_REGION, 2, HD_READ);
    IS(hd_count(broker, HD_AGENT, &count), HD_OK);
    LACKED_NOTHING(broker);
    IS(hd_read(broker, 1, UINT64_MAX, bytes, 4), HD_DENIED);
    LACKED(broker, HD_REGION, UINT32_MAX, HD_READ);
    IS(hd_signal(broker, 1, 2, HD_ADD, 1, 0, &value), HD_DENIED);
    LACKED(broker, HD_SIGNAL, 2, HD_CHANGE);
    IS(hd_load(broker, 1, 1, &value), HD_DENIED);
    LACKED(broker, HD_SIGNAL, 1, HD_WAIT);
    IS(hd_test(broker, 1, UINT64_MAX, HD_EQ, 1, &word), HD_DENIED);
    LACKED(broker, HD_SIGNAL, UINT64_MAX, HD_WAIT);
    IS(hd_test(broker, 1, 1, 4, 1, &word), HD_NO_SUCH);
    LACKED_NOTHING(broker);
    LEFT_NOTHING(broker);
}

/* Calls that leave an entry, and those that leave none behind them. */
static void what_is_left(hd_broker *broker)
{
    static const uint8_t written[5] = { 1, 2, 3, 4, 5 };
    uint8_t bytes[4];
    uint64_t queue, packet, count;
    int64_t value;
    hd_effect effect;
    const uint8_t *at;
    LEFT_NOTHING(broker);
    IS(hd_grant(broker, 1, HD_REGION, 1, HD_READ | HD_WRITE), HD_OK);
    LEFT_BARE(broker, 1);
    IS(hd_write(broker, 1, BUF + 3, written, 5), HD_OK);
    IS(effects(broker, 68), HD_TOO_SHORT);
    IS(needed, 69);
    IS(entry, 2);
    IS(buffer[0], 7);
    IS(effects(broker, 69), HD_OK);
    IS(needed, 69);
    IS(entry, 2);
    IS(buffer[69], 7);
    IS(hd_effect_in(buffer, 0, &effect, &at), 69);
    IS(effect.kind, HD_WROTE);
    IS(effect.address, BUF + 3);
    IS(effect.length, 5);
    IS(effect.signal + effect.queue + effect.packet, 0);
    IS(memcmp(at, written, 5), 0);
    IS(hd_read(broker, 1, BUF, bytes, 4), HD_OK);
    LEFT_NOTHING(broker);
    IS(hd_effect_count(broker, &count), HD_OK);
    IS(count, 1);
    IS(hd_write(broker, 1, BUF + 60, written, 5), HD_DENIED);
    LEFT_NOTHING(broker);
    LACKED(broker, HD_REGION, 1, HD_WRITE);
    IS(hd_grant(broker, 1, HD_SIGNAL, 2, HD_WAIT | HD_CHANGE), HD_OK);
    IS(hd_signal(broker, 1, 2, HD_SUBTRACT, 3, 0, &value), HD_OK);
    IS(effects(broker, sizeof buffer), HD_OK);
    IS(needed, 64);
    IS(entry, 4);
    IS(hd_effect_in(buffer, 0, &effect, &at), 64);
    IS(effect.kind, HD_CHANGED);
    IS(effect.signal, 2);
    IS(effect.before, 1);
    IS(effect.after, -2);
    IS(effect.address + effect.length + effect.queue + effect.packet, 0);
    IS(buffer[64], 7);
    IS(hd_revoke(broker, 1, HD_SIGNAL, 2, HD_WAIT, &queue, &packet), HD_OK);
    LEFT_BARE(broker, 5);
    IS(hd_revoke(broker, 1, 9, 2, HD_WAIT, &queue, &packet), HD_NO_SUCH);
    LEFT_NOTHING(broker);
}

/* A packet that waits for a signal: its pending polls leave nothing, though the entry before them tells changes. */
static void a_packet_waits(hd_broker *broker)
{
    uint8_t packet[64] = { 0x03, 0x14 };
    uint64_t queue, next, signal = 1;
    int64_t value;
    hd_taken taken;
    hd_polled polled;
    hd_effect effect;
    const uint8_t *at;
    memcpy(packet + 8, &signal, 8);
    IS(hd_grant(broker, 1, HD_AGENT, 1, HD_USE), HD_OK);
    IS(hd_grant(broker, 1, HD_SIGNAL, 1, HD_WAIT | HD_CHANGE), HD_OK);
    IS(hd_open_queue(broker, 1, 1, 2, &queue), HD_OK);
    LEFT_BARE(broker, 8);
    IS(hd_take(broker, queue, 1, packet, &taken, &next), HD_OUT_OF_STEP);
    LEFT_NOTHING(broker);
    IS(hd_take(broker, queue, 0, packet, &taken, &next), HD_OK);
    IS(taken.became, HD_LAUNCHED);
    LEFT_BARE(broker, 9);
    IS(hd_signal(broker, 1, 1, HD_STORE, 5, 0, &value), HD_OK);
    IS(hd_poll(broker, queue, 0, &polled), HD_OK);
    IS(polled.became, HD_PENDING);
    LEFT_NOTHING(broker);
    IS(hd_signal(broker, 1, 1, HD_STORE, 0, 0, &value), HD_OK);
    IS(hd_poll(broker, queue, 0, &polled), HD_OK);
    IS(polled.became, HD_READY);
    LEFT_BARE(broker, 12);
    IS(hd_finish(broker, queue, 0), HD_OK);
    IS(effects(broker, sizeof buffer), HD_OK);
    IS(entry, 13);
    IS(needed, 64);
    IS(hd_effect_in(buffer, 0, &effect, &at), 64);
    IS(effect.kind, HD_RELEASED);
    IS(effect.queue, queue);
    IS(effect.packet, 0);
    IS(hd_rotate(broker), HD_OK);
    LEFT_NOTHING(broker);
    IS(hd_stop(broker, queue), HD_OK);
    LEFT_BARE(broker, 14);
    IS(hd_stop(broker, queue), HD_QUEUE_DOWN);
    LEFT_NOTHING(broker);
}

static void agents(const uint8_t *sample, size_t length)
{
    static const char policy[] = "agent = [{ name = \"a\", takes = [\"kernel\"] }, { name = \"b\", takes = [\"agent\"] }, { name = \"c\", takes = [] }]\n";
    hd_broker broker = HD_BROKER;
    hd_fault fault;
    uint32_t takes = 9;
    IS(hd_open(&broker, (const uint8_t *)policy, sizeof policy - 1, 10, &fault), HD_OK);
    IS(hd_agent_takes(&broker, 0, &takes), HD_NO_SUCH);
    IS(hd_agent_takes(&broker, 4, &takes), HD_NO_SUCH);
    IS(takes, 9);
    IS(hd_agent_takes(&broker, 1, &takes), HD_OK);
    IS(takes, HD_TAKES_KERNEL);
    IS(hd_agent_takes(&broker, 2, &takes), HD_OK);
    IS(takes, HD_TAKES_AGENT);
    IS(hd_agent_takes(&broker, 3, &takes), HD_OK);
    IS(takes, 0);
    IS(hd_close(&broker), HD_OK);
    IS(hd_open(&broker, sample, length, 10, &fault), HD_OK);
    IS(hd_agent_takes(&broker, 1, &takes), HD_OK);
    IS(takes, HD_TAKES_KERNEL | HD_TAKES_AGENT);
    IS(hd_close(&broker), HD_OK);
}

#define NAMED(status) { status, #status }

static void statuses(void)
{
    static const struct { hd_status status; const char *name; } rows[] = {
        NAMED(HD_OK), NAMED(HD_OUT_OF_MEMORY), NAMED(HD_UNKNOWN_CLIENT), NAMED(HD_UNKNOWN_QUEUE), NAMED(HD_DENIED), NAMED(HD_BUSY),
        NAMED(HD_NOT_ALLOWED), NAMED(HD_OUT_OF_STEP), NAMED(HD_QUEUE_DOWN), NAMED(HD_NOT_IN_FLIGHT), NAMED(HD_NOT_FINISHED),
        NAMED(HD_AUDIT_FULL), NAMED(HD_BAD_SIZE), NAMED(HD_TOO_MANY), NAMED(HD_UNKNOWN_OBJECT), NAMED(HD_OTHER_OBJECTS), NAMED(HD_NOT_TOML),
        NAMED(HD_MISSING_KEY), NAMED(HD_BAD_VALUE), NAMED(HD_UNKNOWN_NAME), NAMED(HD_DOUBLE_NAME), NAMED(HD_TOO_LONG), NAMED(HD_READ_LEXEME),
        NAMED(HD_READ_SYNTAX), NAMED(HD_READ_PROFILE), NAMED(HD_READ_TOO_LONG), NAMED(HD_CHECK_LABEL), NAMED(HD_CHECK_NAME),
        NAMED(HD_CHECK_REGISTER), NAMED(HD_CHECK_TYPE), NAMED(HD_CHECK_ARGUMENT), NAMED(HD_CHECK_LARGE), NAMED(HD_CHECK_ADDRESS),
        NAMED(HD_CLOSED), NAMED(HD_OPEN_ALREADY), NAMED(HD_NO_ENTRY), NAMED(HD_BAD_PLACES), NAMED(HD_NO_SUCH), NAMED(HD_TOO_SHORT),
    };
    size_t row = 0;
    char name[32];
    uint64_t length;
    for (hd_status status = 0; status < 1000; status++) {
        memset(name, 7, sizeof name);
        length = 99;
        if (row == sizeof rows / sizeof *rows || rows[row].status != status) {
            IS(hd_status_text(status, name, sizeof name, &length), HD_NO_SUCH);
            IS(length, 99);
            IS(name[0], 7);
            continue;
        }
        IS(hd_status_text(status, name, 1, &length), HD_TOO_SHORT);
        IS(length, strlen(rows[row].name));
        IS(hd_status_text(status, name, sizeof name, &length), HD_OK);
        IS(strncmp(name, rows[row].name, length), 0);
        IS(name[length], 7);
        row++;
    }
    IS(row, sizeof rows / sizeof *rows);
    IS(hd_status_text(UINT32_MAX, name, sizeof name, &length), HD_NO_SUCH);
}

int main(int count, char **arguments)
{
    static uint8_t policy[1 << 20];
    hd_broker broker = HD_BROKER;
    hd_fault fault;
    FILE *file = count == 2 ? fopen(arguments[1], "rb") : NULL;
    if (!file) return 2;
    size_t length = fread(policy, 1, sizeof policy, file);
    fclose(file);
    IS(hd_open(&broker, policy, length, 100, &fault), HD_OK);
    denials(&broker);
    what_is_left(&broker);
    a_packet_waits(&broker);
    IS(hd_close(&broker), HD_OK);
    agents(policy, length);
    statuses();
    if (!failed) printf("ok\n");
    return failed;
}
