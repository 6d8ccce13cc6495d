/* What the header says of handles that aren't open, of numbers for which nothing stands, of short buffers, and of refusals: the status,
   and that all is as before. Over the policy of crates/brokerd/data/sample.toml. */
#include <stdio.h>
#include <stdlib.h>
#include <string.h>

#include "hobbydresser.h"

static int failed;

static void is(int line, const char *what, uint64_t came, uint64_t wanted)
{
    if (came == wanted) return;
    printf("line %d: %s: %llu, not %llu\n", line, what, (unsigned long long)came, (unsigned long long)wanted);
    failed = 1;
}
#define IS(call, wanted) is(__LINE__, #call, (uint64_t)(call), (uint64_t)(wanted))

/* A buffer before and after a call that leaves it alone. */
static const uint8_t before[64] = { 7, 7, 7, 7, 7, 7, 7, 7 };

/* Every call of a handle that isn't open. */
static void all_closed(hd_broker *broker)
{
    uint8_t bytes[64];
    uint64_t one = 41, two = 42;
    int64_t value = 43;
    hd_taken taken;
    hd_worked worked;
    hd_polled polled;
    hd_effect effect;
    hd_held held;
    hd_error error;
    hd_layout layout;
    hd_chain chain;
    hd_fault fault = { 9, 9, 9, 9, 9 };
    uint32_t word = 44;
    memcpy(bytes, before, 64);
    memset(&held, 7, sizeof held);
    memset(&error, 7, sizeof error);
    memset(&layout, 7, sizeof layout);
    memset(&chain, 7, sizeof chain);
    memset(&taken, 7, sizeof taken);
    memset(&worked, 7, sizeof worked);
    memset(&polled, 7, sizeof polled);
    memset(&effect, 7, sizeof effect);
    IS(hd_count(broker, HD_AGENT, &one), HD_CLOSED);
    IS(hd_number(broker, HD_CLIENT, "alice", 5, &one), HD_CLOSED);
    IS(hd_name(broker, HD_CLIENT, 1, (char *)bytes, 64, &one), HD_CLOSED);
    IS(hd_region_length(broker, 1, &one), HD_CLOSED);
    IS(hd_grant(broker, 1, HD_AGENT, 1, HD_USE), HD_CLOSED);
    IS(hd_revoke(broker, 1, HD_AGENT, 1, HD_USE, &one, &two), HD_CLOSED);
    IS(hd_open_queue(broker, 1, 1, 2, &one), HD_CLOSED);
    IS(hd_stop(broker, 1), HD_CLOSED);
    IS(hd_close_queue(broker, 1), HD_CLOSED);
    IS(hd_take(broker, 1, 0, before, &taken, &one), HD_CLOSED);
    IS(hd_run(broker, 1, 0, &worked), HD_CLOSED);
    IS(hd_poll(broker, 1, 0, &polled), HD_CLOSED);
    IS(hd_finish(broker, 1, 0), HD_CLOSED);
    IS(hd_write(broker, 1, (uint64_t)1 << 32, before, 4), HD_CLOSED);
    IS(hd_read(broker, 1, (uint64_t)1 << 32, bytes, 4), HD_CLOSED);
    IS(hd_signal(broker, 1, 1, HD_STORE, 5, 0, &value), HD_CLOSED);
    IS(hd_load(broker, 1, 1, &value), HD_CLOSED);
    IS(hd_effect_count(broker, &one), HD_CLOSED);
    IS(hd_effect_at(broker, 0, &effect), HD_CLOSED);
    IS(hd_effect_bytes(broker, 0, bytes, 64, &one), HD_CLOSED);
    IS(hd_effects(broker, bytes, 64, &one, &two), HD_CLOSED);
    IS(hd_lacking(broker, &held), HD_CLOSED);
    IS(hd_agent_takes(broker, 1, &word), HD_CLOSED);
    IS(hd_kernel_layout(broker, 1, &layout), HD_CLOSED);
    IS(hd_kernel_text(broker, 1, (char *)bytes, 64, &one), HD_CLOSED);
    IS(hd_kernel_entry(broker, 1, (char *)bytes, 64, &one), HD_CLOSED);
    IS(hd_rights(broker, 1, HD_AGENT, 1, &word), HD_CLOSED);
    IS(hd_list(broker, 1, &held, 1, &one), HD_CLOSED);
    IS(hd_reload(broker, before, 4, &fault, &one, &two), HD_CLOSED);
    IS(hd_errors(broker, 1, &error, 1, &one), HD_CLOSED);
    IS(hd_test(broker, 1, 1, HD_EQ, 1, &word), HD_CLOSED);
    IS(hd_audit_count(broker, &one, &two), HD_CLOSED);
    IS(hd_audit_line(broker, 1, (char *)bytes, 64, &one), HD_CLOSED);
    IS(hd_rotate(broker), HD_CLOSED);
    IS(hd_truncate(broker), HD_CLOSED);
    IS(hd_journal_head(broker, (const hd_digest *)before, 1, (char *)bytes, 64, &one, &chain), HD_CLOSED);
    IS(hd_journal_line(broker, (char *)bytes, 64, &one, &chain), HD_CLOSED);
    IS(hd_close(broker), HD_CLOSED);
    IS(word, 44);
    IS(fault.section, 9);
    IS(held.kind, 0x07070707);
    IS(error.rule, 0x07070707);
    IS(layout.kernarg, 0x07070707);
    IS(chain.number, 0x0707070707070707);
    IS(memcmp(bytes, before, 64), 0);
    IS(one, 41);
    IS(two, 42);
    IS(value, 43);
    IS(taken.became, 0x07070707);
    IS(worked.became, 0x07070707);
    IS(polled.became, 0x07070707);
    IS(effect.kind, 0x07070707);
}

static void openings(const uint8_t *policy, size_t length)
{
    static const char unknown[] = "[[client]]\nname = \"a\"\n[[allow]]\nclient = \"b\"\nkind = \"agent\"\nobject = \"*\"\nrights = [\"USE\"]\n";
    static const char text[] = "[[kernel]]\nname = \"k\"\nentry = \"&k\"\ntext = '''\nmodule ?'''\n";
    static const char none[] = "[[kernel]]\nname = \"k\"\nentry = \"&other\"\ntext = '''\nmodule &m:1:0:$base:$large:$default;\nprog kernel &k()\n{\n  ret;\n};\n'''\n";
    hd_broker broker = HD_BROKER;
    hd_fault fault = { 9, 9, 9, 9, 9 };
    IS(hd_open(&broker, policy, length, 0, &fault), HD_BAD_PLACES);
    IS(hd_open(&broker, policy, length, 1048577, &fault), HD_BAD_PLACES);
    IS(fault.section, 9);
    IS(hd_open(&broker, (const uint8_t *)"\"", 1, 10, &fault), HD_NOT_TOML);
    IS(fault.section + fault.row + fault.kernel + fault.line + fault.column, 0);
    IS(hd_open(&broker, (const uint8_t *)unknown, sizeof unknown - 1, 10, &fault), HD_UNKNOWN_NAME);
    IS(fault.section, 6);
    IS(fault.row, 1);
    IS(hd_open(&broker, (const uint8_t *)text, sizeof text - 1, 10, &fault), HD_READ_LEXEME);
    IS(fault.kernel, 1);
    IS(fault.line, 1);
    IS(fault.column, 8);
    IS(hd_open(&broker, (const uint8_t *)none, sizeof none - 1, 10, &fault), HD_NO_ENTRY);
    IS(fault.kernel, 1);
    IS(fault.line, 0);
    all_closed(&broker);
}

static void numbers_and_buffers(hd_broker *broker)
{
    uint8_t bytes[64];
    uint64_t one = 41, two = 42;
    int64_t value = 43;
    hd_effect effect;
    memcpy(bytes, before, 64);
    IS(hd_count(broker, 5, &one), HD_NO_SUCH);
    IS(hd_number(broker, 5, "a", 1, &one), HD_NO_SUCH);
    IS(hd_name(broker, HD_CLIENT, 0, (char *)bytes, 64, &one), HD_NO_SUCH);
    IS(hd_name(broker, HD_CLIENT, 3, (char *)bytes, 64, &one), HD_NO_SUCH);
    IS(hd_region_length(broker, 3, &one), HD_NO_SUCH);
    IS(hd_grant(broker, 1, HD_CLIENT, 1, HD_USE), HD_NO_SUCH);
    IS(hd_grant(broker, 1, HD_AGENT, 1, 64), HD_NO_SUCH);
    IS(hd_revoke(broker, 1, 4, 1, HD_USE, &one, &two), HD_NO_SUCH);
    IS(hd_signal(broker, 1, 1, 8, 0, 0, &value), HD_NO_SUCH);
    IS(hd_effect_at(broker, 0, &effect), HD_NO_SUCH);
    IS(hd_effect_bytes(broker, 0, bytes, 64, &one), HD_NO_SUCH);
    IS(one, 41);
    IS(two, 42);
    IS(value, 43);
    IS(hd_name(broker, HD_CLIENT, 1, (char *)bytes, 4, &one), HD_TOO_SHORT);
    IS(one, 5);
    IS(memcmp(bytes, before, 64), 0);
    IS(hd_name(broker, HD_CLIENT, 1, (char *)bytes, 64, &one), HD_OK);
    IS(memcmp(bytes, "alice\7\7\7", 8), 0);
    IS(hd_count(broker, HD_CLIENT, &one), HD_OK);
    IS(one, 2);
    IS(hd_number(broker, HD_CLIENT, "carol", 5, &one), HD_OK);
    IS(one, 0);
    IS(hd_region_length(broker, 1, &one), HD_OK);
    IS(one, 64);
}

/* What a kernel's text is, how it is laid out, and that there is no such kernel. */
static void kernels(hd_broker *broker)
{
    char text[1024];
    uint64_t needed = 41;
    hd_layout layout = { 7, 7 };
    memset(text, 7, sizeof text);
    IS(hd_kernel_layout(broker, 0, &layout), HD_NO_SUCH);
    IS(hd_kernel_layout(broker, 3, &layout), HD_NO_SUCH);
    IS(hd_kernel_text(broker, 3, text, sizeof text, &needed), HD_NO_SUCH);
    IS(hd_kernel_entry(broker, 0, text, sizeof text, &needed), HD_NO_SUCH);
    IS(needed, 41);
    IS(layout.kernarg, 7);
    IS(hd_kernel_layout(broker, 1, &layout), HD_OK);
    IS(layout.kernarg, 8);
    IS(layout.group, 0);
    IS(hd_kernel_layout(broker, 2, &layout), HD_OK);
    IS(layout.kernarg, 0);
    IS(hd_kernel_entry(broker, 2, text, 4, &needed), HD_TOO_SHORT);
    IS(needed, 5);
    IS(text[0], 7);
    IS(hd_kernel_entry(broker, 2, text, 5, &needed), HD_OK);
    IS(memcmp(text, "&spin\7", 6), 0);
    IS(hd_kernel_text(broker, 2, text, sizeof text, &needed), HD_OK);
    IS(memcmp(text, "module &m:1:0:$base:$large:$default;\nprog kernel &spin()", 55), 0);
}

/* The rights of a client, of one that has none, and of none. */
static void listings(hd_broker *broker)
{
    hd_held held[4];
    uint64_t count = 41;
    uint32_t word = 44;
    memset(held, 7, sizeof held);
    IS(hd_list(broker, 9, held, 4, &count), HD_UNKNOWN_CLIENT);
    IS(hd_rights(broker, 9, HD_AGENT, 1, &word), HD_UNKNOWN_CLIENT);
    IS(hd_rights(broker, 1, HD_CLIENT, 1, &word), HD_NO_SUCH);
    IS(count, 41);
    IS(word, 44);
    IS(hd_list(broker, 2, held, 0, &count), HD_OK);
    IS(count, 0);
    IS(hd_list(broker, 1, held, 1, &count), HD_TOO_SHORT);
    IS(count, 2);
    IS(held[0].kind, 0x07070707);
    IS(hd_list(broker, 1, held, 4, &count), HD_OK);
    IS(held[0].kind * 100 + held[0].number * 10 + held[0].rights, HD_AGENT * 100 + 10 + HD_USE);
    IS(held[1].kind * 100 + held[1].number * 10 + held[1].rights, HD_REGION * 100 + 10 + HD_READ + HD_WRITE);
    IS(held[2].kind, 0x07070707);
    IS(hd_rights(broker, 1, HD_REGION, 1, &word), HD_OK);
    IS(word, HD_READ | HD_WRITE);
    IS(hd_rights(broker, 1, HD_REGION, 7, &word), HD_OK);
    IS(word, 0);
}

/* The audit's lines, the journal, and what is there after a rotation. */
static void audits(hd_broker *broker)
{
    static const char first[] = "1 grant alice agent 1 USE\n";
    char line[256];
    uint64_t before_them = 41, count = 42, needed = 43, none = 0;
    hd_chain chain, at;
    hd_digest digest;
    memset(line, 7, sizeof line);
    memset(&chain, 7, sizeof chain);
    IS(hd_audit_count(broker, &before_them, &count), HD_OK);
    IS(before_them, 0);
    IS(hd_audit_line(broker, 0, line, sizeof line, &needed), HD_NO_SUCH);
    IS(hd_audit_line(broker, count + 1, line, sizeof line, &needed), HD_NO_SUCH);
    IS(hd_audit_line(broker, UINT64_MAX, line, sizeof line, &needed), HD_NO_SUCH);
    IS(needed, 43);
    IS(hd_audit_line(broker, 1, line, sizeof first - 2, &needed), HD_TOO_SHORT);
    IS(needed, sizeof first - 1);
    IS(line[0], 7);
    IS(hd_audit_line(broker, 1, line, sizeof line, &needed), HD_OK);
    IS(memcmp(line, first, sizeof first - 1), 0);
    IS(line[sizeof first - 1], 7);
    IS(hd_journal_line(broker, line, sizeof line, &needed, &chain), HD_NO_SUCH);
    chain.number = UINT64_MAX;
    IS(hd_journal_line(broker, line, sizeof line, &needed, &chain), HD_NO_SUCH);
    IS(chain.number, UINT64_MAX);
    IS(hd_digest_of((const uint8_t *)"abc", 3, &digest), HD_OK);
    IS(memcmp(digest.bytes, "\xba\x78\x16\xbf\x8f\x01\xcf\xea", 8), 0); /* FIPS 180-4's own example */
    IS(hd_journal_head(broker, &digest, 1, line, 9, &needed, &chain), HD_TOO_SHORT);
    IS(chain.number, UINT64_MAX);
    IS(needed, 18 + 3 * 65);
    IS(hd_journal_head(broker, &digest, 1, line, needed - 1, &needed, &chain), HD_TOO_SHORT);
    IS(hd_journal_head(broker, &digest, 1, line, needed, &needed, &chain), HD_OK);
    IS(chain.number, 0);
    IS(memcmp(line, "journal 1 100 0 2 ", 18), 0);
    IS(memcmp(line + 18 + 65, "ba7816bf8f01cfea", 16), 0);
    IS(line[18 + 3 * 65 - 1], '\n');
    at = chain;
    IS(hd_journal_line(broker, line, 9, &needed, &chain), HD_TOO_SHORT);
    IS(memcmp(&at, &chain, sizeof at), 0);
    IS(hd_journal_line(broker, line, sizeof line, &needed, &chain), HD_OK);
    IS(chain.number, 1);
    IS(hd_journal_end(&chain, line, 9, &needed), HD_TOO_SHORT);
    IS(hd_journal_end(&chain, line, sizeof line, &needed), HD_OK);
    IS(memcmp(line, "end 1 ", 6), 0);
    IS(hd_rotate(broker), HD_OK);
    IS(hd_audit_count(broker, &before_them, &none), HD_OK);
    IS(before_them, count);
    IS(none, 0);
    IS(hd_audit_line(broker, 1, line, sizeof line, &needed), HD_NO_SUCH);
    IS(hd_journal_line(broker, line, sizeof line, &needed, &chain), HD_NO_SUCH);
    IS(hd_effect_count(broker, &none), HD_OK);
    IS(none, 0);
}

/* A policy that is none, one of others, and one that takes a right that a packet in flight holds. */
static void reloads(hd_broker *broker, const uint8_t *policy, size_t length)
{
    static const char deny[] = "[[deny]]\nclient = \"alice\"\nkind = \"region\"\nobject = \"*\"\nrights = [\"WRITE\"]\n";
    static const char version[] = "version = 2\n";
    uint8_t *narrower = malloc(sizeof version + length + sizeof deny);
    hd_fault fault = { 9, 9, 9, 9, 9 };
    uint64_t queue = 41, packet = 42;
    uint32_t word = 44;
    memcpy(narrower, version, sizeof version - 1);
    memcpy(narrower + sizeof version - 1, policy, length);
    memcpy(narrower + sizeof version - 1 + length, deny, sizeof deny - 1);
    IS(hd_reload(broker, policy, length - 2, &fault, &queue, &packet), HD_NOT_TOML);
    IS(fault.section + fault.row, 0);
    fault.section = 9;
    IS(hd_reload(broker, (const uint8_t *)deny, 0, &fault, &queue, &packet), HD_OTHER_OBJECTS);
    IS(fault.section, 9);
    IS(queue, 41);
    IS(packet, 42);
    IS(hd_reload(broker, narrower, sizeof version - 1 + length + sizeof deny - 1, &fault, &queue, &packet), HD_BUSY);
    IS(queue, 1);
    IS(packet, 0);
    IS(fault.section, 9);
    IS(hd_reload(broker, policy, length, &fault, &queue, &packet), HD_OK);
    IS(hd_rights(broker, 1, HD_REGION, 1, &word), HD_OK);
    IS(word, HD_READ | HD_WRITE);
    free(narrower);
}

static void refusals(hd_broker *broker)
{
    static uint8_t packet[64] = { 0x04, 0x14, 0x00, 0x80 };
    uint8_t bytes[64];
    uint64_t queue = 41, id = 42, next = 44;
    int64_t value = 43;
    hd_taken taken = { 9, { 0 } };
    memcpy(bytes, before, 64);
    IS(hd_read(broker, 1, (uint64_t)1 << 32, bytes, 4), HD_DENIED);
    IS(hd_read(broker, 9, (uint64_t)1 << 32, bytes, 4), HD_UNKNOWN_CLIENT);
    IS(hd_load(broker, 1, 1, &value), HD_DENIED);
    IS(hd_open_queue(broker, 1, 1, 2, &queue), HD_DENIED);
    IS(memcmp(bytes, before, 64), 0);
    IS(value, 43);
    IS(queue, 41);
    IS(hd_grant(broker, 1, HD_AGENT, 1, HD_USE), HD_OK);
    IS(hd_grant(broker, 1, HD_REGION, 1, HD_READ | HD_WRITE), HD_OK);
    IS(hd_open_queue(broker, 1, 1, 3, &queue), HD_BAD_SIZE);
    IS(hd_open_queue(broker, 1, 1, 2, &queue), HD_OK);
    IS(queue, 1);
    IS(hd_take(broker, 1, 5, packet, &taken, &next), HD_OUT_OF_STEP);
    IS(next, 0);
    IS(taken.became, 9);
    packet[21] = 1; /* four bytes at 1 << 32 */
    packet[20] = 0;
    packet[16] = 0;
    memcpy(packet + 16, &(uint64_t){ (uint64_t)1 << 32 }, 8);
    memcpy(packet + 24, &(uint64_t){ 4 }, 8);
    memcpy(packet + 32, &(uint64_t){ 0x5a }, 8);
    IS(hd_take(broker, 1, 0, packet, &taken, &next), HD_OK);
    IS(taken.became, HD_LAUNCHED);
    IS(hd_finish(broker, 1, 0), HD_NOT_FINISHED);
    IS(hd_revoke(broker, 1, HD_REGION, 1, HD_WRITE, &queue, &id), HD_BUSY);
    IS(queue, 1);
    IS(id, 0);
    hd_error error;
    uint32_t held = 45;
    memset(&error, 7, sizeof error);
    IS(hd_errors(broker, 2, &error, 1, &next), HD_UNKNOWN_QUEUE);
    IS(hd_errors(broker, 1, &error, 0, &next), HD_OK);
    IS(next, 0);
    IS(error.rule, 0x07070707);
    IS(hd_test(broker, 1, 1, HD_EQ, 1, &held), HD_DENIED);
    IS(hd_test(broker, 1, 1, 4, 1, &held), HD_NO_SUCH);
    IS(held, 45);
    IS(hd_grant(broker, 1, HD_SIGNAL, 1, HD_WAIT), HD_OK);
    IS(hd_test(broker, 1, 1, HD_EQ, 1, &held), HD_OK);
    IS(held, 1);
    IS(hd_test(broker, 1, 1, HD_LT, 1, &held), HD_OK);
    IS(held, 0);
    IS(hd_revoke(broker, 1, HD_SIGNAL, 1, HD_WAIT, &queue, &id), HD_OK);
    packet[0] = 0; /* a packet of no type */
    IS(hd_take(broker, 1, 1, packet, &taken, &next), HD_OK);
    IS(taken.became, HD_REFUSED);
    IS(hd_errors(broker, 1, &error, 0, &next), HD_TOO_SHORT);
    IS(next, 1);
    IS(error.rule, 0x07070707);
    IS(hd_errors(broker, 1, &error, 1, &next), HD_OK);
    IS(error.queue * 100 + error.packet * 10 + error.rule, 111);
    packet[0] = 4;
}

/* A write of 65,536 bytes, the most, and one of a byte more: a line of a script has no room for either. */
static void longest_write(void)
{
    static const char policy[] = "client = [{ name = \"c\" }]\nregion = [{ name = \"tape\", length = 65537 }]\nallow = [{ client = \"c\", kind = \"region\", object = \"tape\", rights = [\"READ\", \"WRITE\"] }]\n";
    static uint8_t bytes[65537], found[65536];
    hd_broker broker = HD_BROKER;
    hd_fault fault;
    memset(bytes, 3, sizeof bytes);
    IS(hd_open(&broker, (const uint8_t *)policy, sizeof policy - 1, 10, &fault), HD_OK);
    IS(hd_grant(&broker, 1, HD_REGION, 1, HD_READ | HD_WRITE), HD_OK);
    IS(hd_write(&broker, 1, (uint64_t)1 << 32, bytes, 65537), HD_BAD_SIZE);
    IS(hd_read(&broker, 1, (uint64_t)1 << 32, found, 65536), HD_OK);
    IS(found[65535], 0);
    IS(hd_write(&broker, 1, (uint64_t)1 << 32, bytes, 65536), HD_OK);
    IS(hd_read(&broker, 1, (uint64_t)1 << 32, found, 65536), HD_OK);
    IS(memcmp(found, bytes, 65536), 0);
    IS(hd_close(&broker), HD_OK);
}

/* Of 64 open queues one with two packets in flight is closed, while the audit has room for these alone: they are released, in order.
   Then there is room for another close, and behind a rotation for another queue, with a number of its own. */
static void closes(const uint8_t *policy, size_t length)
{
    static uint8_t packet[64] = { 0x04, 0x14, 0x00, 0x80 };
    hd_broker broker = HD_BROKER;
    hd_fault fault;
    hd_taken taken;
    hd_effect effect;
    hd_error error;
    uint64_t queue, holder, next, before_it, count;
    memcpy(packet + 16, &(uint64_t){ (uint64_t)1 << 32 }, 8);
    memcpy(packet + 24, &(uint64_t){ 4 }, 8);
    IS(hd_open(&broker, policy, length, 70, &fault), HD_OK);
    IS(hd_grant(&broker, 1, HD_AGENT, 1, HD_USE), HD_OK);
    IS(hd_grant(&broker, 1, HD_REGION, 1, HD_READ | HD_WRITE), HD_OK);
    for (uint64_t number = 1; number <= 64; number++) {
        IS(hd_open_queue(&broker, 1, 1, 2, &queue), HD_OK);
        IS(queue, number);
    }
    IS(hd_open_queue(&broker, 1, 1, 2, &queue), HD_TOO_MANY);
    for (uint64_t id = 0; id < 2; id++) {
        IS(hd_take(&broker, 40, id, packet, &taken, &next), HD_OK);
        IS(taken.became, HD_LAUNCHED);
    }
    IS(hd_close_queue(&broker, 0), HD_UNKNOWN_QUEUE);
    IS(hd_close_queue(&broker, 65), HD_UNKNOWN_QUEUE);
    IS(hd_close_queue(&broker, 1), HD_AUDIT_FULL);
    IS(hd_revoke(&broker, 1, HD_REGION, 1, HD_WRITE, &queue, &holder), HD_BUSY);
    IS(hd_close_queue(&broker, 40), HD_OK);
    IS(hd_effect_count(&broker, &count), HD_OK);
    IS(count, 2);
    for (size_t i = 0; i < 2; i++) {
        IS(hd_effect_at(&broker, i, &effect), HD_OK);
        IS(effect.kind, HD_RELEASED);
        IS(effect.queue, 40);
        IS(effect.packet, i);
    }
    IS(hd_close_queue(&broker, 40), HD_UNKNOWN_QUEUE);
    IS(hd_stop(&broker, 40), HD_UNKNOWN_QUEUE);
    IS(hd_errors(&broker, 40, &error, 1, &count), HD_UNKNOWN_QUEUE);
    IS(hd_close_queue(&broker, 1), HD_OK);
    IS(hd_effect_count(&broker, &count), HD_OK);
    IS(count, 0);
    IS(hd_audit_count(&broker, &before_it, &count), HD_OK);
    IS(count, 70);
    IS(hd_rotate(&broker), HD_OK);
    IS(hd_revoke(&broker, 1, HD_REGION, 1, HD_WRITE, &queue, &holder), HD_OK);
    IS(hd_open_queue(&broker, 1, 1, 2, &queue), HD_OK);
    IS(queue, 65);
    IS(hd_errors(&broker, 64, &error, 1, &count), HD_OK);
    IS(hd_close(&broker), HD_OK);
}

int main(int count, char **arguments)
{
    static uint8_t policy[1 << 20];
    hd_broker broker = HD_BROKER, other = HD_BROKER;
    hd_fault fault = { 9, 9, 9, 9, 9 };
    FILE *file = count == 2 ? fopen(arguments[1], "rb") : NULL;
    if (!file) return 2;
    size_t length = fread(policy, 1, sizeof policy, file);
    fclose(file);
    all_closed(&broker);
    openings(policy, length);
    longest_write();
    IS(hd_open(&broker, policy, length, 100, &fault), HD_OK);
    IS(hd_open(&broker, policy, length, 100, &fault), HD_OPEN_ALREADY);
    IS(fault.section, 9);
    IS(hd_open(&other, policy, length, 100, &fault), HD_OK);
    numbers_and_buffers(&broker);
    kernels(&broker);
    refusals(&broker);
    refusals(&other);
    listings(&broker);
    reloads(&broker, policy, length);
    audits(&broker);
    IS(hd_close(&broker), HD_OK);
    all_closed(&broker);
    IS(hd_close(&other), HD_OK);
    closes(policy, length);
    if (!failed) printf("ok\n");
    return failed;
}
