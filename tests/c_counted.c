/* Packets that tests/instructions.py counts, each taken, run and finished through the calls of hobbydresser.h:

     c_counted PACKETS OTHERS TOLD

   So many packets of the last of 64 queues, with so many of the other queues in flight. Behind each packet's run and its finish the
   changes that they made are told: by hd_effects where TOLD is `once`, by hd_effect_count, hd_effect_at and hd_effect_bytes where it is
   `singly`, and not at all where it is `no`. */
#include <stdio.h>
#include <stdlib.h>
#include <string.h>

#include "hobbydresser.h"

enum { CLIENT = 1, AGENT = 1, REGION = 1, SIGNAL = 1, QUEUES = 64, IN_FLIGHT = 7, SLOTS = 16, PLACES = 1 << 20 };

static const char policy[] =
    "[[client]]\nname = \"c\"\n[[agent]]\nname = \"a\"\ntakes = [\"kernel\", \"agent\"]\n[[region]]\nname = \"r\"\nlength = 64\n"
    "[[signal]]\nname = \"s\"\ninitial = 1\n"
    "[[allow]]\nclient = \"*\"\nkind = \"agent\"\nobject = \"*\"\nrights = [\"USE\"]\n"
    "[[allow]]\nclient = \"*\"\nkind = \"region\"\nobject = \"*\"\nrights = [\"READ\", \"WRITE\"]\n"
    "[[allow]]\nclient = \"*\"\nkind = \"signal\"\nobject = \"*\"\nrights = [\"WAIT\", \"CHANGE\"]\n";

static hd_broker broker = HD_BROKER;
/* How many bytes were written by all changes that were told, and how many changes there were. */
static uint64_t written, changes;

static void must(hd_status status, const char *call)
{
    if (status == HD_OK) return;
    fprintf(stderr, "%s: status %u\n", call, (unsigned)status);
    exit(1);
}
#define MUST(call) must((call), #call)

static void tell_once(void)
{
    uint8_t buffer[256];
    const uint8_t *bytes;
    uint64_t needed, entry;
    hd_effect effect;
    MUST(hd_effects(&broker, buffer, sizeof buffer, &needed, &entry));
    for (size_t place = 0; place < needed; changes++) {
        place = hd_effect_in(buffer, place, &effect, &bytes);
        written += effect.length;
    }
}

static void tell_singly(void)
{
    uint8_t bytes[64];
    uint64_t count, needed;
    hd_effect effect;
    MUST(hd_effect_count(&broker, &count));
    for (size_t index = 0; index < count; index++, changes++) {
        MUST(hd_effect_at(&broker, index, &effect));
        if (effect.kind != HD_WROTE) continue;
        MUST(hd_effect_bytes(&broker, index, bytes, sizeof bytes, &needed));
        written += needed;
    }
}

/* Takes the packet of an id of a queue, which is launched. */
static inline int take(uint64_t queue, uint64_t packet, hd_taken *taken)
{
    static uint64_t fill[8] = { 0x80001404, 0, (uint64_t)REGION << 32, 4, 0x5a, 0, 0, SIGNAL };
    uint64_t next;
    return hd_take(&broker, queue, packet, (const uint8_t *)fill, taken, &next) != HD_OK;
}

/* Takes, runs and finishes so many packets of a queue. */
static int pass(uint64_t queue, uint64_t packets)
{
    hd_taken taken;
    hd_worked worked;
    for (uint64_t packet = 0; packet < packets; packet++)
        if (take(queue, packet, &taken) || hd_run(&broker, queue, packet, &worked) || hd_finish(&broker, queue, packet)) return 1;
    return 0;
}

/* The same, with their changes told. */
static void pass_told(uint64_t queue, uint64_t packets, void (*tell)(void))
{
    hd_taken taken;
    hd_worked worked;
    for (uint64_t packet = 0; packet < packets; packet++) {
        if (take(queue, packet, &taken)) exit(1);
        MUST(hd_run(&broker, queue, packet, &worked));
        tell();
        MUST(hd_finish(&broker, queue, packet));
        tell();
    }
}

int main(int count, char **words)
{
    if (count != 4) return 2;
    uint64_t packets = strtoull(words[1], NULL, 10), others = strtoull(words[2], NULL, 10), queue;
    void (*tell)(void) = !strcmp(words[3], "once") ? tell_once : !strcmp(words[3], "singly") ? tell_singly : NULL;
    hd_fault fault;
    hd_taken taken;
    int64_t left;
    MUST(hd_open(&broker, (const uint8_t *)policy, sizeof policy - 1, PLACES, &fault));
    MUST(hd_grant(&broker, CLIENT, HD_AGENT, AGENT, HD_USE));
    MUST(hd_grant(&broker, CLIENT, HD_REGION, REGION, HD_READ | HD_WRITE));
    MUST(hd_grant(&broker, CLIENT, HD_SIGNAL, SIGNAL, HD_WAIT | HD_CHANGE));
    for (int opened = 0; opened < QUEUES; opened++) MUST(hd_open_queue(&broker, CLIENT, AGENT, SLOTS, &queue));
    for (uint64_t other = 0; other < others; other++)
        if (take(1 + other / IN_FLIGHT, other % IN_FLIGHT, &taken) || taken.became != HD_LAUNCHED) return 1;
    if (tell)
        pass_told(queue, packets, tell);
    else if (pass(queue, packets))
        return 1;
    /* Each packet that was launched has taken one off its signal. */
    MUST(hd_load(&broker, CLIENT, SIGNAL, &left));
    if (left != 1 - (int64_t)packets) return 1;
    MUST(hd_close(&broker));
    int is_told = tell != NULL;
    return changes == packets * 3 * is_told && written == packets * 4 * is_told ? 0 : 1;
}
