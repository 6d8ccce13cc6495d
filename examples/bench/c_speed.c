/* How fast packets go through the calls of hobbydresser.h: each is taken, run and finished before the next. A packet is an addition of 1
   to a number in memory, with a signal that falls by 1 at its completion; the audit gets three entries for it, for which there is place.
   At the end the number and the signal have to tell how many there were.

     cc -O2 -std=c11 -Iinclude examples/bench/c_speed.c ARCHIVE -o speed             # the library's archive: docs/c.md
     cc -O2 -std=c11 -Iinclude examples/bench/c_speed.c examples/bench/plain_broker.c -o plain_speed
     ./speed 100000 9                                                                # packets, and how often all is measured */
#define _POSIX_C_SOURCE 199309L
#include <inttypes.h>
#include <stdio.h>
#include <stdlib.h>
#include <string.h>
#include <time.h>

#include "hobbydresser.h"

enum { CLIENT = 1, AGENT = 1, REGION = 1, SIGNAL = 1, SLOTS = 16, ADD64 = 0x8002 };
#define NUMBER_AT ((uint64_t)REGION << 32)

static const char policy[] =
    "[[client]]\nname = \"c\"\n[[agent]]\nname = \"a\"\ntakes = [\"agent\"]\n[[region]]\nname = \"r\"\nlength = 64\n"
    "[[signal]]\nname = \"s\"\ninitial = 0\n"
    "[[allow]]\nclient = \"c\"\nkind = \"agent\"\nobject = \"a\"\nrights = [\"USE\"]\n"
    "[[allow]]\nclient = \"c\"\nkind = \"region\"\nobject = \"r\"\nrights = [\"READ\", \"WRITE\"]\n"
    "[[allow]]\nclient = \"c\"\nkind = \"signal\"\nobject = \"s\"\nrights = [\"WAIT\", \"CHANGE\"]\n";

typedef struct {
    uint16_t header, function;
    uint32_t reserved0;
    uint64_t return_address, arguments[4], reserved2, completion_signal;
} agent_packet;

static hd_broker broker;

static void must(hd_status status, const char *call)
{
    if (status == HD_OK) return;
    fprintf(stderr, "%s: status %" PRIu32 "\n", call, status);
    exit(1);
}
#define MUST(call) must((call), #call)

static double seconds(void)
{
    struct timespec now;
    clock_gettime(CLOCK_MONOTONIC, &now);
    return (double)now.tv_sec + (double)now.tv_nsec * 1e-9;
}

static void open_broker(uint64_t packets, uint64_t *queue)
{
    static const hd_broker closed = HD_BROKER;
    hd_fault fault;
    broker = closed;
    MUST(hd_open(&broker, (const uint8_t *)policy, sizeof policy - 1, packets * 3 + 8, &fault));
    MUST(hd_grant(&broker, CLIENT, HD_AGENT, AGENT, HD_USE));
    MUST(hd_grant(&broker, CLIENT, HD_REGION, REGION, HD_READ | HD_WRITE));
    MUST(hd_grant(&broker, CLIENT, HD_SIGNAL, SIGNAL, HD_WAIT | HD_CHANGE));
    MUST(hd_open_queue(&broker, CLIENT, AGENT, SLOTS, queue));
}

/* The seconds that so many packets take. */
static double measure(uint64_t packets)
{
    agent_packet add = { .header = 0x1404, .function = ADD64, .arguments = { NUMBER_AT, 1 }, .completion_signal = SIGNAL };
    uint8_t bytes[64];
    uint64_t queue, next, number;
    int64_t value;
    hd_taken taken;
    hd_worked worked;
    open_broker(packets, &queue);
    memcpy(bytes, &add, 64);
    double begin = seconds();
    for (uint64_t id = 0; id < packets; id++) {
        MUST(hd_take(&broker, queue, id, bytes, &taken, &next));
        MUST(hd_run(&broker, queue, id, &worked));
        MUST(hd_finish(&broker, queue, id));
        if (taken.became != HD_LAUNCHED || worked.became != HD_RAN || worked.left != 0) exit(1);
    }
    double taken_in_all = seconds() - begin;
    MUST(hd_read(&broker, CLIENT, NUMBER_AT, (uint8_t *)&number, 8));
    MUST(hd_load(&broker, CLIENT, SIGNAL, &value));
    MUST(hd_close(&broker));
    if (number != packets || value != -(int64_t)packets) exit(1);
    return taken_in_all;
}

int main(int count, char **arguments)
{
    uint64_t packets = count > 1 ? strtoull(arguments[1], NULL, 10) : 0;
    int runs = count > 2 ? atoi(arguments[2]) : 1;
    if (packets == 0 || packets > 349000) {
        fprintf(stderr, "c_speed PACKETS [RUNS]: 1 to 349000 packets\n");
        return 2;
    }
    double least = measure(packets);
    for (int run = 1; run < runs; run++) {
        double one = measure(packets);
        if (one < least) least = one;
    }
    printf("%.0f ns a packet, %.2f million packets a second\n", least / (double)packets * 1e9, (double)packets / least / 1e6);
    return 0;
}
