/* Packets laid out by the structs of hsa.h, as they stand: a kernel dispatch, an agent dispatch and a barrier packet go in as they are,
   and do what their fields say. Over the policy of crates/brokerd/data/sample.toml. */
#include <hsa/hsa.h>
#include <stdio.h>
#include <string.h>

#include "hobbydresser.h"

_Static_assert(sizeof(hsa_kernel_dispatch_packet_t) == 64, "a kernel dispatch packet has 64 bytes");
_Static_assert(sizeof(hsa_agent_dispatch_packet_t) == 64, "an agent dispatch packet has 64 bytes");
_Static_assert(sizeof(hsa_barrier_and_packet_t) == 64, "a barrier packet has 64 bytes");

enum { ALICE = 1, GPU = 1, BUF = 1, ARGS = 2, DONE = 1, GO = 2, INC = 1, FILL = 0x8000 };
#define BUF_AT ((uint64_t)BUF << 32)
#define ARGS_AT ((uint64_t)ARGS << 32)
#define OK(call) if ((call) != HD_OK) return printf("line %d: %s\n", __LINE__, #call), 1

static hd_broker broker = HD_BROKER;

static uint16_t header(hsa_packet_type_t type)
{
    return (uint16_t)(type << HSA_PACKET_HEADER_TYPE | HSA_FENCE_SCOPE_SYSTEM << HSA_PACKET_HEADER_SCACQUIRE_FENCE_SCOPE
                      | HSA_FENCE_SCOPE_SYSTEM << HSA_PACKET_HEADER_SCRELEASE_FENCE_SCOPE);
}

/* Takes a packet, which has to be launched, and brings a dispatch to its end. */
static int process(uint64_t queue, uint64_t id, const void *packet, int is_dispatch)
{
    hd_taken taken;
    hd_worked worked;
    hd_polled polled;
    uint64_t next;
    OK(hd_take(&broker, queue, id, packet, &taken, &next));
    if (taken.became != HD_LAUNCHED) return printf("packet %d: not launched, by rule %u\n", (int)id, (unsigned)taken.error.rule), 1;
    if (is_dispatch) {
        do OK(hd_run(&broker, queue, id, &worked));
        while (worked.became == HD_RAN && worked.left > 0);
        if (worked.became != HD_RAN) return printf("packet %d: rule %u\n", (int)id, (unsigned)worked.error.rule), 1;
    } else {
        OK(hd_poll(&broker, queue, id, &polled));
        if (polled.became != HD_READY) return printf("packet %d: not ready\n", (int)id), 1;
    }
    OK(hd_finish(&broker, queue, id));
    return 0;
}

/* A word is filled with 5a, four words are raised by 1, and the barrier packet waits for both. */
static int packets(uint64_t queue)
{
    static const uint8_t wanted[16] = { 0x5b, 0x5a, 0x5a, 0x5a, 1, 0, 0, 0, 1, 0, 0, 0, 1 };
    hsa_agent_dispatch_packet_t fill = { .header = header(HSA_PACKET_TYPE_AGENT_DISPATCH), .type = FILL, .arg = { BUF_AT, 4, 0x5a } };
    hsa_kernel_dispatch_packet_t inc = {
        .header = header(HSA_PACKET_TYPE_KERNEL_DISPATCH), .setup = 1 << HSA_KERNEL_DISPATCH_PACKET_SETUP_DIMENSIONS,
        .workgroup_size_x = 2, .workgroup_size_y = 1, .workgroup_size_z = 1, .grid_size_x = 4, .grid_size_y = 1, .grid_size_z = 1,
        .kernel_object = INC, .kernarg_address = (void *)ARGS_AT, .completion_signal = { DONE },
    };
    hsa_barrier_and_packet_t after = { .header = header(HSA_PACKET_TYPE_BARRIER_AND), .dep_signal = { { DONE } }, .completion_signal = { GO } };
    uint8_t read[16];
    int64_t done, go;
    if (process(queue, 0, &fill, 1) || process(queue, 1, &inc, 1) || process(queue, 2, &after, 0)) return 1;
    OK(hd_read(&broker, ALICE, BUF_AT, read, sizeof read));
    OK(hd_load(&broker, ALICE, DONE, &done));
    OK(hd_load(&broker, ALICE, GO, &go));
    return memcmp(read, wanted, sizeof wanted) != 0 || done != 0 || go != 0;
}

int main(int count, char **arguments)
{
    static uint8_t policy[1 << 20];
    hd_fault fault;
    uint64_t queue, where = BUF_AT;
    FILE *file = count == 2 ? fopen(arguments[1], "rb") : NULL;
    if (!file) return 2;
    size_t length = fread(policy, 1, sizeof policy, file);
    fclose(file);
    OK(hd_open(&broker, policy, length, 100, &fault));
    OK(hd_grant(&broker, ALICE, HD_AGENT, GPU, HD_USE));
    OK(hd_grant(&broker, ALICE, HD_REGION, BUF, HD_READ | HD_WRITE));
    OK(hd_grant(&broker, ALICE, HD_REGION, ARGS, HD_READ | HD_WRITE));
    OK(hd_grant(&broker, ALICE, HD_SIGNAL, DONE, HD_WAIT | HD_CHANGE));
    OK(hd_grant(&broker, ALICE, HD_SIGNAL, GO, HD_WAIT | HD_CHANGE));
    OK(hd_grant(&broker, ALICE, HD_KERNEL, INC, HD_LAUNCH));
    OK(hd_open_queue(&broker, ALICE, GPU, 16, &queue));
    OK(hd_write(&broker, ALICE, ARGS_AT, (const uint8_t *)&where, 8));
    if (packets(queue)) return 1;
    OK(hd_close(&broker));
    return 0;
}
