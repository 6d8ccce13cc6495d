/* A pipeline over three queues: the first fills blocks, the second copies each block once it is filled, the third counts each block once
   it is copied. What depends on what is said by barrier packets alone; the host waits for the last signal. Run as `pipeline [BLOCKS]`. */
#include <hsa/hsa.h>
#include <stdint.h>
#include <stdio.h>
#include <stdlib.h>
#include <string.h>

enum { FILL = 0x8000, COPY = 0x8001, ADD = 0x8002, BYTES = 256, MOST = 64 };

static void check(hsa_status_t status, const char *call)
{
    const char *text = "another status";
    if (status == HSA_STATUS_SUCCESS || status == HSA_STATUS_INFO_BREAK) return;
    hsa_status_string(status, &text);
    fprintf(stderr, "%s: %s\n", call, text);
    exit(1);
}
#define CHECK(call) check((call), #call)

static void on_queue_error(hsa_status_t status, hsa_queue_t *queue, void *data)
{
    (void)queue, (void)data;
    check(status, "a queue");
}

static hsa_status_t find_agent(hsa_agent_t agent, void *found)
{
    uint32_t features = 0;
    CHECK(hsa_agent_get_info(agent, HSA_AGENT_INFO_FEATURE, &features));
    if (!(features & HSA_AGENT_FEATURE_AGENT_DISPATCH)) return HSA_STATUS_SUCCESS;
    *(hsa_agent_t *)found = agent;
    return HSA_STATUS_INFO_BREAK;
}

static hsa_status_t find_memory(hsa_region_t region, void *found)
{
    bool allocates = false;
    uint32_t flags = 0;
    CHECK(hsa_region_get_info(region, HSA_REGION_INFO_RUNTIME_ALLOC_ALLOWED, &allocates));
    CHECK(hsa_region_get_info(region, HSA_REGION_INFO_GLOBAL_FLAGS, &flags));
    if (!allocates || flags & HSA_REGION_GLOBAL_FLAG_KERNARG) return HSA_STATUS_SUCCESS;
    *(hsa_region_t *)found = region;
    return HSA_STATUS_INFO_BREAK;
}

/* Stores a packet into a free slot, the header last, and rings. */
static void publish(hsa_queue_t *queue, const void *packet)
{
    uint64_t index = hsa_queue_add_write_index_relaxed(queue, 1);
    uint32_t first;
    while (index - hsa_queue_load_read_index_scacquire(queue) >= queue->size) ;
    char *slot = (char *)queue->base_address + 64 * (index & (queue->size - 1));
    memcpy(&first, packet, 4);
    memcpy(slot + 4, (const char *)packet + 4, 60);
    __atomic_store_n((uint32_t *)(void *)slot, first, __ATOMIC_RELEASE);
    hsa_signal_store_screlease(queue->doorbell_signal, (hsa_signal_value_t)index);
}

/* An agent dispatch: FILL has place, length and byte, COPY source, target and length, ADD place and number. */
static void dispatch(hsa_queue_t *queue, uint16_t function, const void *first, uint64_t second, uint64_t third, hsa_signal_t done)
{
    hsa_agent_dispatch_packet_t packet = {
        .header = HSA_PACKET_TYPE_AGENT_DISPATCH << HSA_PACKET_HEADER_TYPE | HSA_FENCE_SCOPE_SYSTEM << HSA_PACKET_HEADER_SCACQUIRE_FENCE_SCOPE
                  | HSA_FENCE_SCOPE_SYSTEM << HSA_PACKET_HEADER_SCRELEASE_FENCE_SCOPE,
        .type = function, .arg = { (uint64_t)(uintptr_t)first, second, third }, .completion_signal = done,
    };
    publish(queue, &packet);
}

/* The queue goes on once a signal is 0. */
static void wait_in_queue(hsa_queue_t *queue, hsa_signal_t signal)
{
    hsa_barrier_and_packet_t packet = {
        .header = HSA_PACKET_TYPE_BARRIER_AND << HSA_PACKET_HEADER_TYPE | 1 << HSA_PACKET_HEADER_BARRIER, .dep_signal = { signal },
    };
    publish(queue, &packet);
}

int main(int count_of_words, char **words)
{
    uint64_t blocks = count_of_words > 1 ? strtoul(words[1], NULL, 10) : 16;
    hsa_agent_t agent = { 0 };
    hsa_region_t memory = { 0 };
    hsa_queue_t *fills, *copies, *counts;
    hsa_signal_t filled[MOST], copied[MOST], counted;
    uint8_t *from, *to;
    uint64_t *counter;
    if (blocks > MOST) blocks = MOST;
    CHECK(hsa_init());
    CHECK(hsa_iterate_agents(find_agent, &agent));
    CHECK(hsa_agent_iterate_regions(agent, find_memory, &memory));
    CHECK(hsa_queue_create(agent, 16, HSA_QUEUE_TYPE_SINGLE, on_queue_error, NULL, UINT32_MAX, UINT32_MAX, &fills));
    CHECK(hsa_queue_create(agent, 16, HSA_QUEUE_TYPE_SINGLE, on_queue_error, NULL, UINT32_MAX, UINT32_MAX, &copies));
    CHECK(hsa_queue_create(agent, 16, HSA_QUEUE_TYPE_SINGLE, on_queue_error, NULL, UINT32_MAX, UINT32_MAX, &counts));
    CHECK(hsa_memory_allocate(memory, blocks * BYTES, (void **)&from));
    CHECK(hsa_memory_allocate(memory, blocks * BYTES, (void **)&to));
    CHECK(hsa_memory_allocate(memory, sizeof *counter, (void **)&counter));
    CHECK(hsa_signal_create((hsa_signal_value_t)blocks, 0, NULL, &counted));
    *counter = 0;
    for (uint64_t i = 0; i < blocks; i++) {
        CHECK(hsa_signal_create(1, 0, NULL, &filled[i]));
        CHECK(hsa_signal_create(1, 0, NULL, &copied[i]));
        wait_in_queue(counts, copied[i]);
        dispatch(counts, ADD, counter, i + 1, 0, counted);
        wait_in_queue(copies, filled[i]);
        dispatch(copies, COPY, from + i * BYTES, (uint64_t)(uintptr_t)(to + i * BYTES), BYTES, copied[i]);
        dispatch(fills, FILL, from + i * BYTES, BYTES, i + 1, filled[i]);
    }
    hsa_signal_wait_scacquire(counted, HSA_SIGNAL_CONDITION_LT, 1, UINT64_MAX, HSA_WAIT_STATE_BLOCKED);
    int is_right = *counter == blocks * (blocks + 1) / 2;
    for (uint64_t i = 0; i < blocks * BYTES; i++) is_right = is_right && to[i] == (uint8_t)(i / BYTES + 1);
    printf("%lu blocks went through three queues, %s\n", (unsigned long)blocks, is_right ? "in order" : "WRONG");
    CHECK(hsa_queue_destroy(fills));
    CHECK(hsa_queue_destroy(copies));
    CHECK(hsa_queue_destroy(counts));
    CHECK(hsa_shut_down());
    return !is_right;
}
