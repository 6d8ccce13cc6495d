/* What the programs of these tests share: they are programs of hsa.h, and know nothing of what runs them. */
#ifndef TESTS_H
#define TESTS_H

#include <hsa/hsa.h>
#include <hsa/hsa_ext_amd.h>
#include <hsa/hsa_ext_finalize.h>
#include <inttypes.h>
#include <stdatomic.h>
#include <stdio.h>
#include <stdlib.h>
#include <string.h>
#include <unistd.h>

#define OK HSA_STATUS_SUCCESS
#define BAD HSA_STATUS_ERROR_INVALID_ARGUMENT
#define LONG_ENOUGH 20000000000u /* nanoseconds: a busy machine is slow */

extern long right, wrong;

/* Counts whether a call answers what it has to. */
#define IS(call, wanted) is((int64_t)(call), (int64_t)(wanted), #call, __FILE__, __LINE__)
static inline void is(int64_t came, int64_t wanted, const char *call, const char *file, int line)
{
    if (came == wanted) right++;
    else wrong++;
    if (came != wanted) printf("%s:%d: %s: %" PRIx64 ", not %" PRIx64 "\n", file, line, call, (uint64_t)came, (uint64_t)wanted);
}

/* Agents and regions, as the functions of hsa.h tell them. */
typedef struct machine {
    hsa_agent_t host, gpu;
    hsa_region_t kernarg, fine, coarse, group;
} machine;

static inline hsa_status_t meet_agent(hsa_agent_t agent, void *data)
{
    machine *it = data;
    uint32_t features = 0;
    hsa_device_type_t device;
    hsa_agent_get_info(agent, HSA_AGENT_INFO_FEATURE, &features);
    hsa_agent_get_info(agent, HSA_AGENT_INFO_DEVICE, &device);
    if (device == HSA_DEVICE_TYPE_CPU) it->host = agent;
    else if (features & HSA_AGENT_FEATURE_KERNEL_DISPATCH) it->gpu = agent;
    return OK;
}

static inline hsa_status_t meet_region(hsa_region_t region, void *data)
{
    machine *it = data;
    hsa_region_segment_t segment;
    uint32_t flags = 0;
    bool allocates = false;
    hsa_region_get_info(region, HSA_REGION_INFO_SEGMENT, &segment);
    hsa_region_get_info(region, HSA_REGION_INFO_GLOBAL_FLAGS, &flags);
    hsa_region_get_info(region, HSA_REGION_INFO_RUNTIME_ALLOC_ALLOWED, &allocates);
    if (segment == HSA_REGION_SEGMENT_GROUP) it->group = region;
    else if (flags & HSA_REGION_GLOBAL_FLAG_KERNARG) it->kernarg = region;
    else if (flags & HSA_REGION_GLOBAL_FLAG_COARSE_GRAINED) it->coarse = region;
    else if (!it->fine.handle && allocates) it->fine = region;
    return OK;
}

static inline machine meet_machine(void)
{
    machine it;
    memset(&it, 0, sizeof it);
    hsa_iterate_agents(meet_agent, &it);
    hsa_agent_iterate_regions(it.gpu, meet_region, &it);
    return it;
}

/* Stores a packet of 64 bytes into its slot, the header last, and rings. */
static inline uint64_t publish(hsa_queue_t *queue, const void *packet)
{
    uint64_t index = hsa_queue_add_write_index_scacq_screl(queue, 1);
    while (index - hsa_queue_load_read_index_scacquire(queue) >= queue->size) usleep(10);
    char *slot = (char *)queue->base_address + 64 * (index & (queue->size - 1));
    uint32_t first;
    memcpy(&first, packet, 4);
    memcpy(slot + 4, (const char *)packet + 4, 60);
    __atomic_store_n((uint32_t *)(void *)slot, first, __ATOMIC_RELEASE);
    hsa_signal_store_screlease(queue->doorbell_signal, (hsa_signal_value_t)index);
    return index;
}

static inline uint16_t header_of(hsa_packet_type_t type)
{
    return (uint16_t)(type << HSA_PACKET_HEADER_TYPE | HSA_FENCE_SCOPE_SYSTEM << HSA_PACKET_HEADER_SCACQUIRE_FENCE_SCOPE
                      | HSA_FENCE_SCOPE_SYSTEM << HSA_PACKET_HEADER_SCRELEASE_FENCE_SCOPE);
}

/* Loads a text and tells a kernel of it: its object, 0 where that can't be. */
static inline uint64_t load_text(hsa_agent_t agent, const char *text, const char *entry, hsa_executable_t *executable)
{
    hsa_code_object_reader_t reader;
    hsa_executable_symbol_t symbol;
    uint64_t object = 0;
    if (hsa_code_object_reader_create_from_memory(text, strlen(text), &reader)) return 0;
    if (!hsa_executable_create_alt(HSA_PROFILE_BASE, HSA_DEFAULT_FLOAT_ROUNDING_MODE_DEFAULT, NULL, executable)
        && !hsa_executable_load_agent_code_object(*executable, agent, reader, NULL, NULL) && !hsa_executable_freeze(*executable, NULL)
        && !hsa_executable_get_symbol_by_name(*executable, entry, &agent, &symbol))
        hsa_executable_symbol_get_info(symbol, HSA_EXECUTABLE_SYMBOL_INFO_KERNEL_OBJECT, &object);
    hsa_code_object_reader_destroy(reader);
    return object;
}

/* A dispatch of one work-item of a kernel. */
static inline hsa_kernel_dispatch_packet_t dispatch_of(uint64_t kernel, void *arguments, hsa_signal_t done)
{
    return (hsa_kernel_dispatch_packet_t){
        .header = header_of(HSA_PACKET_TYPE_KERNEL_DISPATCH), .setup = 1 << HSA_KERNEL_DISPATCH_PACKET_SETUP_DIMENSIONS,
        .workgroup_size_x = 1, .workgroup_size_y = 1, .workgroup_size_z = 1, .grid_size_x = 1, .grid_size_y = 1, .grid_size_z = 1,
        .kernel_object = kernel, .kernarg_address = arguments, .completion_signal = done,
    };
}

/* A test of a function of hsa.h, by its name. */
typedef struct test {
    const char *function;
    void (*run)(void);
} test;

#endif
