/* The first program of HSA, as AMD's sample of this name goes: a kernel copies numbers from one vector to another. It knows hsa.h and
   nothing of what runs it. Run as `vector_copy [NUMBERS]`. */
#include <hsa/hsa.h>
#include <stdint.h>
#include <stdio.h>
#include <stdlib.h>
#include <string.h>

static const char KERNEL[] =
    "module &vector_copy:1:0:$base:$large:$default;\n"
    "prog kernel &vector_copy_kernel(kernarg_u64 %in, kernarg_u64 %out)\n"
    "{\n"
    "  workitemabsid_u32 $s0, 0;\n"
    "  cvt_u64_u32 $d2, $s0;\n"
    "  shl_u64 $d2, $d2, 2;\n"
    "  ld_kernarg_u64 $d0, [%in];\n"
    "  ld_kernarg_u64 $d1, [%out];\n"
    "  add_u64 $d0, $d0, $d2;\n"
    "  add_u64 $d1, $d1, $d2;\n"
    "  ld_global_u32 $s1, [$d0];\n"
    "  st_global_u32 $s1, [$d1];\n"
    "  ret;\n"
    "};\n";

/* Ends the program where a call isn't answered as it has to be. */
static void check(hsa_status_t status, const char *call)
{
    const char *text = "another status";
    if (status == HSA_STATUS_SUCCESS || status == HSA_STATUS_INFO_BREAK) return;
    hsa_status_string(status, &text);
    fprintf(stderr, "%s: %s\n", call, text);
    exit(1);
}
#define CHECK(call) check((call), #call)

static void on_queue_error(hsa_status_t status, hsa_queue_t *queue, void *data)
{
    (void)queue, (void)data;
    check(status, "the queue");
}

static hsa_status_t find_agent(hsa_agent_t agent, void *found)
{
    uint32_t features = 0;
    CHECK(hsa_agent_get_info(agent, HSA_AGENT_INFO_FEATURE, &features));
    if (!(features & HSA_AGENT_FEATURE_KERNEL_DISPATCH)) return HSA_STATUS_SUCCESS;
    *(hsa_agent_t *)found = agent;
    return HSA_STATUS_INFO_BREAK;
}

typedef struct memory {
    hsa_region_t kernarg, data;
} memory;

static hsa_status_t find_memory(hsa_region_t region, void *found)
{
    memory *regions = found;
    hsa_region_segment_t segment;
    uint32_t flags = 0;
    CHECK(hsa_region_get_info(region, HSA_REGION_INFO_SEGMENT, &segment));
    if (segment != HSA_REGION_SEGMENT_GLOBAL) return HSA_STATUS_SUCCESS;
    CHECK(hsa_region_get_info(region, HSA_REGION_INFO_GLOBAL_FLAGS, &flags));
    if (flags & HSA_REGION_GLOBAL_FLAG_KERNARG) regions->kernarg = region;
    else if (!regions->data.handle) regions->data = region;
    return HSA_STATUS_SUCCESS;
}

/* A kernel, and what a packet wants to know of it. */
typedef struct kernel {
    hsa_executable_t executable;
    uint64_t object;
    uint32_t arguments, group;
} kernel;

static kernel load_kernel(hsa_agent_t agent)
{
    kernel it;
    hsa_code_object_reader_t reader;
    hsa_executable_symbol_t symbol;
    CHECK(hsa_code_object_reader_create_from_memory(KERNEL, sizeof KERNEL - 1, &reader));
    CHECK(hsa_executable_create_alt(HSA_PROFILE_BASE, HSA_DEFAULT_FLOAT_ROUNDING_MODE_DEFAULT, NULL, &it.executable));
    CHECK(hsa_executable_load_agent_code_object(it.executable, agent, reader, NULL, NULL));
    CHECK(hsa_executable_freeze(it.executable, NULL));
    CHECK(hsa_code_object_reader_destroy(reader));
    CHECK(hsa_executable_get_symbol_by_name(it.executable, "&vector_copy_kernel", &agent, &symbol));
    CHECK(hsa_executable_symbol_get_info(symbol, HSA_EXECUTABLE_SYMBOL_INFO_KERNEL_OBJECT, &it.object));
    CHECK(hsa_executable_symbol_get_info(symbol, HSA_EXECUTABLE_SYMBOL_INFO_KERNEL_KERNARG_SEGMENT_SIZE, &it.arguments));
    CHECK(hsa_executable_symbol_get_info(symbol, HSA_EXECUTABLE_SYMBOL_INFO_KERNEL_GROUP_SEGMENT_SIZE, &it.group));
    return it;
}

/* Stores a packet into its slot, the header last, and rings the doorbell. */
static void dispatch(hsa_queue_t *queue, const kernel *it, void *arguments, uint32_t count, hsa_signal_t done)
{
    uint64_t index = hsa_queue_add_write_index_relaxed(queue, 1);
    hsa_kernel_dispatch_packet_t *packet = (hsa_kernel_dispatch_packet_t *)queue->base_address + (index & (queue->size - 1));
    memset((char *)packet + 4, 0, sizeof *packet - 4);
    packet->workgroup_size_x = 256;
    packet->workgroup_size_y = packet->workgroup_size_z = 1;
    packet->grid_size_x = count;
    packet->grid_size_y = packet->grid_size_z = 1;
    packet->group_segment_size = it->group;
    packet->kernel_object = it->object;
    packet->kernarg_address = arguments;
    packet->completion_signal = done;
    uint32_t header = HSA_PACKET_TYPE_KERNEL_DISPATCH << HSA_PACKET_HEADER_TYPE | HSA_FENCE_SCOPE_SYSTEM << HSA_PACKET_HEADER_SCACQUIRE_FENCE_SCOPE
                      | HSA_FENCE_SCOPE_SYSTEM << HSA_PACKET_HEADER_SCRELEASE_FENCE_SCOPE;
    uint32_t setup = 1 << HSA_KERNEL_DISPATCH_PACKET_SETUP_DIMENSIONS;
    __atomic_store_n((uint32_t *)packet, header | setup << 16, __ATOMIC_RELEASE);
    hsa_signal_store_screlease(queue->doorbell_signal, (hsa_signal_value_t)index);
}

int main(int count_of_words, char **words)
{
    uint32_t count = count_of_words > 1 ? (uint32_t)strtoul(words[1], NULL, 10) : 1024;
    char name[64];
    hsa_agent_t agent = { 0 };
    memory regions = { { 0 }, { 0 } };
    hsa_queue_t *queue;
    hsa_signal_t done;
    CHECK(hsa_init());
    CHECK(hsa_iterate_agents(find_agent, &agent));
    CHECK(hsa_agent_get_info(agent, HSA_AGENT_INFO_NAME, name));
    CHECK(hsa_agent_iterate_regions(agent, find_memory, &regions));
    CHECK(hsa_queue_create(agent, 64, HSA_QUEUE_TYPE_SINGLE, on_queue_error, NULL, UINT32_MAX, UINT32_MAX, &queue));
    kernel it = load_kernel(agent);

    struct { uint32_t *in, *out; } *arguments;
    CHECK(hsa_memory_allocate(regions.kernarg, it.arguments, (void **)&arguments));
    CHECK(hsa_memory_allocate(regions.data, count * sizeof(uint32_t), (void **)&arguments->in));
    CHECK(hsa_memory_allocate(regions.data, count * sizeof(uint32_t), (void **)&arguments->out));
    for (uint32_t i = 0; i < count; i++) {
        arguments->in[i] = i * 2654435761u + 1;
        arguments->out[i] = 0;
    }
    CHECK(hsa_signal_create(1, 0, NULL, &done));
    dispatch(queue, &it, arguments, count, done);
    hsa_signal_wait_scacquire(done, HSA_SIGNAL_CONDITION_LT, 1, UINT64_MAX, HSA_WAIT_STATE_BLOCKED);
    int is_right = !memcmp(arguments->in, arguments->out, count * sizeof(uint32_t));
    printf("agent %s: %u numbers %s\n", name, count, is_right ? "copied" : "WRONG");

    CHECK(hsa_memory_free(arguments->in));
    CHECK(hsa_memory_free(arguments->out));
    CHECK(hsa_memory_free(arguments));
    CHECK(hsa_signal_destroy(done));
    CHECK(hsa_executable_destroy(it.executable));
    CHECK(hsa_queue_destroy(queue));
    CHECK(hsa_shut_down());
    return !is_right;
}
