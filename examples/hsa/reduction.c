/* A sum in group memory: each work-group of 64 work-items adds its numbers in halves, with a barrier after each step, and its first
   work-item adds what came out to the total. Run as `reduction [GROUPS]`. */
#include <hsa/hsa.h>
#include <stdint.h>
#include <stdio.h>
#include <stdlib.h>
#include <string.h>

enum { ITEMS = 64 }; /* of a group: a power of two */

static const char KERNEL[] =
    "module &reduction:1:0:$base:$large:$default;\n"
    "prog kernel &reduction_kernel(kernarg_u64 %numbers, kernarg_u64 %total)\n"
    "{\n"
    "  group_u32 %sums[64];\n"
    "  workitemid_u32 $s0, 0;\n"
    "  workitemabsid_u32 $s1, 0;\n"
    "  ld_kernarg_u64 $d0, [%numbers];\n"
    "  cvt_u64_u32 $d1, $s1;\n"
    "  shl_u64 $d1, $d1, 2;\n"
    "  add_u64 $d0, $d0, $d1;\n"
    "  ld_global_u32 $s2, [$d0];\n"
    "  shl_u32 $s3, $s0, 2;\n"
    "  st_group_u32 $s2, [%sums][$s3];\n"
    "  mov_b32 $s4, 32;\n"
    "@halve:\n"
    "  barrier;\n"
    "  cmp_ge_b1_u32 $c0, $s0, $s4;\n"
    "  cbr_b1 $c0, @added;\n"
    "  add_u32 $s5, $s0, $s4;\n"
    "  shl_u32 $s5, $s5, 2;\n"
    "  ld_group_u32 $s6, [%sums][$s5];\n"
    "  ld_group_u32 $s7, [%sums][$s3];\n"
    "  add_u32 $s7, $s7, $s6;\n"
    "  st_group_u32 $s7, [%sums][$s3];\n"
    "@added:\n"
    "  shr_u32 $s4, $s4, 1;\n"
    "  cmp_ne_b1_u32 $c0, $s4, 0;\n"
    "  cbr_b1 $c0, @halve;\n"
    "  cmp_ne_b1_u32 $c0, $s0, 0;\n"
    "  cbr_b1 $c0, @end;\n"
    "  ld_group_u32 $s7, [%sums];\n"
    "  ld_kernarg_u64 $d0, [%total];\n"
    "  atomicnoret_add_global_rlx_system_u32 [$d0], $s7;\n"
    "@end:\n"
    "  ret;\n"
    "};\n";

static void check(hsa_status_t status, const char *call)
{
    const char *text = "another status";
    if (status == HSA_STATUS_SUCCESS || status == HSA_STATUS_INFO_BREAK) return;
    hsa_status_string(status, &text);
    fprintf(stderr, "%s: %s\n", call, text);
    exit(1);
}
#define CHECK(call) check((call), #call)

static void on_queue_error(hsa_status_t status, hsa_queue_t *queue, void *data)
{
    (void)queue, (void)data;
    check(status, "the queue");
}

static hsa_status_t find_agent(hsa_agent_t agent, void *found)
{
    uint32_t features = 0;
    CHECK(hsa_agent_get_info(agent, HSA_AGENT_INFO_FEATURE, &features));
    if (!(features & HSA_AGENT_FEATURE_KERNEL_DISPATCH)) return HSA_STATUS_SUCCESS;
    *(hsa_agent_t *)found = agent;
    return HSA_STATUS_INFO_BREAK;
}

/* The region for arguments, and another. */
static hsa_status_t find_regions(hsa_region_t region, void *found)
{
    hsa_region_t *regions = found;
    hsa_region_segment_t segment;
    uint32_t flags = 0;
    CHECK(hsa_region_get_info(region, HSA_REGION_INFO_SEGMENT, &segment));
    if (segment != HSA_REGION_SEGMENT_GLOBAL) return HSA_STATUS_SUCCESS;
    CHECK(hsa_region_get_info(region, HSA_REGION_INFO_GLOBAL_FLAGS, &flags));
    regions[!(flags & HSA_REGION_GLOBAL_FLAG_KERNARG)] = region;
    return HSA_STATUS_SUCCESS;
}

static hsa_kernel_dispatch_packet_t packet_of(hsa_agent_t agent, uint32_t groups)
{
    hsa_code_object_reader_t reader;
    hsa_executable_t executable;
    hsa_executable_symbol_t symbol;
    hsa_kernel_dispatch_packet_t packet = {
        .header = HSA_PACKET_TYPE_KERNEL_DISPATCH << HSA_PACKET_HEADER_TYPE | HSA_FENCE_SCOPE_SYSTEM << HSA_PACKET_HEADER_SCACQUIRE_FENCE_SCOPE
                  | HSA_FENCE_SCOPE_SYSTEM << HSA_PACKET_HEADER_SCRELEASE_FENCE_SCOPE,
        .setup = 1 << HSA_KERNEL_DISPATCH_PACKET_SETUP_DIMENSIONS,
        .workgroup_size_x = ITEMS, .workgroup_size_y = 1, .workgroup_size_z = 1, .grid_size_x = ITEMS * groups, .grid_size_y = 1, .grid_size_z = 1,
    };
    CHECK(hsa_code_object_reader_create_from_memory(KERNEL, sizeof KERNEL - 1, &reader));
    CHECK(hsa_executable_create_alt(HSA_PROFILE_BASE, HSA_DEFAULT_FLOAT_ROUNDING_MODE_DEFAULT, NULL, &executable));
    CHECK(hsa_executable_load_agent_code_object(executable, agent, reader, NULL, NULL));
    CHECK(hsa_executable_freeze(executable, NULL));
    CHECK(hsa_executable_get_symbol_by_name(executable, "&reduction_kernel", &agent, &symbol));
    CHECK(hsa_executable_symbol_get_info(symbol, HSA_EXECUTABLE_SYMBOL_INFO_KERNEL_OBJECT, &packet.kernel_object));
    CHECK(hsa_executable_symbol_get_info(symbol, HSA_EXECUTABLE_SYMBOL_INFO_KERNEL_GROUP_SEGMENT_SIZE, &packet.group_segment_size));
    return packet;
}

static void dispatch(hsa_queue_t *queue, const hsa_kernel_dispatch_packet_t *packet)
{
    uint64_t index = hsa_queue_add_write_index_relaxed(queue, 1);
    hsa_kernel_dispatch_packet_t *slot = (hsa_kernel_dispatch_packet_t *)queue->base_address + (index & (queue->size - 1));
    memcpy((char *)slot + 4, (const char *)packet + 4, sizeof *slot - 4);
    __atomic_store_n((uint32_t *)slot, packet->header | (uint32_t)packet->setup << 16, __ATOMIC_RELEASE);
    hsa_signal_store_screlease(queue->doorbell_signal, (hsa_signal_value_t)index);
}

int main(int count_of_words, char **words)
{
    uint32_t groups = count_of_words > 1 ? (uint32_t)strtoul(words[1], NULL, 10) : 16, sum = 0;
    hsa_agent_t agent = { 0 };
    hsa_region_t regions[2];
    hsa_queue_t *queue;
    struct { uint32_t *numbers, *total; } *arguments;
    CHECK(hsa_init());
    CHECK(hsa_iterate_agents(find_agent, &agent));
    CHECK(hsa_agent_iterate_regions(agent, find_regions, regions));
    CHECK(hsa_queue_create(agent, 16, HSA_QUEUE_TYPE_SINGLE, on_queue_error, NULL, UINT32_MAX, UINT32_MAX, &queue));
    hsa_kernel_dispatch_packet_t packet = packet_of(agent, groups);
    CHECK(hsa_memory_allocate(regions[0], sizeof *arguments, (void **)&arguments));
    CHECK(hsa_memory_allocate(regions[1], ITEMS * groups * sizeof(uint32_t), (void **)&arguments->numbers));
    CHECK(hsa_memory_allocate(regions[1], sizeof(uint32_t), (void **)&arguments->total));
    CHECK(hsa_signal_create(1, 0, NULL, &packet.completion_signal));
    for (uint32_t i = 0; i < ITEMS * groups; i++) sum += arguments->numbers[i] = i * i;
    *arguments->total = 0;
    packet.kernarg_address = arguments;
    dispatch(queue, &packet);
    hsa_signal_wait_scacquire(packet.completion_signal, HSA_SIGNAL_CONDITION_LT, 1, UINT64_MAX, HSA_WAIT_STATE_BLOCKED);
    printf("%u numbers in %u groups: %u, %s\n", ITEMS * groups, groups, *arguments->total, *arguments->total == sum ? "as on the host" : "WRONG");
    int is_wrong = *arguments->total != sum;
    CHECK(hsa_queue_destroy(queue));
    CHECK(hsa_shut_down());
    return is_wrong;
}
