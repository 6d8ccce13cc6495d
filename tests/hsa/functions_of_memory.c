/* Tests of the functions of regions, memory and pools. */
#include "functions.h"

static void *new_memory(size_t size)
{
    void *memory = NULL;
    hsa_memory_allocate(the.fine, size, &memory);
    return memory;
}

/* ---- regions */

typedef struct seen_regions {
    int global, group;
} seen_regions;

static hsa_status_t count_region(hsa_region_t region, void *data)
{
    seen_regions *seen = data;
    if (region.handle == the.group.handle) seen->group++;
    else seen->global++;
    return OK;
}

static hsa_status_t stop_at_region(hsa_region_t region, void *data)
{
    (void)region;
    ++*(int *)data;
    return HSA_STATUS_INFO_BREAK;
}

static void test_iterate_regions(void)
{
    seen_regions seen = { 0, 0 };
    int count = 0;
    IS(hsa_agent_iterate_regions(the.gpu, count_region, &seen), OK);
    IS(seen.global, 4);
    IS(seen.group, 1);
    IS(hsa_agent_iterate_regions(the.gpu, stop_at_region, &count), HSA_STATUS_INFO_BREAK);
    IS(count, 1);
    IS(hsa_agent_iterate_regions((hsa_agent_t){ 3 }, count_region, &seen), HSA_STATUS_ERROR_INVALID_AGENT);
}

static void test_region_get_info(void)
{
    hsa_region_segment_t segment = HSA_REGION_SEGMENT_KERNARG;
    size_t size = 0;
    uint32_t flags = 0;
    bool allocates = false;
    IS(hsa_region_get_info(the.fine, HSA_REGION_INFO_SEGMENT, &segment), OK);
    IS(segment, HSA_REGION_SEGMENT_GLOBAL);
    IS(hsa_region_get_info(the.fine, HSA_REGION_INFO_SIZE, &size), OK);
    IS(size, 65536);
    IS(hsa_region_get_info(the.kernarg, HSA_REGION_INFO_GLOBAL_FLAGS, &flags), OK);
    IS(flags, HSA_REGION_GLOBAL_FLAG_KERNARG | HSA_REGION_GLOBAL_FLAG_FINE_GRAINED);
    IS(hsa_region_get_info(the.coarse, HSA_REGION_INFO_GLOBAL_FLAGS, &flags), OK);
    IS(flags, HSA_REGION_GLOBAL_FLAG_COARSE_GRAINED);
    IS(hsa_region_get_info(the.fine, HSA_REGION_INFO_RUNTIME_ALLOC_ALLOWED, &allocates), OK);
    IS(allocates, true);
    IS(hsa_region_get_info((hsa_region_t){ 4 }, HSA_REGION_INFO_RUNTIME_ALLOC_ALLOWED, &allocates), OK);
    IS(allocates, false); /* the client may not write there */
    IS(hsa_region_get_info(the.group, HSA_REGION_INFO_SEGMENT, &segment), OK);
    IS(segment, HSA_REGION_SEGMENT_GROUP);
    IS(hsa_region_get_info((hsa_region_t){ 9 }, HSA_REGION_INFO_SIZE, &size), HSA_STATUS_ERROR_INVALID_REGION);
    IS(hsa_region_get_info(the.fine, (hsa_region_info_t)99, &size), BAD);
}

/* ---- memory */

static void test_allocate(void)
{
    void *memory = NULL, *other = NULL;
    IS(hsa_memory_allocate(the.fine, 100, &memory), OK);
    IS(memory != NULL, 1);
    if (!memory) return;
    memset(memory, 1, 100);
    IS(hsa_memory_allocate(the.fine, 100, &other), OK);
    IS((char *)other >= (char *)memory + 100 || (char *)memory >= (char *)other + 100, 1);
    IS(hsa_memory_allocate(the.fine, 65536, &other), HSA_STATUS_ERROR_OUT_OF_RESOURCES);
    IS(hsa_memory_allocate(the.fine, 65537, &other), HSA_STATUS_ERROR_INVALID_ALLOCATION);
    IS(hsa_memory_allocate((hsa_region_t){ 4 }, 8, &other), HSA_STATUS_ERROR_INVALID_ALLOCATION);
    IS(hsa_memory_allocate(the.group, 8, &other), HSA_STATUS_ERROR_INVALID_ALLOCATION);
    IS(hsa_memory_allocate((hsa_region_t){ 9 }, 8, &other), HSA_STATUS_ERROR_INVALID_REGION);
    IS(hsa_memory_allocate(the.fine, 0, &other), BAD);
}

static void test_free(void)
{
    void *memory = new_memory(65536), *again = NULL;
    IS(hsa_memory_free((char *)memory + 1), HSA_STATUS_ERROR_INVALID_ALLOCATION);
    IS(hsa_memory_free(memory), OK);
    IS(hsa_memory_free(memory), HSA_STATUS_ERROR_INVALID_ALLOCATION);
    IS(hsa_memory_allocate(the.fine, 65536, &again), OK);
    IS(hsa_memory_free(NULL), OK);
}

static void test_copy(void)
{
    char *memory = new_memory(8);
    IS(hsa_memory_copy(memory, "abc", 4), OK);
    IS(strcmp(memory, "abc"), 0);
    IS(hsa_memory_copy(NULL, "abc", 4), BAD);
}

static void test_assign_agent(void)
{
    void *memory = new_memory(8);
    IS(hsa_memory_assign_agent(memory, the.gpu, HSA_ACCESS_PERMISSION_RW), OK);
    IS(hsa_memory_assign_agent(memory, (hsa_agent_t){ 3 }, HSA_ACCESS_PERMISSION_RW), HSA_STATUS_ERROR_INVALID_AGENT);
    IS(hsa_memory_assign_agent(memory, the.gpu, (hsa_access_permission_t)0), BAD);
}

static void test_register(void)
{
    int own;
    IS(hsa_memory_register(&own, sizeof own), OK);
    IS(hsa_memory_register(NULL, 4), BAD);
}

static void test_deregister(void)
{
    int own;
    IS(hsa_memory_deregister(&own, sizeof own), OK);
    hsa_shut_down();
    IS(hsa_memory_deregister(&own, sizeof own), HSA_STATUS_ERROR_NOT_INITIALIZED);
}

static void test_unlock(void)
{
    int own;
    IS(hsa_amd_memory_unlock(&own), OK);
    hsa_shut_down();
    IS(hsa_amd_memory_unlock(&own), HSA_STATUS_ERROR_NOT_INITIALIZED);
}

/* ---- pools */

static hsa_amd_memory_pool_t pool_of(hsa_region_t region)
{
    return (hsa_amd_memory_pool_t){ region.handle };
}

static hsa_status_t count_pool(hsa_amd_memory_pool_t pool, void *data)
{
    *(int *)data += pool.handle != the.group.handle;
    return OK;
}

static void test_iterate_pools(void)
{
    int count = 0;
    IS(hsa_amd_agent_iterate_memory_pools(the.gpu, count_pool, &count), OK);
    IS(count, 4);
    IS(hsa_amd_agent_iterate_memory_pools(the.gpu, NULL, &count), BAD);
}

static void test_pool_get_info(void)
{
    uint32_t flags = 0;
    size_t size = 0;
    bool by_all = false;
    IS(hsa_amd_memory_pool_get_info(pool_of(the.kernarg), HSA_AMD_MEMORY_POOL_INFO_GLOBAL_FLAGS, &flags), OK);
    IS(flags, HSA_AMD_MEMORY_POOL_GLOBAL_FLAG_KERNARG_INIT | HSA_AMD_MEMORY_POOL_GLOBAL_FLAG_FINE_GRAINED);
    IS(hsa_amd_memory_pool_get_info(pool_of(the.coarse), HSA_AMD_MEMORY_POOL_INFO_SIZE, &size), OK);
    IS(size, 65536);
    IS(hsa_amd_memory_pool_get_info(pool_of(the.coarse), HSA_AMD_MEMORY_POOL_INFO_ACCESSIBLE_BY_ALL, &by_all), OK);
    IS(by_all, true);
    IS(hsa_amd_memory_pool_get_info(pool_of((hsa_region_t){ 9 }), HSA_AMD_MEMORY_POOL_INFO_SIZE, &size), HSA_STATUS_ERROR_INVALID_REGION);
}

static void test_agent_pool_get_info(void)
{
    hsa_amd_memory_pool_access_t access = HSA_AMD_MEMORY_POOL_ACCESS_NEVER_ALLOWED;
    uint32_t hops = 9;
    IS(hsa_amd_agent_memory_pool_get_info(the.gpu, pool_of(the.fine), HSA_AMD_AGENT_MEMORY_POOL_INFO_ACCESS, &access), OK);
    IS(access, HSA_AMD_MEMORY_POOL_ACCESS_ALLOWED_BY_DEFAULT);
    IS(hsa_amd_agent_memory_pool_get_info(the.gpu, pool_of(the.fine), HSA_AMD_AGENT_MEMORY_POOL_INFO_NUM_LINK_HOPS, &hops), OK);
    IS(hops, 0);
}

static void test_pool_allocate(void)
{
    void *memory = NULL;
    IS(hsa_amd_memory_pool_allocate(pool_of(the.coarse), 64, 0, &memory), OK);
    IS((uintptr_t)memory >> 32, the.coarse.handle);
    IS(hsa_amd_memory_pool_allocate(pool_of((hsa_region_t){ 9 }), 64, 0, &memory), HSA_STATUS_ERROR_INVALID_REGION);
}

static void test_pool_free(void)
{
    void *memory = new_memory(64);
    IS(hsa_amd_memory_pool_free(memory), OK);
    IS(hsa_amd_memory_pool_free(memory), HSA_STATUS_ERROR_INVALID_ALLOCATION);
}

static void test_allow_access(void)
{
    void *memory = new_memory(64);
    hsa_agent_t none = { 3 };
    IS(hsa_amd_agents_allow_access(1, &the.gpu, NULL, memory), OK);
    IS(hsa_amd_agents_allow_access(1, &none, NULL, memory), HSA_STATUS_ERROR_INVALID_AGENT);
    IS(hsa_amd_agents_allow_access(0, &the.gpu, NULL, memory), BAD);
}

static void test_can_migrate(void)
{
    bool answer = true;
    IS(hsa_amd_memory_pool_can_migrate(pool_of(the.fine), pool_of(the.coarse), &answer), OK);
    IS(answer, false);
}

static void test_fill(void)
{
    uint32_t *memory = new_memory(64);
    IS(hsa_amd_memory_fill(memory, 0x1234567, 3), OK);
    IS(memory[2], 0x1234567);
    IS(memory[3], 0);
    IS(hsa_amd_memory_fill(NULL, 1, 1), BAD);
}

/* ---- what is asked of a block */

static void test_pointer_info(void)
{
    char *memory = new_memory(100);
    uint32_t count = 0;
    hsa_agent_t *agents = NULL;
    hsa_amd_pointer_info_t info = { .size = sizeof info };
    IS(hsa_amd_pointer_info(memory + 5, &info, malloc, &count, &agents), OK);
    IS(info.type, HSA_EXT_POINTER_TYPE_HSA);
    IS(info.agentBaseAddress == memory && info.hostBaseAddress == memory, 1);
    IS(info.sizeInBytes >= 100, 1);
    IS(count, 1);
    IS(agents && agents[0].handle == the.gpu.handle, 1);
    free(agents);
    IS(hsa_amd_pointer_info(&info, &info, NULL, NULL, NULL), OK);
    IS(info.type, HSA_EXT_POINTER_TYPE_UNKNOWN);
}

static void on_free(void *memory, void *data)
{
    *(void **)data = memory;
}

static void test_register_deallocation(void)
{
    void *memory = new_memory(64), *freed = NULL;
    IS(hsa_amd_register_deallocation_callback(memory, on_free, &freed), OK);
    hsa_memory_free(memory);
    IS(freed == memory, 1);
    IS(hsa_amd_register_deallocation_callback(memory, on_free, &freed), HSA_STATUS_ERROR_INVALID_ALLOCATION);
}

static void test_deregister_deallocation(void)
{
    void *memory = new_memory(64), *freed = NULL;
    hsa_amd_register_deallocation_callback(memory, on_free, &freed);
    IS(hsa_amd_deregister_deallocation_callback(memory, on_free), OK);
    IS(hsa_amd_deregister_deallocation_callback(memory, on_free), BAD);
    hsa_memory_free(memory);
    IS(freed == NULL, 1);
}

const test memory_tests[] = {
    { "hsa_agent_iterate_regions", test_iterate_regions }, { "hsa_region_get_info", test_region_get_info },
    { "hsa_memory_allocate", test_allocate }, { "hsa_memory_free", test_free }, { "hsa_memory_copy", test_copy },
    { "hsa_memory_assign_agent", test_assign_agent }, { "hsa_memory_register", test_register }, { "hsa_memory_deregister", test_deregister },
    { "hsa_amd_memory_unlock", test_unlock }, { "hsa_amd_agent_iterate_memory_pools", test_iterate_pools },
    { "hsa_amd_memory_pool_get_info", test_pool_get_info }, { "hsa_amd_agent_memory_pool_get_info", test_agent_pool_get_info },
    { "hsa_amd_memory_pool_allocate", test_pool_allocate }, { "hsa_amd_memory_pool_free", test_pool_free },
    { "hsa_amd_agents_allow_access", test_allow_access }, { "hsa_amd_memory_pool_can_migrate", test_can_migrate },
    { "hsa_amd_memory_fill", test_fill }, { "hsa_amd_pointer_info", test_pointer_info },
    { "hsa_amd_register_deallocation_callback", test_register_deallocation },
    { "hsa_amd_deregister_deallocation_callback", test_deregister_deallocation }, { NULL, NULL },
};
