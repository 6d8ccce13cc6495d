/* The memory pools of hsa_ext_amd.h: a pool is a region, and has its handle. */
#include "hsa_common.h"

typedef struct pool_walk {
    hsa_status_t (*callback)(hsa_amd_memory_pool_t, void *);
    void *data;
} pool_walk;

static hsa_status_t call_with_pool(hsa_region_t region, void *data)
{
    const pool_walk *walk = data;
    return walk->callback((hsa_amd_memory_pool_t){ region.handle }, walk->data);
}

EXPORTED hsa_status_t hsa_amd_agent_iterate_memory_pools(hsa_agent_t agent, hsa_status_t (*callback)(hsa_amd_memory_pool_t, void *), void *data)
{
    pool_walk walk = { callback, data };
    return hsa_agent_iterate_regions(agent, callback ? call_with_pool : NULL, &walk);
}

static hsa_status_t give_flags(hsa_region_t region, void *value)
{
    uint32_t flags = 0, of_pool = 0;
    hsa_status_t status = hsa_region_get_info(region, HSA_REGION_INFO_GLOBAL_FLAGS, &flags);
    if (status) return status;
    if (flags & HSA_REGION_GLOBAL_FLAG_KERNARG) of_pool |= HSA_AMD_MEMORY_POOL_GLOBAL_FLAG_KERNARG_INIT;
    if (flags & HSA_REGION_GLOBAL_FLAG_FINE_GRAINED) of_pool |= HSA_AMD_MEMORY_POOL_GLOBAL_FLAG_FINE_GRAINED;
    if (flags & HSA_REGION_GLOBAL_FLAG_COARSE_GRAINED) of_pool |= HSA_AMD_MEMORY_POOL_GLOBAL_FLAG_COARSE_GRAINED;
    GIVE(uint32_t, of_pool);
}

EXPORTED hsa_status_t hsa_amd_memory_pool_get_info(hsa_amd_memory_pool_t pool, hsa_amd_memory_pool_info_t attribute, void *value)
{
    hsa_region_t region = { pool.handle };
    bool is_known;
    REQUIRE_INIT();
    REQUIRE_ARGUMENT(value);
    hsa_status_t status = hsa_region_get_info(region, (hsa_region_info_t)HSA_AMD_REGION_INFO_HOST_ACCESSIBLE, &is_known);
    if (status) return status;
    switch ((uint32_t)attribute) {
    case HSA_AMD_MEMORY_POOL_INFO_SEGMENT: return hsa_region_get_info(region, HSA_REGION_INFO_SEGMENT, value);
    case HSA_AMD_MEMORY_POOL_INFO_GLOBAL_FLAGS: return give_flags(region, value);
    case HSA_AMD_MEMORY_POOL_INFO_SIZE: return hsa_region_get_info(region, HSA_REGION_INFO_SIZE, value);
    case HSA_AMD_MEMORY_POOL_INFO_RUNTIME_ALLOC_ALLOWED: return hsa_region_get_info(region, HSA_REGION_INFO_RUNTIME_ALLOC_ALLOWED, value);
    case HSA_AMD_MEMORY_POOL_INFO_RUNTIME_ALLOC_GRANULE: return hsa_region_get_info(region, HSA_REGION_INFO_RUNTIME_ALLOC_GRANULE, value);
    case HSA_AMD_MEMORY_POOL_INFO_RUNTIME_ALLOC_ALIGNMENT: return hsa_region_get_info(region, HSA_REGION_INFO_RUNTIME_ALLOC_ALIGNMENT, value);
    case HSA_AMD_MEMORY_POOL_INFO_ALLOC_MAX_SIZE: return hsa_region_get_info(region, HSA_REGION_INFO_ALLOC_MAX_SIZE, value);
    case HSA_AMD_MEMORY_POOL_INFO_ACCESSIBLE_BY_ALL: GIVE(bool, pool.handle != GROUP_REGION);
    default: return unknown_attribute(__func__, (uint32_t)attribute);
    }
}

EXPORTED hsa_status_t hsa_amd_memory_pool_allocate(hsa_amd_memory_pool_t pool, size_t size, uint32_t flags, void **memory)
{
    (void)flags;
    return hsa_memory_allocate((hsa_region_t){ pool.handle }, size, memory);
}

EXPORTED hsa_status_t hsa_amd_memory_pool_free(void *pointer)
{
    return hsa_memory_free(pointer);
}

/* All agents see all regions. */
EXPORTED hsa_status_t hsa_amd_agents_allow_access(uint32_t count, const hsa_agent_t *agents, const uint32_t *flags, const void *pointer)
{
    REQUIRE_INIT();
    REQUIRE_ARGUMENT(count && agents && !flags && pointer);
    for (uint32_t i = 0; i < count; i++) REQUIRE(is_agent(agents[i]), HSA_STATUS_ERROR_INVALID_AGENT);
    return HSA_STATUS_SUCCESS;
}

EXPORTED hsa_status_t hsa_amd_agent_memory_pool_get_info(hsa_agent_t agent, hsa_amd_memory_pool_t pool, hsa_amd_agent_memory_pool_info_t attribute, void *value)
{
    REQUIRE_INIT();
    REQUIRE(is_agent(agent), HSA_STATUS_ERROR_INVALID_AGENT);
    REQUIRE_ARGUMENT(value);
    switch ((uint32_t)attribute) {
    case HSA_AMD_AGENT_MEMORY_POOL_INFO_ACCESS:
        GIVE(uint32_t, pool.handle == GROUP_REGION ? HSA_AMD_MEMORY_POOL_ACCESS_NEVER_ALLOWED : HSA_AMD_MEMORY_POOL_ACCESS_ALLOWED_BY_DEFAULT);
    case HSA_AMD_AGENT_MEMORY_POOL_INFO_NUM_LINK_HOPS: GIVE(uint32_t, 0);
    default: return unknown_attribute(__func__, (uint32_t)attribute);
    }
}

EXPORTED hsa_status_t hsa_amd_memory_pool_can_migrate(hsa_amd_memory_pool_t from, hsa_amd_memory_pool_t to, bool *result)
{
    (void)from, (void)to;
    REQUIRE_INIT();
    REQUIRE_ARGUMENT(result);
    *result = false;
    return HSA_STATUS_SUCCESS;
}

EXPORTED hsa_status_t hsa_amd_memory_fill(void *pointer, uint32_t value, size_t count)
{
    REQUIRE_INIT();
    REQUIRE_ARGUMENT(pointer && (uintptr_t)pointer % sizeof value == 0);
    for (size_t i = 0; i < count; i++) ((uint32_t *)pointer)[i] = value;
    return HSA_STATUS_SUCCESS;
}
