/* Regions and the allocator in them, and the pools of hsa_ext_amd.h, which are the same regions by another name. A region of the policy is
   a global region for all agents; the beginning of its name says what it is for: "kernarg", "coarse", or else fine-grained. Each agent of
   the broker has a group region besides, of which nothing is given out. */
#include "hsa_common.h"

#include <pthread.h>

enum { GRAIN = 64, GROUP_BYTES = 65536 };

typedef struct block {
    uint64_t at, length;
    struct block *next;
    hsa_amd_deallocation_callback_t on_free;
    void *data;
} block;

typedef struct heap {
    uint32_t rights, flags;
    uint64_t length;
    block *blocks; /* by their addresses */
} heap;

static heap heaps[SEAM_REGIONS + 1];
static pthread_mutex_t lock = PTHREAD_MUTEX_INITIALIZER; /* over the blocks */

static bool begins_with(const char *name, const char *beginning)
{
    return !strncmp(name, beginning, strlen(beginning));
}

void memory_begin(void)
{
    seam_object object;
    for (uint32_t region = 1; region <= SEAM_REGIONS && seam_object_of(the_runtime.link, HD_REGION, region, &object); region++) {
        uint32_t flags = begins_with(object.name, "coarse") ? HSA_REGION_GLOBAL_FLAG_COARSE_GRAINED : HSA_REGION_GLOBAL_FLAG_FINE_GRAINED;
        if (begins_with(object.name, "kernarg")) flags |= HSA_REGION_GLOBAL_FLAG_KERNARG;
        heaps[region] = (heap){ object.rights, flags, object.length, NULL };
    }
}

void memory_end(void)
{
    for (uint32_t region = 1; region <= SEAM_REGIONS; region++)
        for (block *it = heaps[region].blocks, *next; it; it = next) {
            next = it->next;
            free(it);
        }
    memset(heaps, 0, sizeof heaps);
}

static bool is_region(uint64_t region)
{
    return region && region <= SEAM_REGIONS && heaps[region].rights;
}

static bool may_allocate(uint64_t region)
{
    return (heaps[region].rights & (HD_READ | HD_WRITE)) == (HD_READ | HD_WRITE);
}

/* ---- regions */

EXPORTED hsa_status_t hsa_agent_iterate_regions(hsa_agent_t agent, hsa_status_t (*callback)(hsa_region_t, void *), void *data)
{
    REQUIRE_INIT();
    REQUIRE(is_agent(agent), HSA_STATUS_ERROR_INVALID_AGENT);
    REQUIRE_ARGUMENT(callback);
    hsa_status_t status = is_broker_agent(agent) ? callback((hsa_region_t){ GROUP_REGION }, data) : HSA_STATUS_SUCCESS;
    for (uint32_t region = 1; !status && region <= SEAM_REGIONS; region++)
        if (is_region(region)) status = callback((hsa_region_t){ region }, data);
    return status;
}

static hsa_status_t group_region_info(uint32_t attribute, void *value)
{
    switch (attribute) {
    case HSA_REGION_INFO_SEGMENT: GIVE(uint32_t, HSA_REGION_SEGMENT_GROUP);
    case HSA_REGION_INFO_GLOBAL_FLAGS: GIVE(uint32_t, 0);
    case HSA_REGION_INFO_SIZE: GIVE(size_t, GROUP_BYTES);
    case HSA_REGION_INFO_ALLOC_MAX_SIZE:
    case HSA_REGION_INFO_RUNTIME_ALLOC_GRANULE:
    case HSA_REGION_INFO_RUNTIME_ALLOC_ALIGNMENT: GIVE(size_t, 0);
    case HSA_REGION_INFO_ALLOC_MAX_PRIVATE_WORKGROUP_SIZE: GIVE(uint32_t, 0);
    case HSA_REGION_INFO_RUNTIME_ALLOC_ALLOWED:
    case HSA_AMD_REGION_INFO_HOST_ACCESSIBLE: GIVE(bool, false);
    case HSA_AMD_REGION_INFO_BASE: GIVE(void *, NULL);
    default: return unknown_attribute("hsa_region_get_info", attribute);
    }
}

EXPORTED hsa_status_t hsa_region_get_info(hsa_region_t region, hsa_region_info_t attribute, void *value)
{
    REQUIRE_INIT();
    REQUIRE(region.handle == GROUP_REGION || is_region(region.handle), HSA_STATUS_ERROR_INVALID_REGION);
    REQUIRE_ARGUMENT(value);
    if (region.handle == GROUP_REGION) return group_region_info((uint32_t)attribute, value);
    const heap *of = &heaps[region.handle];
    bool allocates = may_allocate(region.handle);
    switch ((uint32_t)attribute) {
    case HSA_REGION_INFO_SEGMENT: GIVE(uint32_t, HSA_REGION_SEGMENT_GLOBAL);
    case HSA_REGION_INFO_GLOBAL_FLAGS: GIVE(uint32_t, of->flags);
    case HSA_REGION_INFO_SIZE: GIVE(size_t, of->length);
    case HSA_REGION_INFO_ALLOC_MAX_SIZE: GIVE(size_t, allocates ? of->length : 0);
    case HSA_REGION_INFO_ALLOC_MAX_PRIVATE_WORKGROUP_SIZE: GIVE(uint32_t, 0);
    case HSA_REGION_INFO_RUNTIME_ALLOC_ALLOWED: GIVE(bool, allocates);
    case HSA_REGION_INFO_RUNTIME_ALLOC_GRANULE:
    case HSA_REGION_INFO_RUNTIME_ALLOC_ALIGNMENT: GIVE(size_t, allocates ? GRAIN : 0);
    case HSA_AMD_REGION_INFO_HOST_ACCESSIBLE: GIVE(bool, true);
    case HSA_AMD_REGION_INFO_BASE: GIVE(void *, seam_map(the_runtime.link, (uint32_t)region.handle).bytes);
    default: return unknown_attribute(__func__, (uint32_t)attribute);
    }
}

/* ---- the allocator */

/* Says of each page of a block, and of its span, that it has one user more, or less. */
static void count_users(uint32_t region, const block *it, int more)
{
    seam_region of = seam_map(the_runtime.link, region);
    for (uint64_t page = it->at / SEAM_PAGE; page <= (it->at + it->length - 1) / SEAM_PAGE; page++) {
        atomic_fetch_add(&of.users[page], (uint16_t)more);
        atomic_fetch_add(&of.spans[page / SEAM_SPAN], (uint32_t)more);
    }
}

/* The first gap that is wide enough. Blocks of a page or more begin on a page, as programs expect. The lock is held. */
static block *new_block(heap *of, uint64_t length)
{
    uint64_t at = 0, step = length >= SEAM_PAGE ? SEAM_PAGE : GRAIN;
    block **link = &of->blocks;
    while (*link && (*link)->at < at + length) {
        at = ((*link)->at + (*link)->length + step - 1) / step * step;
        link = &(*link)->next;
    }
    block *it = at + length <= of->length ? calloc(1, sizeof *it) : NULL;
    if (!it) return NULL;
    *it = (block){ .at = at, .length = length, .next = *link };
    *link = it;
    return it;
}

EXPORTED hsa_status_t hsa_memory_allocate(hsa_region_t region, size_t size, void **memory)
{
    REQUIRE_INIT();
    REQUIRE_ARGUMENT(size && memory);
    REQUIRE(region.handle != GROUP_REGION, HSA_STATUS_ERROR_INVALID_ALLOCATION);
    REQUIRE(is_region(region.handle), HSA_STATUS_ERROR_INVALID_REGION);
    heap *of = &heaps[region.handle];
    REQUIRE(may_allocate(region.handle) && size <= of->length, HSA_STATUS_ERROR_INVALID_ALLOCATION);
    pthread_mutex_lock(&lock);
    block *it = new_block(of, (size + GRAIN - 1) / GRAIN * GRAIN);
    if (it) {
        count_users((uint32_t)region.handle, it, 1);
        *memory = seam_map(the_runtime.link, (uint32_t)region.handle).bytes + it->at;
    }
    pthread_mutex_unlock(&lock);
    return it ? HSA_STATUS_SUCCESS : HSA_STATUS_ERROR_OUT_OF_RESOURCES;
}

/* The link to the block that an address lies in, or NULL. The lock is held. */
static block **block_at(const void *pointer, uint32_t *region)
{
    uint64_t number = (uintptr_t)pointer >> 32, at = (uintptr_t)pointer & UINT32_MAX;
    if (!is_region(number)) return NULL;
    *region = (uint32_t)number;
    for (block **link = &heaps[number].blocks; *link; link = &(*link)->next)
        if (at >= (*link)->at && at < (*link)->at + (*link)->length) return link;
    return NULL;
}

EXPORTED hsa_status_t hsa_memory_free(void *pointer)
{
    REQUIRE_INIT();
    if (!pointer) return HSA_STATUS_SUCCESS;
    uint32_t region;
    block *it = NULL;
    pthread_mutex_lock(&lock);
    block **link = block_at(pointer, &region);
    if (link && (*link)->at == ((uintptr_t)pointer & UINT32_MAX)) {
        it = *link;
        *link = it->next;
        count_users(region, it, -1);
    }
    pthread_mutex_unlock(&lock);
    REQUIRE(it, HSA_STATUS_ERROR_INVALID_ALLOCATION);
    if (it->on_free) it->on_free(pointer, it->data);
    free(it);
    return HSA_STATUS_SUCCESS;
}

EXPORTED hsa_status_t hsa_memory_copy(void *to, const void *from, size_t size)
{
    REQUIRE_INIT();
    REQUIRE_ARGUMENT(to && from);
    memmove(to, from, size);
    return HSA_STATUS_SUCCESS;
}

/* In the base profile registering is no more than a hint: what kernels may use comes from hsa_memory_allocate alone. */
EXPORTED hsa_status_t hsa_memory_register(void *pointer, size_t size)
{
    REQUIRE_INIT();
    REQUIRE_ARGUMENT(pointer || !size);
    return HSA_STATUS_SUCCESS;
}

EXPORTED hsa_status_t hsa_memory_deregister(void *pointer, size_t size)
{
    (void)pointer, (void)size;
    REQUIRE_INIT();
    return HSA_STATUS_SUCCESS;
}

/* All agents see all regions. */
EXPORTED hsa_status_t hsa_memory_assign_agent(void *pointer, hsa_agent_t agent, hsa_access_permission_t access)
{
    REQUIRE_INIT();
    REQUIRE(is_agent(agent), HSA_STATUS_ERROR_INVALID_AGENT);
    REQUIRE_ARGUMENT(pointer && access >= HSA_ACCESS_PERMISSION_RO && access <= HSA_ACCESS_PERMISSION_RW);
    return HSA_STATUS_SUCCESS;
}

/* ---- what hsa_ext_amd.h asks of a block */

/* Nothing is ever locked: hsa_amd_memory_lock has an error. */
EXPORTED hsa_status_t hsa_amd_memory_unlock(void *pointer)
{
    (void)pointer;
    REQUIRE_INIT();
    return HSA_STATUS_SUCCESS;
}

EXPORTED hsa_status_t hsa_amd_register_deallocation_callback(void *pointer, hsa_amd_deallocation_callback_t callback, void *data)
{
    REQUIRE_INIT();
    REQUIRE_ARGUMENT(pointer && callback);
    uint32_t region;
    pthread_mutex_lock(&lock);
    block **link = block_at(pointer, &region);
    if (link) (*link)->on_free = callback, (*link)->data = data;
    pthread_mutex_unlock(&lock);
    return link ? HSA_STATUS_SUCCESS : HSA_STATUS_ERROR_INVALID_ALLOCATION;
}

EXPORTED hsa_status_t hsa_amd_deregister_deallocation_callback(void *pointer, hsa_amd_deallocation_callback_t callback)
{
    REQUIRE_INIT();
    REQUIRE_ARGUMENT(pointer && callback);
    uint32_t region;
    pthread_mutex_lock(&lock);
    block **link = block_at(pointer, &region);
    bool was_there = link && (*link)->on_free == callback;
    if (was_there) (*link)->on_free = NULL;
    pthread_mutex_unlock(&lock);
    return was_there ? HSA_STATUS_SUCCESS : HSA_STATUS_ERROR_INVALID_ARGUMENT;
}

EXPORTED hsa_status_t hsa_amd_pointer_info(const void *pointer, hsa_amd_pointer_info_t *info, void *(*allocate)(size_t), uint32_t *count, hsa_agent_t **agents)
{
    static const hsa_agent_t FIRST = { 1 };
    REQUIRE_INIT();
    REQUIRE_ARGUMENT(pointer && info);
    uint32_t region, size = info->size;
    hsa_amd_pointer_info_t told = { .size = size, .type = HSA_EXT_POINTER_TYPE_UNKNOWN };
    pthread_mutex_lock(&lock);
    block **link = block_at(pointer, &region);
    if (link) {
        told.type = HSA_EXT_POINTER_TYPE_HSA;
        told.agentBaseAddress = told.hostBaseAddress = seam_map(the_runtime.link, region).bytes + (*link)->at;
        told.sizeInBytes = (*link)->length;
        told.agentOwner = FIRST;
    }
    pthread_mutex_unlock(&lock);
    memcpy(info, &told, size < sizeof told ? size : sizeof told);
    if (!allocate || !count || !agents) return HSA_STATUS_SUCCESS;
    *count = 0;
    *agents = link ? allocate(sizeof **agents) : NULL;
    if (!*agents) return link ? HSA_STATUS_ERROR_OUT_OF_RESOURCES : HSA_STATUS_SUCCESS;
    **agents = FIRST;
    *count = 1;
    return HSA_STATUS_SUCCESS;
}
