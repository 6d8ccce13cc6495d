/* Agents and their caches. The host is an agent that takes no packets; the others are the policy's. */
#include "hsa_common.h"

#include <inttypes.h>

enum { MOST_ITEMS = 1024, LEAST_SLOTS = 2, MOST_SLOTS = 4096 };

bool is_broker_agent(hsa_agent_t agent)
{
    return agent.handle && agent.handle <= SEAM_AGENTS && agent.handle <= seam_count(the_runtime.link, HD_AGENT);
}

bool is_agent(hsa_agent_t agent)
{
    return agent.handle == HOST_AGENT || is_broker_agent(agent);
}

bool takes_kernels(hsa_agent_t agent)
{
    seam_object object;
    return is_broker_agent(agent) && seam_object_of(the_runtime.link, HD_AGENT, (uint32_t)agent.handle, &object) && object.takes & SEAM_TAKES_KERNEL;
}

EXPORTED hsa_status_t hsa_iterate_agents(hsa_status_t (*callback)(hsa_agent_t, void *), void *data)
{
    REQUIRE_INIT();
    REQUIRE_ARGUMENT(callback);
    seam_object object;
    hsa_status_t status = callback((hsa_agent_t){ HOST_AGENT }, data);
    for (uint32_t number = 1; !status && seam_object_of(the_runtime.link, HD_AGENT, number, &object); number++)
        if (object.rights & HD_USE) status = callback((hsa_agent_t){ number }, data);
    return status;
}

/* The processor's name, as Linux tells it. */
static hsa_status_t give_host_name(void *value)
{
    char line[256], name[64] = "host";
    FILE *file = fopen("/proc/cpuinfo", "r");
    while (file && fgets(line, sizeof line, file))
        if (sscanf(line, "model name : %63[^\n]", name) == 1) break;
    if (file) fclose(file);
    GIVE_TEXT(64, name);
}

static hsa_status_t give_unique_name(bool is_host, uint64_t agent, void *value)
{
    char name[21];
    if (is_host) snprintf(name, sizeof name, "CPU-XX");
    else snprintf(name, sizeof name, "GPU-hobbydresser%03u", (unsigned)(agent % 1000));
    GIVE_TEXT(sizeof name, name);
}

/* Attributes of hsa_ext_amd.h: of a device that has none of what they ask for. */
static hsa_status_t amd_info(bool is_host, uint64_t agent, uint32_t attribute, void *value)
{
    switch (attribute) {
    case HSA_AMD_AGENT_INFO_CHIP_ID:
    case HSA_AMD_AGENT_INFO_MAX_CLOCK_FREQUENCY:
    case HSA_AMD_AGENT_INFO_BDFID:
    case HSA_AMD_AGENT_INFO_ASIC_REVISION:
    case HSA_AMD_AGENT_INFO_MEMORY_WIDTH:
    case HSA_AMD_AGENT_INFO_MEMORY_MAX_FREQUENCY:
    case HSA_AMD_AGENT_INFO_DOMAIN:
    case HSA_AMD_AGENT_INFO_MAX_ADDRESS_WATCH_POINTS:
    case HSA_AMD_AGENT_INFO_NUM_SHADER_ENGINES:
    case HSA_AMD_AGENT_INFO_NUM_SHADER_ARRAYS_PER_SE: GIVE(uint32_t, 0);
    case HSA_AMD_AGENT_INFO_CACHELINE_SIZE: GIVE(uint32_t, 64);
    case HSA_AMD_AGENT_INFO_COMPUTE_UNIT_COUNT:
    case HSA_AMD_AGENT_INFO_NUM_SIMDS_PER_CU:
    case HSA_AMD_AGENT_INFO_MAX_WAVES_PER_CU: GIVE(uint32_t, 1);
    case HSA_AMD_AGENT_INFO_DRIVER_NODE_ID: GIVE(uint32_t, is_host ? 0 : (uint32_t)agent);
    case HSA_AMD_AGENT_INFO_PRODUCT_NAME:
        if (is_host) return give_host_name(value);
        GIVE_TEXT(64, "a broker's agent, in software");
    case HSA_AMD_AGENT_INFO_HDP_FLUSH: GIVE_ZEROS(sizeof(hsa_amd_hdp_flush_t));
    case HSA_AMD_AGENT_INFO_COOPERATIVE_QUEUES: GIVE(bool, false);
    case HSA_AMD_AGENT_INFO_SVM_DIRECT_HOST_ACCESS: GIVE(bool, !is_host);
    case HSA_AMD_AGENT_INFO_UUID: return give_unique_name(is_host, agent, value);
    default: return unknown_attribute("hsa_agent_get_info", attribute);
    }
}

static hsa_status_t host_info(uint32_t attribute, void *value)
{
    switch (attribute) {
    case HSA_AGENT_INFO_NAME: return give_host_name(value);
    case HSA_AGENT_INFO_VENDOR_NAME: GIVE_TEXT(64, "CPU");
    case HSA_AGENT_INFO_MACHINE_MODEL: GIVE(hsa_machine_model_t, HSA_MACHINE_MODEL_LARGE);
    case HSA_AGENT_INFO_PROFILE: GIVE(hsa_profile_t, HSA_PROFILE_FULL);
    case HSA_AGENT_INFO_DEFAULT_FLOAT_ROUNDING_MODE:
    case HSA_AGENT_INFO_BASE_PROFILE_DEFAULT_FLOAT_ROUNDING_MODES: GIVE(uint32_t, HSA_DEFAULT_FLOAT_ROUNDING_MODE_NEAR);
    case HSA_AGENT_INFO_FAST_F16_OPERATION: GIVE(bool, false);
    case HSA_AGENT_INFO_WORKGROUP_MAX_DIM: GIVE_ZEROS(3 * sizeof(uint16_t));
    case HSA_AGENT_INFO_GRID_MAX_DIM: GIVE_ZEROS(sizeof(hsa_dim3_t));
    case HSA_AGENT_INFO_FEATURE:
    case HSA_AGENT_INFO_WAVEFRONT_SIZE:
    case HSA_AGENT_INFO_WORKGROUP_MAX_SIZE:
    case HSA_AGENT_INFO_GRID_MAX_SIZE:
    case HSA_AGENT_INFO_FBARRIER_MAX_SIZE:
    case HSA_AGENT_INFO_QUEUES_MAX:
    case HSA_AGENT_INFO_QUEUE_MIN_SIZE:
    case HSA_AGENT_INFO_QUEUE_MAX_SIZE:
    case HSA_AGENT_INFO_NODE: GIVE(uint32_t, 0);
    case HSA_AGENT_INFO_QUEUE_TYPE: GIVE(hsa_queue_type32_t, HSA_QUEUE_TYPE_MULTI);
    case HSA_AGENT_INFO_DEVICE: GIVE(hsa_device_type_t, HSA_DEVICE_TYPE_CPU);
    case HSA_AGENT_INFO_CACHE_SIZE: GIVE_ZEROS(4 * sizeof(uint32_t));
    case HSA_AGENT_INFO_ISA: GIVE(hsa_isa_t, ((hsa_isa_t){ 0 }));
    case HSA_AGENT_INFO_EXTENSIONS: GIVE_ZEROS(128);
    case HSA_AGENT_INFO_VERSION_MAJOR:
    case HSA_AGENT_INFO_VERSION_MINOR: GIVE(uint16_t, 1);
    default: return amd_info(true, HOST_AGENT, attribute, value);
    }
}

static uint32_t features_of(const seam_object *object)
{
    uint32_t features = 0;
    if (object->takes & SEAM_TAKES_KERNEL) features |= HSA_AGENT_FEATURE_KERNEL_DISPATCH;
    if (object->takes & SEAM_TAKES_AGENT) features |= HSA_AGENT_FEATURE_AGENT_DISPATCH;
    return features;
}

/* What an agent that takes no kernels has no meaning for is 0. */
static hsa_status_t kernel_info(bool has_kernels, uint32_t attribute, void *value)
{
    switch (attribute) {
    case HSA_AGENT_INFO_WAVEFRONT_SIZE: GIVE(uint32_t, has_kernels ? 1 : 0);
    case HSA_AGENT_INFO_WORKGROUP_MAX_SIZE: GIVE(uint32_t, has_kernels ? MOST_ITEMS : 0);
    case HSA_AGENT_INFO_GRID_MAX_SIZE: GIVE(uint32_t, has_kernels ? UINT32_MAX : 0);
    case HSA_AGENT_INFO_FBARRIER_MAX_SIZE: GIVE(uint32_t, 0);
    case HSA_AGENT_INFO_WORKGROUP_MAX_DIM:
        for (int i = 0; i < 3; i++) ((uint16_t *)value)[i] = has_kernels ? MOST_ITEMS : 0;
        return HSA_STATUS_SUCCESS;
    default: { /* HSA_AGENT_INFO_GRID_MAX_DIM */
        uint32_t most = has_kernels ? UINT32_MAX : 0;
        GIVE(hsa_dim3_t, ((hsa_dim3_t){ most, most, most }));
    }
    }
}

static hsa_status_t agent_info(uint32_t agent, const seam_object *object, uint32_t attribute, void *value)
{
    bool has_kernels = object->takes & SEAM_TAKES_KERNEL;
    switch (attribute) {
    case HSA_AGENT_INFO_NAME: GIVE_TEXT(64, object->name);
    case HSA_AGENT_INFO_VENDOR_NAME: GIVE_TEXT(64, "Hobbydresser");
    case HSA_AGENT_INFO_FEATURE: GIVE(uint32_t, features_of(object));
    case HSA_AGENT_INFO_MACHINE_MODEL: GIVE(hsa_machine_model_t, HSA_MACHINE_MODEL_LARGE);
    case HSA_AGENT_INFO_PROFILE: GIVE(hsa_profile_t, HSA_PROFILE_BASE);
    case HSA_AGENT_INFO_DEFAULT_FLOAT_ROUNDING_MODE:
    case HSA_AGENT_INFO_BASE_PROFILE_DEFAULT_FLOAT_ROUNDING_MODES: GIVE(uint32_t, HSA_DEFAULT_FLOAT_ROUNDING_MODE_ZERO);
    case HSA_AGENT_INFO_FAST_F16_OPERATION: GIVE(bool, false);
    case HSA_AGENT_INFO_WAVEFRONT_SIZE:
    case HSA_AGENT_INFO_WORKGROUP_MAX_DIM:
    case HSA_AGENT_INFO_WORKGROUP_MAX_SIZE:
    case HSA_AGENT_INFO_GRID_MAX_DIM:
    case HSA_AGENT_INFO_GRID_MAX_SIZE:
    case HSA_AGENT_INFO_FBARRIER_MAX_SIZE: return kernel_info(has_kernels, attribute, value);
    case HSA_AGENT_INFO_QUEUES_MAX: GIVE(uint32_t, SEAM_QUEUES);
    case HSA_AGENT_INFO_QUEUE_MIN_SIZE: GIVE(uint32_t, LEAST_SLOTS);
    case HSA_AGENT_INFO_QUEUE_MAX_SIZE: GIVE(uint32_t, MOST_SLOTS);
    case HSA_AGENT_INFO_QUEUE_TYPE: GIVE(hsa_queue_type32_t, HSA_QUEUE_TYPE_MULTI);
    case HSA_AGENT_INFO_NODE: GIVE(uint32_t, agent);
    case HSA_AGENT_INFO_DEVICE: GIVE(hsa_device_type_t, has_kernels ? HSA_DEVICE_TYPE_GPU : HSA_DEVICE_TYPE_DSP);
    case HSA_AGENT_INFO_CACHE_SIZE: GIVE_ZEROS(4 * sizeof(uint32_t));
    case HSA_AGENT_INFO_ISA: GIVE(hsa_isa_t, ((hsa_isa_t){ has_kernels ? HSAIL_ISA : 0 }));
    case HSA_AGENT_INFO_EXTENSIONS:
        memset(value, 0, 128);
        *(uint8_t *)value = has_kernels ? 1 << HSA_EXTENSION_FINALIZER : 0;
        return HSA_STATUS_SUCCESS;
    case HSA_AGENT_INFO_VERSION_MAJOR:
    case HSA_AGENT_INFO_VERSION_MINOR: GIVE(uint16_t, 1);
    default: return amd_info(false, agent, attribute, value);
    }
}

EXPORTED hsa_status_t hsa_agent_get_info(hsa_agent_t agent, hsa_agent_info_t attribute, void *value)
{
    seam_object object;
    REQUIRE_INIT();
    REQUIRE_ARGUMENT(value);
    if (agent.handle == HOST_AGENT) return host_info((uint32_t)attribute, value);
    REQUIRE(is_broker_agent(agent) && seam_object_of(the_runtime.link, HD_AGENT, (uint32_t)agent.handle, &object), HSA_STATUS_ERROR_INVALID_AGENT);
    return agent_info((uint32_t)agent.handle, &object, (uint32_t)attribute, value);
}

EXPORTED hsa_status_t hsa_agent_get_exception_policies(hsa_agent_t agent, hsa_profile_t profile, uint16_t *mask)
{
    REQUIRE_INIT();
    REQUIRE(is_agent(agent), HSA_STATUS_ERROR_INVALID_AGENT);
    REQUIRE_ARGUMENT(mask && profile <= HSA_PROFILE_FULL);
    *mask = 0; /* integers raise nothing */
    return HSA_STATUS_SUCCESS;
}

/* No agent has caches. */
EXPORTED hsa_status_t hsa_agent_iterate_caches(hsa_agent_t agent, hsa_status_t (*callback)(hsa_cache_t, void *), void *data)
{
    (void)data;
    REQUIRE_INIT();
    REQUIRE(is_agent(agent), HSA_STATUS_ERROR_INVALID_AGENT);
    REQUIRE_ARGUMENT(callback);
    return HSA_STATUS_SUCCESS;
}

EXPORTED hsa_status_t hsa_cache_get_info(hsa_cache_t cache, hsa_cache_info_t attribute, void *value)
{
    (void)cache, (void)attribute, (void)value;
    REQUIRE_INIT();
    return HSA_STATUS_ERROR_INVALID_CACHE;
}
