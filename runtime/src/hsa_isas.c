/* The instruction set, of which there is one, and its wavefront of one work-item. */
#include "hsa_common.h"

static const char ISA_NAME[] = "hsail-1.0-base-large";
enum { MOST_ITEMS = 1024 };

static bool is_isa(hsa_isa_t isa)
{
    return isa.handle == HSAIL_ISA;
}

EXPORTED hsa_status_t hsa_isa_from_name(const char *name, hsa_isa_t *isa)
{
    REQUIRE_INIT();
    REQUIRE_ARGUMENT(name && isa);
    REQUIRE(!strcmp(name, ISA_NAME), HSA_STATUS_ERROR_INVALID_ISA_NAME);
    isa->handle = HSAIL_ISA;
    return HSA_STATUS_SUCCESS;
}

EXPORTED hsa_status_t hsa_agent_iterate_isas(hsa_agent_t agent, hsa_status_t (*callback)(hsa_isa_t, void *), void *data)
{
    REQUIRE_INIT();
    REQUIRE(is_agent(agent), HSA_STATUS_ERROR_INVALID_AGENT);
    REQUIRE_ARGUMENT(callback);
    return takes_kernels(agent) ? callback((hsa_isa_t){ HSAIL_ISA }, data) : HSA_STATUS_SUCCESS;
}

EXPORTED hsa_status_t hsa_isa_get_info_alt(hsa_isa_t isa, hsa_isa_info_t attribute, void *value)
{
    REQUIRE_INIT();
    REQUIRE(is_isa(isa), HSA_STATUS_ERROR_INVALID_ISA);
    REQUIRE_ARGUMENT(value);
    bool *flags = value;
    switch ((uint32_t)attribute) {
    case HSA_ISA_INFO_NAME_LENGTH: GIVE(uint32_t, sizeof ISA_NAME);
    case HSA_ISA_INFO_NAME:
        memcpy(value, ISA_NAME, sizeof ISA_NAME);
        return HSA_STATUS_SUCCESS;
    case HSA_ISA_INFO_CALL_CONVENTION_COUNT:
    case HSA_ISA_INFO_CALL_CONVENTION_INFO_WAVEFRONT_SIZE:
    case HSA_ISA_INFO_CALL_CONVENTION_INFO_WAVEFRONTS_PER_COMPUTE_UNIT: GIVE(uint32_t, 1);
    case HSA_ISA_INFO_MACHINE_MODELS: /* small, large */
        flags[HSA_MACHINE_MODEL_SMALL] = false;
        flags[HSA_MACHINE_MODEL_LARGE] = true;
        return HSA_STATUS_SUCCESS;
    case HSA_ISA_INFO_PROFILES: /* base, full */
        flags[HSA_PROFILE_BASE] = true;
        flags[HSA_PROFILE_FULL] = false;
        return HSA_STATUS_SUCCESS;
    case HSA_ISA_INFO_DEFAULT_FLOAT_ROUNDING_MODES:
    case HSA_ISA_INFO_BASE_PROFILE_DEFAULT_FLOAT_ROUNDING_MODES: /* default, zero, near */
        flags[HSA_DEFAULT_FLOAT_ROUNDING_MODE_DEFAULT] = false;
        flags[HSA_DEFAULT_FLOAT_ROUNDING_MODE_ZERO] = true;
        flags[HSA_DEFAULT_FLOAT_ROUNDING_MODE_NEAR] = false;
        return HSA_STATUS_SUCCESS;
    case HSA_ISA_INFO_FAST_F16_OPERATION: GIVE(bool, false);
    case HSA_ISA_INFO_WORKGROUP_MAX_DIM:
        for (int i = 0; i < 3; i++) ((uint16_t *)value)[i] = MOST_ITEMS;
        return HSA_STATUS_SUCCESS;
    case HSA_ISA_INFO_WORKGROUP_MAX_SIZE: GIVE(uint32_t, MOST_ITEMS);
    case HSA_ISA_INFO_GRID_MAX_DIM: GIVE(hsa_dim3_t, ((hsa_dim3_t){ UINT32_MAX, UINT32_MAX, UINT32_MAX }));
    case HSA_ISA_INFO_GRID_MAX_SIZE: GIVE(uint64_t, UINT32_MAX);
    case HSA_ISA_INFO_FBARRIER_MAX_SIZE: GIVE(uint32_t, 0);
    default: return unknown_attribute(__func__, (uint32_t)attribute);
    }
}

/* Of the one call convention. */
EXPORTED hsa_status_t hsa_isa_get_info(hsa_isa_t isa, hsa_isa_info_t attribute, uint32_t index, void *value)
{
    REQUIRE_INIT();
    REQUIRE(is_isa(isa), HSA_STATUS_ERROR_INVALID_ISA);
    REQUIRE(!index, HSA_STATUS_ERROR_INVALID_INDEX);
    return hsa_isa_get_info_alt(isa, attribute, value);
}

EXPORTED hsa_status_t hsa_isa_get_exception_policies(hsa_isa_t isa, hsa_profile_t profile, uint16_t *mask)
{
    REQUIRE_INIT();
    REQUIRE(is_isa(isa), HSA_STATUS_ERROR_INVALID_ISA);
    REQUIRE_ARGUMENT(mask && profile <= HSA_PROFILE_FULL);
    *mask = 0;
    return HSA_STATUS_SUCCESS;
}

/* No floats are run. */
EXPORTED hsa_status_t hsa_isa_get_round_method(hsa_isa_t isa, hsa_fp_type_t type, hsa_flush_mode_t flush, hsa_round_method_t *method)
{
    REQUIRE_INIT();
    REQUIRE(is_isa(isa), HSA_STATUS_ERROR_INVALID_ISA);
    REQUIRE_ARGUMENT(method && type >= HSA_FP_TYPE_16 && type <= HSA_FP_TYPE_64 && flush >= HSA_FLUSH_MODE_FTZ && flush <= HSA_FLUSH_MODE_NON_FTZ);
    *method = HSA_ROUND_METHOD_SINGLE;
    return HSA_STATUS_SUCCESS;
}

EXPORTED hsa_status_t hsa_isa_iterate_wavefronts(hsa_isa_t isa, hsa_status_t (*callback)(hsa_wavefront_t, void *), void *data)
{
    REQUIRE_INIT();
    REQUIRE(is_isa(isa), HSA_STATUS_ERROR_INVALID_ISA);
    REQUIRE_ARGUMENT(callback);
    return callback((hsa_wavefront_t){ WAVEFRONT }, data);
}

EXPORTED hsa_status_t hsa_wavefront_get_info(hsa_wavefront_t wavefront, hsa_wavefront_info_t attribute, void *value)
{
    REQUIRE_INIT();
    REQUIRE(wavefront.handle == WAVEFRONT, HSA_STATUS_ERROR_INVALID_WAVEFRONT);
    REQUIRE_ARGUMENT(value && attribute == HSA_WAVEFRONT_INFO_SIZE);
    GIVE(uint32_t, 1);
}

EXPORTED hsa_status_t hsa_isa_compatible(hsa_isa_t code_object, hsa_isa_t agent, bool *result)
{
    REQUIRE_INIT();
    REQUIRE(is_isa(code_object) && is_isa(agent), HSA_STATUS_ERROR_INVALID_ISA);
    REQUIRE_ARGUMENT(result);
    *result = true;
    return HSA_STATUS_SUCCESS;
}
