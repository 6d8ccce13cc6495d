/* Statuses, the system, extensions. */
#include <hsa/hsa_ext_finalize.h>

#include "hsa_common.h"

static const struct {
    uint32_t status;
    const char *text;
} STATUSES[] = {
#define STATUS(name, what) { name, #name ": " what }
    STATUS(HSA_STATUS_SUCCESS, "the function was executed"),
    STATUS(HSA_STATUS_INFO_BREAK, "a traversal was ended by its callback"),
    STATUS(HSA_STATUS_ERROR, "an error"),
    STATUS(HSA_STATUS_ERROR_INVALID_ARGUMENT, "an argument isn't valid"),
    STATUS(HSA_STATUS_ERROR_INVALID_QUEUE_CREATION, "the agent has no such queues"),
    STATUS(HSA_STATUS_ERROR_INVALID_ALLOCATION, "the client has no right on this memory, or it can't be allocated"),
    STATUS(HSA_STATUS_ERROR_INVALID_AGENT, "the agent isn't valid, or the client may not use it so"),
    STATUS(HSA_STATUS_ERROR_INVALID_REGION, "the region isn't valid"),
    STATUS(HSA_STATUS_ERROR_INVALID_SIGNAL, "the signal isn't valid, or the client has no right on it"),
    STATUS(HSA_STATUS_ERROR_INVALID_QUEUE, "the queue isn't valid"),
    STATUS(HSA_STATUS_ERROR_OUT_OF_RESOURCES, "the runtime has none left"),
    STATUS(HSA_STATUS_ERROR_INVALID_PACKET_FORMAT, "the packet breaks a rule of its layout"),
    STATUS(HSA_STATUS_ERROR_RESOURCE_FREE, "releasing failed"),
    STATUS(HSA_STATUS_ERROR_NOT_INITIALIZED, "the runtime isn't initialised"),
    STATUS(HSA_STATUS_ERROR_REFCOUNT_OVERFLOW, "too many initialisations"),
    STATUS(HSA_STATUS_ERROR_INCOMPATIBLE_ARGUMENTS, "arguments don't fit each other"),
    STATUS(HSA_STATUS_ERROR_INVALID_INDEX, "the index isn't valid"),
    STATUS(HSA_STATUS_ERROR_INVALID_ISA, "the instruction set isn't valid"),
    STATUS(HSA_STATUS_ERROR_INVALID_ISA_NAME, "no instruction set has this name"),
    STATUS(HSA_STATUS_ERROR_INVALID_CODE_OBJECT, "the code object isn't one that may be launched here"),
    STATUS(HSA_STATUS_ERROR_INVALID_EXECUTABLE, "the executable isn't valid"),
    STATUS(HSA_STATUS_ERROR_FROZEN_EXECUTABLE, "the executable is frozen"),
    STATUS(HSA_STATUS_ERROR_INVALID_SYMBOL_NAME, "no symbol has this name"),
    STATUS(HSA_STATUS_ERROR_VARIABLE_ALREADY_DEFINED, "the variable is defined"),
    STATUS(HSA_STATUS_ERROR_VARIABLE_UNDEFINED, "the variable isn't defined"),
    STATUS(HSA_STATUS_ERROR_EXCEPTION, "a kernel's access, or a barrier packet's signal, broke a rule"),
    STATUS(HSA_STATUS_ERROR_INVALID_CODE_SYMBOL, "the code symbol isn't valid"),
    STATUS(HSA_STATUS_ERROR_INVALID_EXECUTABLE_SYMBOL, "the symbol isn't valid"),
    STATUS(HSA_STATUS_ERROR_INVALID_FILE, "the file can't be read"),
    STATUS(HSA_STATUS_ERROR_INVALID_CODE_OBJECT_READER, "the reader isn't valid"),
    STATUS(HSA_STATUS_ERROR_INVALID_CACHE, "the cache isn't valid"),
    STATUS(HSA_STATUS_ERROR_INVALID_WAVEFRONT, "the wavefront isn't valid"),
    STATUS(HSA_STATUS_ERROR_INVALID_SIGNAL_GROUP, "the signal group isn't valid"),
    STATUS(HSA_STATUS_ERROR_INVALID_RUNTIME_STATE, "the runtime is in another state"),
    STATUS(HSA_STATUS_ERROR_FATAL, "a fatal error"),
    STATUS(HSA_EXT_STATUS_ERROR_INVALID_PROGRAM, "the program isn't valid"),
    STATUS(HSA_EXT_STATUS_ERROR_INVALID_MODULE, "the module isn't valid"),
    STATUS(HSA_EXT_STATUS_ERROR_INCOMPATIBLE_MODULE, "the module is of another model or profile than the program"),
    STATUS(HSA_EXT_STATUS_ERROR_MODULE_ALREADY_INCLUDED, "the module is in the program already"),
    STATUS(HSA_EXT_STATUS_ERROR_SYMBOL_MISMATCH, "a symbol is declared in two ways"),
    STATUS(HSA_EXT_STATUS_ERROR_FINALIZATION_FAILED, "the profile, or the policy, has no such kernel"),
    STATUS(HSA_EXT_STATUS_ERROR_DIRECTIVE_MISMATCH, "a control directive differs"),
#undef STATUS
};

EXPORTED hsa_status_t hsa_status_string(hsa_status_t status, const char **text)
{
    REQUIRE_ARGUMENT(text);
    for (size_t i = 0; i < sizeof STATUSES / sizeof *STATUSES; i++) {
        if (STATUSES[i].status != (uint32_t)status) continue;
        *text = STATUSES[i].text;
        return HSA_STATUS_SUCCESS;
    }
    return HSA_STATUS_ERROR_INVALID_ARGUMENT;
}

EXPORTED hsa_status_t hsa_system_get_info(hsa_system_info_t attribute, void *value)
{
    REQUIRE_INIT();
    REQUIRE_ARGUMENT(value);
    switch ((uint32_t)attribute) {
    case HSA_SYSTEM_INFO_VERSION_MAJOR: GIVE(uint16_t, 1);
    case HSA_SYSTEM_INFO_VERSION_MINOR: GIVE(uint16_t, 1);
    case HSA_SYSTEM_INFO_TIMESTAMP: GIVE(uint64_t, monotonic_now());
    case HSA_SYSTEM_INFO_TIMESTAMP_FREQUENCY: GIVE(uint64_t, 1000000000);
    case HSA_SYSTEM_INFO_SIGNAL_MAX_WAIT: GIVE(uint64_t, UINT64_MAX);
    case HSA_SYSTEM_INFO_ENDIANNESS: GIVE(hsa_endianness_t, HSA_ENDIANNESS_LITTLE);
    case HSA_SYSTEM_INFO_MACHINE_MODEL: GIVE(hsa_machine_model_t, HSA_MACHINE_MODEL_LARGE);
    case HSA_SYSTEM_INFO_EXTENSIONS:
        memset(value, 0, 128);
        *(uint8_t *)value = 1 << HSA_EXTENSION_FINALIZER;
        return HSA_STATUS_SUCCESS;
    case HSA_AMD_SYSTEM_INFO_BUILD_VERSION: GIVE(const char *, "hobbydresser");
    case HSA_AMD_SYSTEM_INFO_SVM_SUPPORTED:
    case HSA_AMD_SYSTEM_INFO_SVM_ACCESSIBLE_BY_DEFAULT: GIVE(bool, false);
    default: return unknown_attribute(__func__, (uint32_t)attribute);
    }
}

EXPORTED hsa_status_t hsa_extension_get_name(uint16_t extension, const char **name)
{
    static const char *const NAMES[] = { "HSA_EXTENSION_FINALIZER", "HSA_EXTENSION_IMAGES", "HSA_EXTENSION_PERFORMANCE_COUNTERS",
                                         "HSA_EXTENSION_PROFILING_EVENTS" };
    REQUIRE_INIT();
    REQUIRE_ARGUMENT(name && extension <= HSA_EXTENSION_STD_LAST);
    *name = NAMES[extension];
    return HSA_STATUS_SUCCESS;
}

static bool is_extension(uint16_t extension)
{
    return extension <= HSA_EXTENSION_STD_LAST || (extension >= HSA_AMD_FIRST_EXTENSION && extension <= HSA_AMD_LAST_EXTENSION);
}

EXPORTED hsa_status_t hsa_system_major_extension_supported(uint16_t extension, uint16_t major, uint16_t *minor, bool *result)
{
    REQUIRE_INIT();
    REQUIRE_ARGUMENT(is_extension(extension) && minor && result);
    *result = extension == HSA_EXTENSION_FINALIZER && major == 1;
    if (*result) *minor = 0;
    return HSA_STATUS_SUCCESS;
}

EXPORTED hsa_status_t hsa_system_extension_supported(uint16_t extension, uint16_t major, uint16_t minor, bool *result)
{
    REQUIRE_INIT();
    REQUIRE_ARGUMENT(is_extension(extension) && result);
    *result = extension == HSA_EXTENSION_FINALIZER && major == 1 && !minor;
    return HSA_STATUS_SUCCESS;
}

EXPORTED hsa_status_t hsa_agent_major_extension_supported(uint16_t extension, hsa_agent_t agent, uint16_t major, uint16_t *minor, bool *result)
{
    REQUIRE_INIT();
    REQUIRE(is_agent(agent), HSA_STATUS_ERROR_INVALID_AGENT);
    hsa_status_t status = hsa_system_major_extension_supported(extension, major, minor, result);
    if (!status) *result = *result && takes_kernels(agent);
    return status;
}

EXPORTED hsa_status_t hsa_agent_extension_supported(uint16_t extension, hsa_agent_t agent, uint16_t major, uint16_t minor, bool *result)
{
    REQUIRE_INIT();
    REQUIRE(is_agent(agent), HSA_STATUS_ERROR_INVALID_AGENT);
    hsa_status_t status = hsa_system_extension_supported(extension, major, minor, result);
    if (!status) *result = *result && takes_kernels(agent);
    return status;
}

EXPORTED hsa_status_t hsa_system_get_major_extension_table(uint16_t extension, uint16_t major, size_t length, void *table)
{
    REQUIRE_INIT();
    REQUIRE_ARGUMENT(is_extension(extension) && table);
    if (extension == HSA_EXTENSION_FINALIZER && major == 1) return finalizer_table(length, table);
    if (the_runtime.traces) fprintf(stderr, "hobbydresser: %s: extension 0x%x version %u isn't there\n", __func__, extension, major);
    return HSA_STATUS_ERROR;
}

EXPORTED hsa_status_t hsa_system_get_extension_table(uint16_t extension, uint16_t major, uint16_t minor, void *table)
{
    REQUIRE(!is_initialized() || !minor, HSA_STATUS_ERROR);
    return hsa_system_get_major_extension_table(extension, major, SIZE_MAX, table);
}
