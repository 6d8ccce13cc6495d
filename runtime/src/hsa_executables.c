/* Executables and their symbols. */
#include "hsa_code.h"

typedef struct executable {
    bool is_frozen;
    hsa_profile_t profile;
    hsa_default_float_rounding_mode_t rounding;
    uint32_t count;
    uint64_t symbols[SEAM_KERNELS]; /* handles */
} executable;

typedef struct symbol {
    uint32_t kernel;
    hsa_agent_t agent;
    char *entry;
} symbol;

static executable *executable_of(hsa_executable_t handle)
{
    return handle_thing(HANDLE_EXECUTABLE, handle.handle);
}

static const symbol *symbol_of(uint64_t handle)
{
    return handle_thing(HANDLE_SYMBOL, handle);
}

void symbol_free(void *freed)
{
    symbol *it = freed;
    if (it) free(it->entry);
    free(it);
}

void executable_free(void *freed)
{
    free(freed);
}

/* ---- making, loading, freezing */

static hsa_status_t new_executable(hsa_profile_t profile, bool is_frozen, hsa_default_float_rounding_mode_t rounding, hsa_executable_t *out)
{
    executable *made = calloc(1, sizeof *made);
    REQUIRE(made, HSA_STATUS_ERROR_OUT_OF_RESOURCES);
    *made = (executable){ .is_frozen = is_frozen, .profile = profile, .rounding = rounding };
    out->handle = handle_new(HANDLE_EXECUTABLE, made);
    if (out->handle) return HSA_STATUS_SUCCESS;
    free(made);
    return HSA_STATUS_ERROR_OUT_OF_RESOURCES;
}

EXPORTED hsa_status_t hsa_executable_create_alt(hsa_profile_t profile, hsa_default_float_rounding_mode_t rounding, const char *options, hsa_executable_t *out)
{
    (void)options;
    REQUIRE_INIT();
    REQUIRE_ARGUMENT(out && profile <= HSA_PROFILE_FULL && rounding <= HSA_DEFAULT_FLOAT_ROUNDING_MODE_NEAR);
    return new_executable(profile, false, rounding, out);
}

EXPORTED hsa_status_t hsa_executable_create(hsa_profile_t profile, hsa_executable_state_t state, const char *options, hsa_executable_t *out)
{
    (void)options;
    REQUIRE_INIT();
    REQUIRE_ARGUMENT(out && profile <= HSA_PROFILE_FULL && state <= HSA_EXECUTABLE_STATE_FROZEN);
    return new_executable(profile, state == HSA_EXECUTABLE_STATE_FROZEN, HSA_DEFAULT_FLOAT_ROUNDING_MODE_DEFAULT, out);
}

/* Ends the symbols from a number on. */
static void end_symbols(executable *of, uint32_t from)
{
    while (of->count > from) symbol_free(handle_end(HANDLE_SYMBOL, of->symbols[--of->count]));
}

EXPORTED hsa_status_t hsa_executable_destroy(hsa_executable_t handle)
{
    REQUIRE_INIT();
    executable *ended = handle_end(HANDLE_EXECUTABLE, handle.handle);
    REQUIRE(ended, HSA_STATUS_ERROR_INVALID_EXECUTABLE);
    end_symbols(ended, 0);
    free(ended);
    return HSA_STATUS_SUCCESS;
}

static bool add_symbol(executable *to, uint32_t kernel, hsa_agent_t agent, const char *entry)
{
    symbol *made = calloc(1, sizeof *made);
    if (made) *made = (symbol){ kernel, agent, strdup(entry) };
    uint64_t handle = made && made->entry ? handle_new(HANDLE_SYMBOL, made) : 0;
    if (handle) to->symbols[to->count++] = handle;
    else symbol_free(made);
    return handle;
}

/* Its kernels become symbols, all or none. */
static hsa_status_t load_code(executable *to, hsa_agent_t agent, const code *of)
{
    uint32_t numbers[SEAM_KERNELS], before = to->count;
    REQUIRE(!to->is_frozen, HSA_STATUS_ERROR_FROZEN_EXECUTABLE);
    REQUIRE(before + of->count <= SEAM_KERNELS, HSA_STATUS_ERROR_OUT_OF_RESOURCES);
    hsa_status_t status = kernels_of_code(of, numbers);
    for (uint32_t i = 0; !status && i < of->count; i++)
        if (!add_symbol(to, numbers[i], agent, of->entries[i])) status = HSA_STATUS_ERROR_OUT_OF_RESOURCES;
    if (status) end_symbols(to, before);
    return status;
}

EXPORTED hsa_status_t hsa_executable_load_agent_code_object(hsa_executable_t handle, hsa_agent_t agent, hsa_code_object_reader_t reader_handle, const char *options,
                                                            hsa_loaded_code_object_t *loaded)
{
    (void)options;
    REQUIRE_INIT();
    executable *to = executable_of(handle);
    REQUIRE(to, HSA_STATUS_ERROR_INVALID_EXECUTABLE);
    REQUIRE(!to->is_frozen, HSA_STATUS_ERROR_FROZEN_EXECUTABLE);
    REQUIRE(is_broker_agent(agent), HSA_STATUS_ERROR_INVALID_AGENT);
    const reader *from = handle_thing(HANDLE_READER, reader_handle.handle);
    REQUIRE(from, HSA_STATUS_ERROR_INVALID_CODE_OBJECT_READER);
    code *of;
    hsa_status_t status = code_of_bytes(from->bytes, from->size, &of);
    REQUIRE(!status, status);
    status = load_code(to, agent, of);
    code_free(of);
    if (!status && loaded) loaded->handle = handle.handle;
    return status;
}

/* A program's code object would have variables alone, and none are read. */
EXPORTED hsa_status_t hsa_executable_load_program_code_object(hsa_executable_t handle, hsa_code_object_reader_t reader_handle, const char *options, hsa_loaded_code_object_t *loaded)
{
    (void)options, (void)loaded;
    REQUIRE_INIT();
    const executable *to = executable_of(handle);
    REQUIRE(to, HSA_STATUS_ERROR_INVALID_EXECUTABLE);
    REQUIRE(!to->is_frozen, HSA_STATUS_ERROR_FROZEN_EXECUTABLE);
    REQUIRE(handle_thing(HANDLE_READER, reader_handle.handle), HSA_STATUS_ERROR_INVALID_CODE_OBJECT_READER);
    return HSA_STATUS_ERROR_INVALID_CODE_OBJECT;
}

EXPORTED hsa_status_t hsa_executable_load_code_object(hsa_executable_t handle, hsa_agent_t agent, hsa_code_object_t object, const char *options)
{
    (void)options;
    REQUIRE_INIT();
    executable *to = executable_of(handle);
    REQUIRE(to, HSA_STATUS_ERROR_INVALID_EXECUTABLE);
    REQUIRE(is_broker_agent(agent), HSA_STATUS_ERROR_INVALID_AGENT);
    const code *of = handle_thing(HANDLE_CODE, object.handle);
    REQUIRE(of, HSA_STATUS_ERROR_INVALID_CODE_OBJECT);
    return load_code(to, agent, of);
}

EXPORTED hsa_status_t hsa_executable_freeze(hsa_executable_t handle, const char *options)
{
    (void)options;
    REQUIRE_INIT();
    executable *of = executable_of(handle);
    REQUIRE(of, HSA_STATUS_ERROR_INVALID_EXECUTABLE);
    REQUIRE(!of->is_frozen, HSA_STATUS_ERROR_FROZEN_EXECUTABLE);
    of->is_frozen = true;
    return HSA_STATUS_SUCCESS;
}

EXPORTED hsa_status_t hsa_executable_get_info(hsa_executable_t handle, hsa_executable_info_t attribute, void *value)
{
    REQUIRE_INIT();
    const executable *of = executable_of(handle);
    REQUIRE(of, HSA_STATUS_ERROR_INVALID_EXECUTABLE);
    REQUIRE_ARGUMENT(value);
    switch ((uint32_t)attribute) {
    case HSA_EXECUTABLE_INFO_PROFILE: GIVE(hsa_profile_t, of->profile);
    case HSA_EXECUTABLE_INFO_STATE: GIVE(hsa_executable_state_t, of->is_frozen ? HSA_EXECUTABLE_STATE_FROZEN : HSA_EXECUTABLE_STATE_UNFROZEN);
    case HSA_EXECUTABLE_INFO_DEFAULT_FLOAT_ROUNDING_MODE: GIVE(hsa_default_float_rounding_mode_t, of->rounding);
    default: return unknown_attribute(__func__, (uint32_t)attribute);
    }
}

EXPORTED hsa_status_t hsa_executable_validate(hsa_executable_t handle, uint32_t *result)
{
    REQUIRE_INIT();
    REQUIRE(executable_of(handle), HSA_STATUS_ERROR_INVALID_EXECUTABLE);
    REQUIRE_ARGUMENT(result);
    *result = 0;
    return HSA_STATUS_SUCCESS;
}

EXPORTED hsa_status_t hsa_executable_validate_alt(hsa_executable_t handle, const char *options, uint32_t *result)
{
    (void)options;
    return hsa_executable_validate(handle, result);
}

/* ---- variables: no module that is read has any */

static hsa_status_t no_variable(hsa_executable_t handle, const char *name)
{
    REQUIRE_INIT();
    const executable *of = executable_of(handle);
    REQUIRE(of, HSA_STATUS_ERROR_INVALID_EXECUTABLE);
    REQUIRE_ARGUMENT(name);
    return of->is_frozen ? HSA_STATUS_ERROR_FROZEN_EXECUTABLE : HSA_STATUS_ERROR_INVALID_SYMBOL_NAME;
}

EXPORTED hsa_status_t hsa_executable_global_variable_define(hsa_executable_t handle, const char *name, void *address)
{
    (void)address;
    return no_variable(handle, name);
}

EXPORTED hsa_status_t hsa_executable_agent_global_variable_define(hsa_executable_t handle, hsa_agent_t agent, const char *name, void *address)
{
    (void)agent, (void)address;
    return no_variable(handle, name);
}

EXPORTED hsa_status_t hsa_executable_readonly_variable_define(hsa_executable_t handle, hsa_agent_t agent, const char *name, void *address)
{
    (void)agent, (void)address;
    return no_variable(handle, name);
}

/* ---- symbols */

EXPORTED hsa_status_t hsa_executable_get_symbol_by_name(hsa_executable_t handle, const char *name, const hsa_agent_t *agent, hsa_executable_symbol_t *out)
{
    REQUIRE_INIT();
    const executable *of = executable_of(handle);
    REQUIRE(of, HSA_STATUS_ERROR_INVALID_EXECUTABLE);
    REQUIRE_ARGUMENT(name && out);
    for (uint32_t i = 0; i < of->count; i++) {
        const symbol *it = symbol_of(of->symbols[i]);
        if (!is_named(it->entry, name) || (agent && agent->handle != it->agent.handle)) continue;
        out->handle = of->symbols[i];
        return HSA_STATUS_SUCCESS;
    }
    return HSA_STATUS_ERROR_INVALID_SYMBOL_NAME;
}

EXPORTED hsa_status_t hsa_executable_get_symbol(hsa_executable_t handle, const char *module, const char *name, hsa_agent_t agent, int32_t convention, hsa_executable_symbol_t *out)
{
    (void)module, (void)convention;
    return hsa_executable_get_symbol_by_name(handle, name, &agent, out);
}

EXPORTED hsa_status_t hsa_executable_iterate_symbols(hsa_executable_t handle, hsa_status_t (*callback)(hsa_executable_t, hsa_executable_symbol_t, void *), void *data)
{
    REQUIRE_INIT();
    const executable *of = executable_of(handle);
    REQUIRE(of, HSA_STATUS_ERROR_INVALID_EXECUTABLE);
    REQUIRE_ARGUMENT(callback);
    hsa_status_t status = HSA_STATUS_SUCCESS;
    for (uint32_t i = 0; !status && i < of->count; i++) status = callback(handle, (hsa_executable_symbol_t){ of->symbols[i] }, data);
    return status;
}

EXPORTED hsa_status_t hsa_executable_iterate_agent_symbols(hsa_executable_t handle, hsa_agent_t agent,
                                                           hsa_status_t (*callback)(hsa_executable_t, hsa_agent_t, hsa_executable_symbol_t, void *), void *data)
{
    REQUIRE_INIT();
    const executable *of = executable_of(handle);
    REQUIRE(of, HSA_STATUS_ERROR_INVALID_EXECUTABLE);
    REQUIRE(is_agent(agent), HSA_STATUS_ERROR_INVALID_AGENT);
    REQUIRE_ARGUMENT(callback);
    hsa_status_t status = HSA_STATUS_SUCCESS;
    for (uint32_t i = 0; !status && i < of->count; i++)
        if (symbol_of(of->symbols[i])->agent.handle == agent.handle) status = callback(handle, agent, (hsa_executable_symbol_t){ of->symbols[i] }, data);
    return status;
}

/* Kernels are symbols of agents, and no program has others. */
EXPORTED hsa_status_t hsa_executable_iterate_program_symbols(hsa_executable_t handle, hsa_status_t (*callback)(hsa_executable_t, hsa_executable_symbol_t, void *), void *data)
{
    (void)data;
    REQUIRE_INIT();
    REQUIRE(executable_of(handle), HSA_STATUS_ERROR_INVALID_EXECUTABLE);
    REQUIRE_ARGUMENT(callback);
    return HSA_STATUS_SUCCESS;
}

EXPORTED hsa_status_t hsa_executable_symbol_get_info(hsa_executable_symbol_t handle, hsa_executable_symbol_info_t attribute, void *value)
{
    enum { ARGUMENTS_ALIGN = 16 };
    seam_object kernel;
    REQUIRE_INIT();
    const symbol *of = symbol_of(handle.handle);
    REQUIRE(of && seam_object_of(the_runtime.link, HD_KERNEL, of->kernel, &kernel), HSA_STATUS_ERROR_INVALID_EXECUTABLE_SYMBOL);
    REQUIRE_ARGUMENT(value);
    switch ((uint32_t)attribute) {
    case HSA_EXECUTABLE_SYMBOL_INFO_TYPE: GIVE(hsa_symbol_kind_t, HSA_SYMBOL_KIND_KERNEL);
    case HSA_EXECUTABLE_SYMBOL_INFO_NAME_LENGTH: GIVE(uint32_t, (uint32_t)strlen(of->entry));
    case HSA_EXECUTABLE_SYMBOL_INFO_NAME:
        memcpy(value, of->entry, strlen(of->entry));
        return HSA_STATUS_SUCCESS;
    case HSA_EXECUTABLE_SYMBOL_INFO_MODULE_NAME_LENGTH: GIVE(uint32_t, 0);
    case HSA_EXECUTABLE_SYMBOL_INFO_MODULE_NAME: return HSA_STATUS_SUCCESS;
    case HSA_EXECUTABLE_SYMBOL_INFO_AGENT: GIVE(hsa_agent_t, of->agent);
    case HSA_EXECUTABLE_SYMBOL_INFO_LINKAGE: GIVE(hsa_symbol_linkage_t, HSA_SYMBOL_LINKAGE_PROGRAM);
    case HSA_EXECUTABLE_SYMBOL_INFO_IS_DEFINITION: GIVE(bool, true);
    case HSA_EXECUTABLE_SYMBOL_INFO_KERNEL_OBJECT: GIVE(uint64_t, of->kernel);
    case HSA_EXECUTABLE_SYMBOL_INFO_KERNEL_KERNARG_SEGMENT_SIZE: GIVE(uint32_t, kernel.kernarg);
    case HSA_EXECUTABLE_SYMBOL_INFO_KERNEL_KERNARG_SEGMENT_ALIGNMENT: GIVE(uint32_t, ARGUMENTS_ALIGN);
    case HSA_EXECUTABLE_SYMBOL_INFO_KERNEL_GROUP_SEGMENT_SIZE: GIVE(uint32_t, kernel.group);
    case HSA_EXECUTABLE_SYMBOL_INFO_KERNEL_PRIVATE_SEGMENT_SIZE:
    case HSA_EXECUTABLE_SYMBOL_INFO_KERNEL_CALL_CONVENTION: GIVE(uint32_t, 0);
    case HSA_EXECUTABLE_SYMBOL_INFO_KERNEL_DYNAMIC_CALLSTACK: GIVE(bool, false);
    default: return unknown_attribute(__func__, (uint32_t)attribute);
    }
}
