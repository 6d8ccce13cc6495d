/* The finalizer of hsa_ext_finalize.h: a module of BRIG becomes a code object. */
#include <hsa/hsa_ext_finalize.h>

#include "brig.h"
#include "hsa_code.h"

enum { MOST_MODULES = 16 };

typedef struct program {
    hsa_machine_model_t model;
    hsa_profile_t profile;
    hsa_default_float_rounding_mode_t rounding;
    uint32_t count;
    hsa_ext_module_t modules[MOST_MODULES];
} program;

#define EXTENSION(status) ((hsa_status_t)HSA_EXT_STATUS_ERROR_##status)

static program *program_of(hsa_ext_program_t handle)
{
    return handle_thing(HANDLE_PROGRAM, handle.handle);
}

void program_free(void *freed)
{
    free(freed);
}

EXPORTED hsa_status_t hsa_ext_program_create(hsa_machine_model_t model, hsa_profile_t profile, hsa_default_float_rounding_mode_t rounding, const char *options, hsa_ext_program_t *out)
{
    (void)options;
    REQUIRE_INIT();
    REQUIRE_ARGUMENT(out && model <= HSA_MACHINE_MODEL_LARGE && profile <= HSA_PROFILE_FULL && rounding <= HSA_DEFAULT_FLOAT_ROUNDING_MODE_NEAR);
    program *made = calloc(1, sizeof *made);
    REQUIRE(made, HSA_STATUS_ERROR_OUT_OF_RESOURCES);
    *made = (program){ .model = model, .profile = profile, .rounding = rounding };
    out->handle = handle_new(HANDLE_PROGRAM, made);
    if (out->handle) return HSA_STATUS_SUCCESS;
    free(made);
    return HSA_STATUS_ERROR_OUT_OF_RESOURCES;
}

EXPORTED hsa_status_t hsa_ext_program_destroy(hsa_ext_program_t handle)
{
    REQUIRE_INIT();
    program *ended = handle_end(HANDLE_PROGRAM, handle.handle);
    REQUIRE(ended, EXTENSION(INVALID_PROGRAM));
    free(ended);
    return HSA_STATUS_SUCCESS;
}

/* A module is read when it is finalized. */
EXPORTED hsa_status_t hsa_ext_program_add_module(hsa_ext_program_t handle, hsa_ext_module_t module)
{
    REQUIRE_INIT();
    program *to = program_of(handle);
    REQUIRE(to, EXTENSION(INVALID_PROGRAM));
    const brig_header *header = (const void *)module;
    REQUIRE(header && !memcmp(header->identification, "HSA BRIG", 8) && header->major == 1, EXTENSION(INVALID_MODULE));
    for (uint32_t i = 0; i < to->count; i++) REQUIRE(to->modules[i] != module, EXTENSION(MODULE_ALREADY_INCLUDED));
    REQUIRE(to->count < MOST_MODULES, HSA_STATUS_ERROR_OUT_OF_RESOURCES);
    to->modules[to->count++] = module;
    return HSA_STATUS_SUCCESS;
}

EXPORTED hsa_status_t hsa_ext_program_iterate_modules(hsa_ext_program_t handle, hsa_status_t (*callback)(hsa_ext_program_t, hsa_ext_module_t, void *), void *data)
{
    REQUIRE_INIT();
    const program *of = program_of(handle);
    REQUIRE(of, EXTENSION(INVALID_PROGRAM));
    REQUIRE_ARGUMENT(callback);
    hsa_status_t status = HSA_STATUS_SUCCESS;
    for (uint32_t i = 0; !status && i < of->count; i++) status = callback(handle, of->modules[i], data);
    return status;
}

EXPORTED hsa_status_t hsa_ext_program_get_info(hsa_ext_program_t handle, hsa_ext_program_info_t attribute, void *value)
{
    REQUIRE_INIT();
    const program *of = program_of(handle);
    REQUIRE(of, EXTENSION(INVALID_PROGRAM));
    REQUIRE_ARGUMENT(value);
    switch ((uint32_t)attribute) {
    case HSA_EXT_PROGRAM_INFO_MACHINE_MODEL: GIVE(hsa_machine_model_t, of->model);
    case HSA_EXT_PROGRAM_INFO_PROFILE: GIVE(hsa_profile_t, of->profile);
    case HSA_EXT_PROGRAM_INFO_DEFAULT_FLOAT_ROUNDING_MODE: GIVE(hsa_default_float_rounding_mode_t, of->rounding);
    default: return unknown_attribute(__func__, (uint32_t)attribute);
    }
}

/* Modules aren't linked with each other. What the reader or the policy refuses is told here, where a program can still do without. */
EXPORTED hsa_status_t hsa_ext_program_finalize(hsa_ext_program_t handle, hsa_isa_t isa, int32_t convention, hsa_ext_control_directives_t directives, const char *options,
                                               hsa_code_object_type_t type, hsa_code_object_t *object)
{
    (void)convention, (void)directives, (void)options, (void)type;
    uint32_t numbers[SEAM_KERNELS];
    REQUIRE_INIT();
    const program *of = program_of(handle);
    REQUIRE(of, EXTENSION(INVALID_PROGRAM));
    REQUIRE(isa.handle == HSAIL_ISA, HSA_STATUS_ERROR_INVALID_ISA);
    REQUIRE_ARGUMENT(object);
    REQUIRE(of->count == 1, EXTENSION(FINALIZATION_FAILED));
    const brig_header *header = (const void *)of->modules[0];
    code *made;
    REQUIRE(!code_of_bytes(header, header->bytes, &made), EXTENSION(FINALIZATION_FAILED));
    if (!kernels_of_code(made, numbers)) return give_code(made, object);
    code_free(made);
    return EXTENSION(FINALIZATION_FAILED);
}

hsa_status_t finalizer_table(size_t length, void *table)
{
    const hsa_ext_finalizer_1_00_pfn_t all = { hsa_ext_program_create, hsa_ext_program_destroy, hsa_ext_program_add_module, hsa_ext_program_iterate_modules,
                                               hsa_ext_program_get_info, hsa_ext_program_finalize };
    memcpy(table, &all, length < sizeof all ? length : sizeof all);
    return HSA_STATUS_SUCCESS;
}
