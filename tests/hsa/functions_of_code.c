/* Tests of the functions of code: readers, code objects, executables, symbols, the finalizer. The module of BRIG is one that HSAILasm made
   of tests/hsa/count.hsail, which the policy has. */
#include <fcntl.h>

#include "functions.h"

static char *file_bytes(const char *name, size_t *size)
{
    char path[4096];
    const char *folder = getenv("HSA_TESTS");
    snprintf(path, sizeof path, "%s/%s", folder ? folder : "tests/hsa", name);
    FILE *file = fopen(path, "rb");
    char *bytes = calloc(1, 65536);
    *size = file && bytes ? fread(bytes, 1, 65535, file) : 0;
    if (file) fclose(file);
    return bytes;
}

static int open_text(void)
{
    char path[4096];
    const char *folder = getenv("HSA_TESTS");
    snprintf(path, sizeof path, "%s/count.hsail", folder ? folder : "tests/hsa");
    return open(path, O_RDONLY);
}

static hsa_executable_t new_executable(void)
{
    hsa_executable_t executable = { 0 };
    hsa_executable_create_alt(HSA_PROFILE_BASE, HSA_DEFAULT_FLOAT_ROUNDING_MODE_DEFAULT, NULL, &executable);
    return executable;
}

static hsa_code_object_reader_t new_reader(void)
{
    size_t size;
    char *text = file_bytes("count.hsail", &size);
    hsa_code_object_reader_t reader = { 0 };
    hsa_code_object_reader_create_from_memory(text, size, &reader);
    free(text);
    return reader;
}

static hsa_executable_t new_loaded(void)
{
    hsa_executable_t executable = new_executable();
    hsa_executable_load_agent_code_object(executable, the.gpu, new_reader(), NULL, NULL);
    return executable;
}

static hsa_code_object_t new_code(void)
{
    size_t size;
    char *text = file_bytes("count.hsail", &size);
    hsa_code_object_t object = { 0 };
    hsa_code_object_deserialize(text, size, NULL, &object);
    free(text);
    return object;
}

/* The kernel's object where it can be found in an executable, or 0. */
static uint64_t kernel_of(hsa_executable_t executable)
{
    hsa_executable_symbol_t symbol;
    uint64_t object = 0;
    if (hsa_executable_get_symbol_by_name(executable, "&count", &the.gpu, &symbol)) return 0;
    hsa_executable_symbol_get_info(symbol, HSA_EXECUTABLE_SYMBOL_INFO_KERNEL_OBJECT, &object);
    return object;
}

/* ---- readers */

static void test_reader_from_memory(void)
{
    size_t size;
    char *text = file_bytes("count.hsail", &size);
    hsa_code_object_reader_t reader = { 0 };
    hsa_executable_t executable = new_executable();
    IS(hsa_code_object_reader_create_from_memory(text, size, &reader), OK);
    memset(text, 0, size); /* the reader has its own */
    IS(hsa_executable_load_agent_code_object(executable, the.gpu, reader, NULL, NULL), OK);
    IS(kernel_of(executable), 1);
    IS(hsa_code_object_reader_create_from_memory(NULL, 5, &reader), BAD);
    free(text);
}

static void test_reader_from_file(void)
{
    hsa_code_object_reader_t reader = { 0 };
    hsa_executable_t executable = new_executable();
    int file = open_text();
    IS(hsa_code_object_reader_create_from_file(file, &reader), OK);
    close(file);
    IS(hsa_executable_load_agent_code_object(executable, the.gpu, reader, NULL, NULL), OK);
    IS(kernel_of(executable), 1);
    IS(hsa_code_object_reader_create_from_file(-1, &reader), HSA_STATUS_ERROR_INVALID_FILE);
}

static void test_reader_destroy(void)
{
    hsa_code_object_reader_t reader = new_reader();
    IS(hsa_code_object_reader_destroy(reader), OK);
    IS(hsa_code_object_reader_destroy(reader), HSA_STATUS_ERROR_INVALID_CODE_OBJECT_READER);
    IS(hsa_executable_load_agent_code_object(new_executable(), the.gpu, reader, NULL, NULL), HSA_STATUS_ERROR_INVALID_CODE_OBJECT_READER);
}

/* ---- executables */

static void test_executable_create(void)
{
    hsa_executable_t executable = { 0 };
    IS(hsa_executable_create(HSA_PROFILE_BASE, HSA_EXECUTABLE_STATE_FROZEN, NULL, &executable), OK);
    IS(hsa_executable_freeze(executable, NULL), HSA_STATUS_ERROR_FROZEN_EXECUTABLE);
    IS(hsa_executable_create(HSA_PROFILE_BASE, HSA_EXECUTABLE_STATE_UNFROZEN, NULL, NULL), BAD);
}

static void test_executable_create_alt(void)
{
    hsa_executable_t executable = { 0 };
    IS(hsa_executable_create_alt(HSA_PROFILE_FULL, HSA_DEFAULT_FLOAT_ROUNDING_MODE_NEAR, NULL, &executable), OK);
    hsa_profile_t profile = HSA_PROFILE_BASE;
    IS(hsa_executable_get_info(executable, HSA_EXECUTABLE_INFO_PROFILE, &profile), OK);
    IS(profile, HSA_PROFILE_FULL);
    IS(hsa_executable_create_alt((hsa_profile_t)7, HSA_DEFAULT_FLOAT_ROUNDING_MODE_NEAR, NULL, &executable), BAD);
}

static void test_executable_destroy(void)
{
    hsa_executable_t executable = new_loaded();
    IS(hsa_executable_destroy(executable), OK);
    IS(hsa_executable_destroy(executable), HSA_STATUS_ERROR_INVALID_EXECUTABLE);
}

static void test_load_agent_code_object(void)
{
    static const char OTHER[] = "module &other:1:0:$base:$large:$default;\nprog kernel &other()\n{\n  ret;\n};\n", ELF[] = "\177ELF\2\1\1";
    hsa_executable_t executable = new_executable();
    hsa_code_object_reader_t reader = { 0 };
    hsa_loaded_code_object_t loaded = { 0 };
    IS(hsa_executable_load_agent_code_object(executable, the.gpu, new_reader(), NULL, &loaded), OK);
    IS(loaded.handle != 0, 1);
    IS(kernel_of(executable), 1);
    IS(hsa_executable_load_agent_code_object(executable, the.host, new_reader(), NULL, NULL), HSA_STATUS_ERROR_INVALID_AGENT);
    hsa_code_object_reader_create_from_memory(OTHER, sizeof OTHER - 1, &reader);
    IS(hsa_executable_load_agent_code_object(executable, the.gpu, reader, NULL, NULL), HSA_STATUS_ERROR_INVALID_CODE_OBJECT); /* the policy lacks it */
    hsa_code_object_reader_create_from_memory(ELF, sizeof ELF, &reader);
    IS(hsa_executable_load_agent_code_object(executable, the.gpu, reader, NULL, NULL), HSA_STATUS_ERROR_INVALID_CODE_OBJECT);
    hsa_executable_freeze(executable, NULL);
    IS(hsa_executable_load_agent_code_object(executable, the.gpu, new_reader(), NULL, NULL), HSA_STATUS_ERROR_FROZEN_EXECUTABLE);
}

static void test_load_program_code_object(void)
{
    hsa_executable_t executable = new_executable();
    hsa_code_object_reader_t none = { 0 };
    IS(hsa_executable_load_program_code_object(executable, new_reader(), NULL, NULL), HSA_STATUS_ERROR_INVALID_CODE_OBJECT);
    IS(hsa_executable_load_program_code_object(executable, none, NULL, NULL), HSA_STATUS_ERROR_INVALID_CODE_OBJECT_READER);
}

static void test_load_code_object(void)
{
    hsa_executable_t executable = new_executable();
    hsa_code_object_t object = new_code(), none = { 0 };
    IS(hsa_executable_load_code_object(executable, the.gpu, object, NULL), OK);
    IS(kernel_of(executable), 1);
    IS(hsa_executable_load_code_object(executable, the.gpu, none, NULL), HSA_STATUS_ERROR_INVALID_CODE_OBJECT);
}

static void test_freeze(void)
{
    hsa_executable_t executable = new_executable();
    IS(hsa_executable_freeze(executable, NULL), OK);
    IS(hsa_executable_freeze(executable, NULL), HSA_STATUS_ERROR_FROZEN_EXECUTABLE);
}

static void test_executable_get_info(void)
{
    hsa_executable_t executable = new_executable();
    hsa_executable_state_t state = HSA_EXECUTABLE_STATE_FROZEN;
    IS(hsa_executable_get_info(executable, HSA_EXECUTABLE_INFO_STATE, &state), OK);
    IS(state, HSA_EXECUTABLE_STATE_UNFROZEN);
    hsa_executable_freeze(executable, NULL);
    IS(hsa_executable_get_info(executable, HSA_EXECUTABLE_INFO_STATE, &state), OK);
    IS(state, HSA_EXECUTABLE_STATE_FROZEN);
}

static void test_validate(void)
{
    uint32_t result = 9;
    IS(hsa_executable_validate(new_loaded(), &result), OK);
    IS(result, 0);
}

static void test_validate_alt(void)
{
    uint32_t result = 9;
    IS(hsa_executable_validate_alt(new_loaded(), NULL, &result), OK);
    IS(result, 0);
}

static void test_global_variable_define(void)
{
    int own;
    IS(hsa_executable_global_variable_define(new_executable(), "&x", &own), HSA_STATUS_ERROR_INVALID_SYMBOL_NAME);
}

static void test_agent_variable_define(void)
{
    int own;
    IS(hsa_executable_agent_global_variable_define(new_executable(), the.gpu, "&x", &own), HSA_STATUS_ERROR_INVALID_SYMBOL_NAME);
}

static void test_readonly_variable_define(void)
{
    int own;
    hsa_executable_t executable = new_executable();
    hsa_executable_freeze(executable, NULL);
    IS(hsa_executable_readonly_variable_define(executable, the.gpu, "&x", &own), HSA_STATUS_ERROR_FROZEN_EXECUTABLE);
}

/* ---- symbols */

static void test_get_symbol_by_name(void)
{
    hsa_executable_symbol_t symbol = { 0 };
    hsa_executable_t executable = new_loaded();
    IS(hsa_executable_get_symbol_by_name(executable, "&count", &the.gpu, &symbol), OK);
    IS(symbol.handle != 0, 1);
    IS(hsa_executable_get_symbol_by_name(executable, "count", NULL, &symbol), OK);
    IS(hsa_executable_get_symbol_by_name(executable, "&other", &the.gpu, &symbol), HSA_STATUS_ERROR_INVALID_SYMBOL_NAME);
    IS(hsa_executable_get_symbol_by_name(executable, "&count", &the.host, &symbol), HSA_STATUS_ERROR_INVALID_SYMBOL_NAME);
}

static void test_get_symbol(void)
{
    hsa_executable_symbol_t symbol = { 0 };
    IS(hsa_executable_get_symbol(new_loaded(), NULL, "&count", the.gpu, 0, &symbol), OK);
    IS(symbol.handle != 0, 1);
}

static hsa_status_t meet_symbol(hsa_executable_t executable, hsa_executable_symbol_t symbol, void *data)
{
    (void)executable;
    *(uint64_t *)data = symbol.handle;
    return HSA_STATUS_INFO_BREAK;
}

static hsa_status_t meet_agent_symbol(hsa_executable_t executable, hsa_agent_t agent, hsa_executable_symbol_t symbol, void *data)
{
    IS(agent.handle, the.gpu.handle);
    return meet_symbol(executable, symbol, data);
}

static void test_iterate_symbols(void)
{
    uint64_t symbol = 0;
    IS(hsa_executable_iterate_symbols(new_loaded(), meet_symbol, &symbol), HSA_STATUS_INFO_BREAK);
    IS(symbol != 0, 1);
}

static void test_iterate_agent_symbols(void)
{
    uint64_t symbol = 0;
    IS(hsa_executable_iterate_agent_symbols(new_loaded(), the.gpu, meet_agent_symbol, &symbol), HSA_STATUS_INFO_BREAK);
    IS(symbol != 0, 1);
}

static void test_iterate_program_symbols(void)
{
    uint64_t symbol = 0;
    IS(hsa_executable_iterate_program_symbols(new_loaded(), meet_symbol, &symbol), OK);
    IS(symbol, 0);
    IS(hsa_executable_iterate_program_symbols((hsa_executable_t){ 0 }, meet_symbol, &symbol), HSA_STATUS_ERROR_INVALID_EXECUTABLE);
}

static void test_symbol_get_info(void)
{
    hsa_executable_symbol_t symbol = { 0 };
    uint64_t object = 0;
    uint32_t number = 0;
    char name[16] = "";
    hsa_executable_get_symbol_by_name(new_loaded(), "&count", &the.gpu, &symbol);
    IS(hsa_executable_symbol_get_info(symbol, HSA_EXECUTABLE_SYMBOL_INFO_KERNEL_OBJECT, &object), OK);
    IS(object, 1);
    IS(hsa_executable_symbol_get_info(symbol, HSA_EXECUTABLE_SYMBOL_INFO_KERNEL_KERNARG_SEGMENT_SIZE, &number), OK);
    IS(number, 8);
    IS(hsa_executable_symbol_get_info(symbol, HSA_EXECUTABLE_SYMBOL_INFO_NAME_LENGTH, &number), OK);
    IS(number, 6);
    IS(hsa_executable_symbol_get_info(symbol, HSA_EXECUTABLE_SYMBOL_INFO_NAME, name), OK);
    IS(strcmp(name, "&count"), 0);
    IS(hsa_executable_symbol_get_info((hsa_executable_symbol_t){ 0 }, HSA_EXECUTABLE_SYMBOL_INFO_NAME_LENGTH, &number), HSA_STATUS_ERROR_INVALID_EXECUTABLE_SYMBOL);
}

/* ---- code objects */

static void test_deserialize(void)
{
    size_t size;
    char *text = file_bytes("count.hsail", &size), zeros[8] = { 0 };
    hsa_code_object_t object = { 0 };
    hsa_executable_t executable = new_executable();
    IS(hsa_code_object_deserialize(text, size, NULL, &object), OK);
    IS(hsa_executable_load_code_object(executable, the.gpu, object, NULL), OK);
    IS(kernel_of(executable), 1);
    IS(hsa_code_object_deserialize(zeros, sizeof zeros, NULL, &object), HSA_STATUS_ERROR_INVALID_CODE_OBJECT);
    free(text);
}

static hsa_status_t allocate(size_t size, hsa_callback_data_t data, void **memory)
{
    (void)data;
    *memory = malloc(size);
    return *memory ? OK : HSA_STATUS_ERROR_OUT_OF_RESOURCES;
}

static void test_serialize(void)
{
    void *bytes = NULL;
    size_t size = 0, wanted;
    char *text = file_bytes("count.hsail", &wanted);
    IS(hsa_code_object_serialize(new_code(), allocate, (hsa_callback_data_t){ 0 }, NULL, &bytes, &size), OK);
    IS(size, wanted);
    IS(bytes && size == wanted && !memcmp(bytes, text, size), 1);
    free(bytes);
    free(text);
}

static void test_code_destroy(void)
{
    hsa_code_object_t object = new_code();
    IS(hsa_code_object_destroy(object), OK);
    IS(hsa_code_object_destroy(object), HSA_STATUS_ERROR_INVALID_CODE_OBJECT);
}

static void test_code_get_info(void)
{
    hsa_machine_model_t model = HSA_MACHINE_MODEL_SMALL;
    hsa_isa_t isa = { 0 };
    IS(hsa_code_object_get_info(new_code(), HSA_CODE_OBJECT_INFO_MACHINE_MODEL, &model), OK);
    IS(model, HSA_MACHINE_MODEL_LARGE);
    IS(hsa_code_object_get_info(new_code(), HSA_CODE_OBJECT_INFO_ISA, &isa), OK);
    IS(isa.handle != 0, 1);
}

static void test_code_get_symbol(void)
{
    hsa_code_symbol_t symbol = { 0 };
    hsa_code_object_t object = new_code();
    IS(hsa_code_object_get_symbol(object, "&count", &symbol), OK);
    IS(symbol.handle != 0, 1);
    IS(hsa_code_object_get_symbol(object, "&other", &symbol), HSA_STATUS_ERROR_INVALID_SYMBOL_NAME);
}

static void test_code_get_symbol_from_name(void)
{
    hsa_code_symbol_t symbol = { 0 };
    IS(hsa_code_object_get_symbol_from_name(new_code(), NULL, "&count", &symbol), OK);
    IS(symbol.handle != 0, 1);
}

static hsa_status_t meet_code_symbol(hsa_code_object_t object, hsa_code_symbol_t symbol, void *data)
{
    (void)object;
    *(hsa_code_symbol_t *)data = symbol;
    return OK;
}

static void test_code_iterate_symbols(void)
{
    hsa_code_symbol_t symbol = { 0 };
    IS(hsa_code_object_iterate_symbols(new_code(), meet_code_symbol, &symbol), OK);
    IS(symbol.handle != 0, 1);
}

static void test_code_symbol_get_info(void)
{
    hsa_code_symbol_t symbol = { 0 };
    char name[16] = "";
    hsa_symbol_kind_t kind = HSA_SYMBOL_KIND_VARIABLE;
    hsa_code_object_get_symbol(new_code(), "&count", &symbol);
    IS(hsa_code_symbol_get_info(symbol, HSA_CODE_SYMBOL_INFO_NAME, name), OK);
    IS(strcmp(name, "&count"), 0);
    IS(hsa_code_symbol_get_info(symbol, HSA_CODE_SYMBOL_INFO_TYPE, &kind), OK);
    IS(kind, HSA_SYMBOL_KIND_KERNEL);
    IS(hsa_code_symbol_get_info((hsa_code_symbol_t){ 0 }, HSA_CODE_SYMBOL_INFO_TYPE, &kind), HSA_STATUS_ERROR_INVALID_CODE_SYMBOL);
}

/* ---- the finalizer */

static hsa_ext_program_t new_program(void)
{
    hsa_ext_program_t program = { 0 };
    hsa_ext_program_create(HSA_MACHINE_MODEL_LARGE, HSA_PROFILE_BASE, HSA_DEFAULT_FLOAT_ROUNDING_MODE_DEFAULT, NULL, &program);
    return program;
}

static hsa_ext_module_t the_module(void)
{
    size_t size;
    return (hsa_ext_module_t)(void *)file_bytes("count.brig", &size);
}

static hsa_status_t finalize(hsa_ext_program_t program, hsa_code_object_t *object)
{
    hsa_ext_control_directives_t directives;
    hsa_isa_t isa = { 0 };
    memset(&directives, 0, sizeof directives);
    hsa_agent_get_info(the.gpu, HSA_AGENT_INFO_ISA, &isa);
    return hsa_ext_program_finalize(program, isa, 0, directives, NULL, HSA_CODE_OBJECT_TYPE_PROGRAM, object);
}

static void test_program_create(void)
{
    hsa_ext_program_t program = { 0 };
    hsa_profile_t profile = HSA_PROFILE_BASE;
    IS(hsa_ext_program_create(HSA_MACHINE_MODEL_LARGE, HSA_PROFILE_FULL, HSA_DEFAULT_FLOAT_ROUNDING_MODE_DEFAULT, NULL, &program), OK);
    IS(hsa_ext_program_get_info(program, HSA_EXT_PROGRAM_INFO_PROFILE, &profile), OK);
    IS(profile, HSA_PROFILE_FULL);
}

static void test_program_destroy(void)
{
    hsa_ext_program_t program = new_program();
    IS(hsa_ext_program_destroy(program), OK);
    IS(hsa_ext_program_destroy(program), HSA_EXT_STATUS_ERROR_INVALID_PROGRAM);
}

static void test_program_add_module(void)
{
    hsa_ext_program_t program = new_program();
    hsa_ext_module_t module = the_module();
    hsa_code_object_t object;
    char zeros[200] = { 0 };
    IS(hsa_ext_program_add_module(program, module), OK);
    IS(hsa_ext_program_add_module(program, module), HSA_EXT_STATUS_ERROR_MODULE_ALREADY_INCLUDED);
    IS(hsa_ext_program_add_module(program, (hsa_ext_module_t)(void *)zeros), HSA_EXT_STATUS_ERROR_INVALID_MODULE);
    IS(finalize(program, &object), OK);
}

static hsa_status_t meet_module(hsa_ext_program_t program, hsa_ext_module_t module, void *data)
{
    (void)program;
    *(hsa_ext_module_t *)data = module;
    return OK;
}

static void test_program_iterate_modules(void)
{
    hsa_ext_program_t program = new_program();
    hsa_ext_module_t module = the_module(), met = NULL;
    hsa_ext_program_add_module(program, module);
    IS(hsa_ext_program_iterate_modules(program, meet_module, &met), OK);
    IS(met == module, 1);
}

static void test_program_get_info(void)
{
    hsa_machine_model_t model = HSA_MACHINE_MODEL_SMALL;
    IS(hsa_ext_program_get_info(new_program(), HSA_EXT_PROGRAM_INFO_MACHINE_MODEL, &model), OK);
    IS(model, HSA_MACHINE_MODEL_LARGE);
    IS(hsa_ext_program_get_info((hsa_ext_program_t){ 0 }, HSA_EXT_PROGRAM_INFO_MACHINE_MODEL, &model), HSA_EXT_STATUS_ERROR_INVALID_PROGRAM);
}

/* From BRIG to a kernel that runs. */
static void test_program_finalize(void)
{
    hsa_ext_program_t program = new_program();
    hsa_code_object_t object = { 0 };
    hsa_executable_t executable = new_executable();
    uint64_t **arguments = NULL, *counter = NULL;
    hsa_signal_t done = { 0 };
    hsa_queue_t *queue = NULL;
    IS(finalize(program, &object), HSA_EXT_STATUS_ERROR_FINALIZATION_FAILED); /* no module */
    hsa_ext_program_add_module(program, the_module());
    IS(finalize(program, &object), OK);
    IS(hsa_executable_load_code_object(executable, the.gpu, object, NULL), OK);
    hsa_memory_allocate(the.kernarg, 8, (void **)&arguments);
    hsa_memory_allocate(the.fine, 8, (void **)&counter);
    hsa_signal_create(1, 0, NULL, &done);
    hsa_queue_create(the.gpu, 4, HSA_QUEUE_TYPE_SINGLE, NULL, NULL, 0, 0, &queue);
    IS(arguments && counter && queue, 1);
    if (!arguments || !counter || !queue) return;
    *arguments = counter;
    *counter = 41;
    hsa_kernel_dispatch_packet_t packet = dispatch_of(kernel_of(executable), arguments, done);
    publish(queue, &packet);
    IS(hsa_signal_wait_scacquire(done, HSA_SIGNAL_CONDITION_EQ, 0, LONG_ENOUGH, HSA_WAIT_STATE_BLOCKED), 0);
    IS(*counter, 42);
}

const test code_tests[] = {
    { "hsa_code_object_reader_create_from_memory", test_reader_from_memory }, { "hsa_code_object_reader_create_from_file", test_reader_from_file },
    { "hsa_code_object_reader_destroy", test_reader_destroy }, { "hsa_executable_create", test_executable_create },
    { "hsa_executable_create_alt", test_executable_create_alt }, { "hsa_executable_destroy", test_executable_destroy },
    { "hsa_executable_load_agent_code_object", test_load_agent_code_object },
    { "hsa_executable_load_program_code_object", test_load_program_code_object }, { "hsa_executable_load_code_object", test_load_code_object },
    { "hsa_executable_freeze", test_freeze }, { "hsa_executable_get_info", test_executable_get_info }, { "hsa_executable_validate", test_validate },
    { "hsa_executable_validate_alt", test_validate_alt }, { "hsa_executable_global_variable_define", test_global_variable_define },
    { "hsa_executable_agent_global_variable_define", test_agent_variable_define },
    { "hsa_executable_readonly_variable_define", test_readonly_variable_define },
    { "hsa_executable_get_symbol_by_name", test_get_symbol_by_name }, { "hsa_executable_get_symbol", test_get_symbol },
    { "hsa_executable_iterate_symbols", test_iterate_symbols }, { "hsa_executable_iterate_agent_symbols", test_iterate_agent_symbols },
    { "hsa_executable_iterate_program_symbols", test_iterate_program_symbols }, { "hsa_executable_symbol_get_info", test_symbol_get_info },
    { "hsa_code_object_deserialize", test_deserialize }, { "hsa_code_object_serialize", test_serialize }, { "hsa_code_object_destroy", test_code_destroy },
    { "hsa_code_object_get_info", test_code_get_info }, { "hsa_code_object_get_symbol", test_code_get_symbol },
    { "hsa_code_object_get_symbol_from_name", test_code_get_symbol_from_name }, { "hsa_code_object_iterate_symbols", test_code_iterate_symbols },
    { "hsa_code_symbol_get_info", test_code_symbol_get_info }, { "hsa_ext_program_create", test_program_create },
    { "hsa_ext_program_destroy", test_program_destroy }, { "hsa_ext_program_add_module", test_program_add_module },
    { "hsa_ext_program_iterate_modules", test_program_iterate_modules }, { "hsa_ext_program_get_info", test_program_get_info },
    { "hsa_ext_program_finalize", test_program_finalize }, { NULL, NULL },
};
