/* A test for each function that works: `functions NAME` runs that of one function, `functions` all, `functions --list` names them. A test
   fails where its function answers success, or 0, at once and does nothing: tests/hsa.py puts such a function in the place of each. */
#include "functions.h"

long right, wrong;
machine the;

/* ---- beginning and end, statuses, the system */

/* Ends the runtime, however often it was begun; a runtime that never ends is given up. */
static void end_runtime(void)
{
    for (int turn = 0; turn < 8 && !hsa_shut_down(); turn++) ;
}

static void test_init(void)
{
    uint16_t major;
    end_runtime();
    IS(hsa_system_get_info(HSA_SYSTEM_INFO_VERSION_MAJOR, &major), HSA_STATUS_ERROR_NOT_INITIALIZED);
    IS(hsa_init(), OK);
    IS(hsa_system_get_info(HSA_SYSTEM_INFO_VERSION_MAJOR, &major), OK);
    IS(hsa_init(), OK);
    IS(hsa_shut_down(), OK);
    IS(hsa_system_get_info(HSA_SYSTEM_INFO_VERSION_MAJOR, &major), OK);
}

static void test_shut_down(void)
{
    uint16_t major;
    IS(hsa_shut_down(), OK);
    IS(hsa_system_get_info(HSA_SYSTEM_INFO_VERSION_MAJOR, &major), HSA_STATUS_ERROR_NOT_INITIALIZED);
    IS(hsa_shut_down(), HSA_STATUS_ERROR_NOT_INITIALIZED);
    IS(hsa_init(), OK);
}

static void test_status_string(void)
{
    const char *text = "";
    IS(hsa_status_string(HSA_STATUS_ERROR_INVALID_AGENT, &text), OK);
    IS(strncmp(text, "HSA_STATUS_ERROR_INVALID_AGENT: ", 32), 0);
    IS(hsa_status_string(OK, NULL), BAD);
    IS(hsa_status_string((hsa_status_t)77, &text), BAD);
}

static void test_system_get_info(void)
{
    uint16_t version = 9;
    uint64_t before = 0, after = 0, frequency = 0;
    hsa_endianness_t endianness = HSA_ENDIANNESS_BIG;
    hsa_machine_model_t model = HSA_MACHINE_MODEL_SMALL;
    uint8_t extensions[128] = { 0xff };
    IS(hsa_system_get_info(HSA_SYSTEM_INFO_VERSION_MAJOR, &version), OK);
    IS(version, 1);
    IS(hsa_system_get_info(HSA_SYSTEM_INFO_TIMESTAMP, &before), OK);
    IS(hsa_system_get_info(HSA_SYSTEM_INFO_TIMESTAMP, &after), OK);
    IS(before && before <= after, 1);
    IS(hsa_system_get_info(HSA_SYSTEM_INFO_TIMESTAMP_FREQUENCY, &frequency), OK);
    IS(frequency, 1000000000);
    IS(hsa_system_get_info(HSA_SYSTEM_INFO_ENDIANNESS, &endianness), OK);
    IS(endianness, HSA_ENDIANNESS_LITTLE);
    IS(hsa_system_get_info(HSA_SYSTEM_INFO_MACHINE_MODEL, &model), OK);
    IS(model, HSA_MACHINE_MODEL_LARGE);
    IS(hsa_system_get_info(HSA_SYSTEM_INFO_EXTENSIONS, extensions), OK);
    IS(extensions[0], 1 << HSA_EXTENSION_FINALIZER);
    IS(hsa_system_get_info((hsa_system_info_t)99, &version), BAD);
    IS(hsa_system_get_info(HSA_SYSTEM_INFO_VERSION_MAJOR, NULL), BAD);
}

static void test_extension_get_name(void)
{
    const char *name = "";
    IS(hsa_extension_get_name(HSA_EXTENSION_FINALIZER, &name), OK);
    IS(strcmp(name, "HSA_EXTENSION_FINALIZER"), 0);
    IS(hsa_extension_get_name(500, &name), BAD);
}

static void test_system_extension_supported(void)
{
    bool answer = false;
    IS(hsa_system_extension_supported(HSA_EXTENSION_FINALIZER, 1, 0, &answer), OK);
    IS(answer, true);
    IS(hsa_system_extension_supported(HSA_EXTENSION_IMAGES, 1, 0, &answer), OK);
    IS(answer, false);
    IS(hsa_system_extension_supported(HSA_EXTENSION_FINALIZER, 1, 0, NULL), BAD);
}

static void test_system_major_extension_supported(void)
{
    uint16_t minor = 9;
    bool answer = false;
    IS(hsa_system_major_extension_supported(HSA_EXTENSION_FINALIZER, 1, &minor, &answer), OK);
    IS(answer, true);
    IS(minor, 0);
    IS(hsa_system_major_extension_supported(HSA_EXTENSION_FINALIZER, 2, &minor, &answer), OK);
    IS(answer, false);
    IS(hsa_system_major_extension_supported(999, 1, &minor, &answer), BAD);
}

static void test_extension_tables(void)
{
    hsa_ext_finalizer_1_00_pfn_t table;
    memset(&table, 0, sizeof table);
    IS(hsa_system_get_major_extension_table(HSA_EXTENSION_FINALIZER, 1, sizeof table, &table), OK);
    IS(table.hsa_ext_program_create == hsa_ext_program_create, 1);
    IS(table.hsa_ext_program_finalize == hsa_ext_program_finalize, 1);
    IS(hsa_system_get_major_extension_table(HSA_EXTENSION_IMAGES, 1, 8, &table), HSA_STATUS_ERROR);
    IS(hsa_system_get_major_extension_table(999, 1, 8, &table), BAD);
}

static void test_extension_table(void)
{
    hsa_ext_finalizer_1_00_pfn_t table;
    memset(&table, 0, sizeof table);
    IS(hsa_system_get_extension_table(HSA_EXTENSION_FINALIZER, 1, 0, &table), OK);
    IS(table.hsa_ext_program_finalize == hsa_ext_program_finalize, 1);
    IS(hsa_system_get_extension_table(HSA_EXTENSION_FINALIZER, 1, 7, &table), HSA_STATUS_ERROR);
}

/* ---- agents and instruction sets */

static hsa_status_t count_agents(hsa_agent_t agent, void *data)
{
    (void)agent;
    ++*(int *)data;
    return OK;
}

static hsa_status_t stop_at_agent(hsa_agent_t agent, void *data)
{
    (void)agent;
    ++*(int *)data;
    return HSA_STATUS_INFO_BREAK;
}

static void test_iterate_agents(void)
{
    int count = 0;
    IS(hsa_iterate_agents(count_agents, &count), OK);
    IS(count, 3); /* the host, and two of the policy */
    count = 0;
    IS(hsa_iterate_agents(stop_at_agent, &count), HSA_STATUS_INFO_BREAK);
    IS(count, 1);
    IS(hsa_iterate_agents(NULL, NULL), BAD);
}

static void test_agent_get_info(void)
{
    char name[64] = "";
    uint32_t number = 9;
    uint16_t most[3] = { 0 };
    hsa_isa_t isa = { 0 };
    IS(hsa_agent_get_info(the.gpu, HSA_AGENT_INFO_NAME, name), OK);
    IS(strcmp(name, "gpu"), 0);
    IS(hsa_agent_get_info(the.gpu, HSA_AGENT_INFO_FEATURE, &number), OK);
    IS(number, HSA_AGENT_FEATURE_KERNEL_DISPATCH | HSA_AGENT_FEATURE_AGENT_DISPATCH);
    IS(hsa_agent_get_info(the.host, HSA_AGENT_INFO_FEATURE, &number), OK);
    IS(number, 0);
    IS(hsa_agent_get_info(the.gpu, HSA_AGENT_INFO_QUEUE_MAX_SIZE, &number), OK);
    IS(number, 4096);
    IS(hsa_agent_get_info(the.gpu, HSA_AGENT_INFO_WAVEFRONT_SIZE, &number), OK);
    IS(number, 1);
    IS(hsa_agent_get_info(the.gpu, HSA_AGENT_INFO_WORKGROUP_MAX_DIM, most), OK);
    IS(most[2], 1024);
    IS(hsa_agent_get_info(the.gpu, HSA_AGENT_INFO_ISA, &isa), OK);
    IS(isa.handle != 0, 1);
    IS(hsa_agent_get_info((hsa_agent_t){ 3 }, HSA_AGENT_INFO_NODE, &number), HSA_STATUS_ERROR_INVALID_AGENT);
    IS(hsa_agent_get_info(the.gpu, (hsa_agent_info_t)0x9999, &number), BAD);
}

static void test_agent_get_exception_policies(void)
{
    uint16_t mask = 9;
    IS(hsa_agent_get_exception_policies(the.gpu, HSA_PROFILE_BASE, &mask), OK);
    IS(mask, 0);
    IS(hsa_agent_get_exception_policies((hsa_agent_t){ 3 }, HSA_PROFILE_BASE, &mask), HSA_STATUS_ERROR_INVALID_AGENT);
}

static hsa_status_t no_cache(hsa_cache_t cache, void *data)
{
    (void)cache, (void)data;
    wrong++;
    return OK;
}

static void test_agent_iterate_caches(void)
{
    IS(hsa_agent_iterate_caches(the.gpu, no_cache, NULL), OK);
    IS(hsa_agent_iterate_caches((hsa_agent_t){ 3 }, no_cache, NULL), HSA_STATUS_ERROR_INVALID_AGENT);
    IS(hsa_agent_iterate_caches(the.gpu, NULL, NULL), BAD);
}

static void test_agent_extension_supported(void)
{
    bool answer = false;
    IS(hsa_agent_extension_supported(HSA_EXTENSION_FINALIZER, the.gpu, 1, 0, &answer), OK);
    IS(answer, true);
    IS(hsa_agent_extension_supported(HSA_EXTENSION_FINALIZER, the.host, 1, 0, &answer), OK);
    IS(answer, false);
}

static void test_agent_major_extension_supported(void)
{
    bool answer = false;
    uint16_t minor = 9;
    IS(hsa_agent_major_extension_supported(HSA_EXTENSION_FINALIZER, the.gpu, 1, &minor, &answer), OK);
    IS(answer, true);
    IS(minor, 0);
    IS(hsa_agent_major_extension_supported(HSA_EXTENSION_FINALIZER, (hsa_agent_t){ 3 }, 1, &minor, &answer), HSA_STATUS_ERROR_INVALID_AGENT);
}

static hsa_status_t meet_isa(hsa_isa_t isa, void *data)
{
    *(hsa_isa_t *)data = isa;
    return HSA_STATUS_INFO_BREAK;
}

static hsa_isa_t the_isa(void)
{
    hsa_isa_t isa = { 0 };
    hsa_agent_get_info(the.gpu, HSA_AGENT_INFO_ISA, &isa);
    return isa;
}

static void test_agent_iterate_isas(void)
{
    hsa_isa_t isa = { 0 };
    IS(hsa_agent_iterate_isas(the.gpu, meet_isa, &isa), HSA_STATUS_INFO_BREAK);
    IS(isa.handle, the_isa().handle);
    IS(hsa_agent_iterate_isas(the.host, meet_isa, &isa), OK);
}

static void test_isa_get_info_alt(void)
{
    uint32_t length = 0;
    char name[64] = "";
    bool flags[3] = { false, false, true };
    uint64_t most = 0;
    IS(hsa_isa_get_info_alt(the_isa(), HSA_ISA_INFO_NAME_LENGTH, &length), OK);
    IS(hsa_isa_get_info_alt(the_isa(), HSA_ISA_INFO_NAME, name), OK);
    IS(strlen(name) + 1, length);
    IS(hsa_isa_get_info_alt(the_isa(), HSA_ISA_INFO_PROFILES, flags), OK);
    IS(flags[HSA_PROFILE_BASE] && !flags[HSA_PROFILE_FULL], 1);
    IS(hsa_isa_get_info_alt(the_isa(), HSA_ISA_INFO_GRID_MAX_SIZE, &most), OK);
    IS(most, UINT32_MAX);
    IS(hsa_isa_get_info_alt((hsa_isa_t){ 1 }, HSA_ISA_INFO_NAME_LENGTH, &length), HSA_STATUS_ERROR_INVALID_ISA);
}

static void test_isa_get_info(void)
{
    uint32_t size = 0;
    IS(hsa_isa_get_info(the_isa(), HSA_ISA_INFO_CALL_CONVENTION_INFO_WAVEFRONT_SIZE, 0, &size), OK);
    IS(size, 1);
    IS(hsa_isa_get_info(the_isa(), HSA_ISA_INFO_CALL_CONVENTION_INFO_WAVEFRONT_SIZE, 1, &size), HSA_STATUS_ERROR_INVALID_INDEX);
}

static void test_isa_from_name(void)
{
    char name[64] = "";
    hsa_isa_t isa = { 0 };
    hsa_isa_get_info_alt(the_isa(), HSA_ISA_INFO_NAME, name);
    IS(hsa_isa_from_name(name, &isa), OK);
    IS(isa.handle, the_isa().handle);
    IS(hsa_isa_from_name("amdgcn-amd-amdhsa--gfx900", &isa), HSA_STATUS_ERROR_INVALID_ISA_NAME);
}

static void test_isa_get_exception_policies(void)
{
    uint16_t mask = 9;
    IS(hsa_isa_get_exception_policies(the_isa(), HSA_PROFILE_BASE, &mask), OK);
    IS(mask, 0);
}

static void test_isa_get_round_method(void)
{
    hsa_round_method_t method = HSA_ROUND_METHOD_DOUBLE;
    IS(hsa_isa_get_round_method(the_isa(), HSA_FP_TYPE_32, HSA_FLUSH_MODE_FTZ, &method), OK);
    IS(method, HSA_ROUND_METHOD_SINGLE);
}

static hsa_status_t meet_wavefront(hsa_wavefront_t wavefront, void *data)
{
    *(hsa_wavefront_t *)data = wavefront;
    return OK;
}

static void test_isa_iterate_wavefronts(void)
{
    hsa_wavefront_t wavefront = { 0 };
    IS(hsa_isa_iterate_wavefronts(the_isa(), meet_wavefront, &wavefront), OK);
    IS(wavefront.handle != 0, 1);
}

static void test_wavefront_get_info(void)
{
    hsa_wavefront_t wavefront = { 0 };
    uint32_t size = 0;
    hsa_isa_iterate_wavefronts(the_isa(), meet_wavefront, &wavefront);
    IS(hsa_wavefront_get_info(wavefront, HSA_WAVEFRONT_INFO_SIZE, &size), OK);
    IS(size, 1);
    IS(hsa_wavefront_get_info((hsa_wavefront_t){ 1 }, HSA_WAVEFRONT_INFO_SIZE, &size), HSA_STATUS_ERROR_INVALID_WAVEFRONT);
}

static void test_isa_compatible(void)
{
    bool answer = false;
    IS(hsa_isa_compatible(the_isa(), the_isa(), &answer), OK);
    IS(answer, true);
    IS(hsa_isa_compatible(the_isa(), (hsa_isa_t){ 1 }, &answer), HSA_STATUS_ERROR_INVALID_ISA);
}

const test system_tests[] = {
    { "hsa_init", test_init }, { "hsa_shut_down", test_shut_down }, { "hsa_status_string", test_status_string },
    { "hsa_system_get_info", test_system_get_info }, { "hsa_extension_get_name", test_extension_get_name },
    { "hsa_system_extension_supported", test_system_extension_supported },
    { "hsa_system_major_extension_supported", test_system_major_extension_supported },
    { "hsa_system_get_major_extension_table", test_extension_tables }, { "hsa_system_get_extension_table", test_extension_table },
    { "hsa_iterate_agents", test_iterate_agents }, { "hsa_agent_get_info", test_agent_get_info },
    { "hsa_agent_get_exception_policies", test_agent_get_exception_policies }, { "hsa_agent_iterate_caches", test_agent_iterate_caches },
    { "hsa_agent_extension_supported", test_agent_extension_supported },
    { "hsa_agent_major_extension_supported", test_agent_major_extension_supported },
    { "hsa_agent_iterate_isas", test_agent_iterate_isas }, { "hsa_isa_get_info_alt", test_isa_get_info_alt },
    { "hsa_isa_get_info", test_isa_get_info }, { "hsa_isa_from_name", test_isa_from_name },
    { "hsa_isa_get_exception_policies", test_isa_get_exception_policies }, { "hsa_isa_get_round_method", test_isa_get_round_method },
    { "hsa_isa_iterate_wavefronts", test_isa_iterate_wavefronts }, { "hsa_wavefront_get_info", test_wavefront_get_info },
    { "hsa_isa_compatible", test_isa_compatible }, { NULL, NULL },
};

/* ---- the runner */

static const test *const ALL[] = { system_tests, signal_tests, queue_tests, memory_tests, code_tests };

static void run_test(const test *it)
{
    long before = wrong;
    if (hsa_init()) {
        printf("%s: no runtime\n", it->function);
        wrong++;
        return;
    }
    the = meet_machine();
    it->run();
    if (wrong > before) printf("%s: wrong\n", it->function);
    end_runtime();
}

int main(int count, char **words)
{
    const char *only = count > 1 ? words[1] : NULL;
    int met = 0;
    alarm(only ? 30 : 120);
    for (size_t i = 0; i < sizeof ALL / sizeof *ALL; i++)
        for (const test *it = ALL[i]; it->function; it++) {
            if (only && !strcmp(only, "--list")) puts(it->function);
            else if (!only || !strcmp(only, it->function)) {
                met++;
                run_test(it);
            }
        }
    if (!only) printf("%ld right, %ld wrong\n", right, wrong);
    return wrong || (only && strcmp(only, "--list") && !met);
}
