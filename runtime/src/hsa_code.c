/* Code readers, code objects and their symbols. */
#include "hsa_code.h"

#include <pthread.h>
#include <unistd.h>

#include "hsail_of_brig.h"
#include "hsail_text.h"

enum { MOST_BYTES = 1 << 24 };

/* ---- texts and kernels */

/* The text of a code object's bytes, which is the caller's, or NULL. */
static char *text_of_bytes(const char *bytes, size_t size)
{
    char why[200] = "no memory";
    char *text = NULL;
    if (size >= 8 && !memcmp(bytes, "HSA BRIG", 8)) text = hsail_of_brig(bytes, size, why, sizeof why);
    else if (size >= 4 && !memcmp(bytes, "\177ELF", 4)) snprintf(why, sizeof why, "an ELF file has machine code, and this agent's code is HSAIL");
    else if (memchr(bytes, 0, size)) snprintf(why, sizeof why, "it is neither BRIG nor a text");
    else text = strndup(bytes, size);
    if (!text) tell("a code object is refused: %s", why);
    return text;
}

hsa_status_t code_of_bytes(const void *bytes, size_t size, code **out)
{
    char *text = text_of_bytes(bytes, size);
    REQUIRE(text, HSA_STATUS_ERROR_INVALID_CODE_OBJECT);
    code *it = calloc(1, sizeof *it);
    int count = it ? kernels_of_text(text, it->entries, SEAM_KERNELS) : -1;
    if (count < 0) {
        free(text);
        free(it);
        return HSA_STATUS_ERROR_OUT_OF_RESOURCES;
    }
    it->text = text;
    it->count = (uint32_t)count;
    *out = it;
    return HSA_STATUS_SUCCESS;
}

void code_free(void *freed)
{
    code *it = freed;
    for (uint32_t i = 0; i < it->count; i++) {
        handle_end(HANDLE_CODE_SYMBOL, it->symbols[i]);
        free(it->entries[i]);
    }
    free(it->text);
    free(it);
}

bool is_named(const char *entry, const char *name)
{
    return !strcmp(entry, name) || !strcmp(entry + 1, name);
}

/* The number of the policy's kernel of a text and an entry, or 0. */
static uint32_t known_kernel(const char *text, const char *entry)
{
    seam_object object;
    for (uint32_t number = 1; seam_object_of(the_runtime.link, HD_KERNEL, number, &object); number++)
        if (!strcmp(object.entry, entry) && same_text(object.text, text)) return number;
    return 0;
}

static hsa_status_t add_kernels(const code *of, uint32_t *numbers)
{
    hd_fault fault = { 0 };
    seam_status status = seam_add_kernels(the_runtime.link, of->text, of->entries, of->count, numbers, &fault);
    switch (status) {
    case SEAM_OK: return HSA_STATUS_SUCCESS;
    case SEAM_NOT_ALLOWED: tell("kernel %s isn't loaded: the policy has no such text", of->entries[0]); break;
    case SEAM_BAD_TEXT: tell("kernel %s isn't loaded: its text isn't read at line %u", of->entries[0], fault.line); break;
    default: tell("kernel %s isn't loaded: there is no room for more", of->entries[0]); return HSA_STATUS_ERROR_OUT_OF_RESOURCES;
    }
    return HSA_STATUS_ERROR_INVALID_CODE_OBJECT;
}

hsa_status_t kernels_of_code(const code *of, uint32_t *numbers)
{
    static pthread_mutex_t lock = PTHREAD_MUTEX_INITIALIZER; /* looking and adding are one step */
    uint32_t known = 0;
    REQUIRE(of->count, HSA_STATUS_ERROR_INVALID_CODE_OBJECT);
    pthread_mutex_lock(&lock);
    for (uint32_t i = 0; i < of->count; i++) {
        numbers[i] = known_kernel(of->text, of->entries[i]);
        known += numbers[i] != 0;
    }
    hsa_status_t status = known == of->count ? HSA_STATUS_SUCCESS : add_kernels(of, numbers);
    pthread_mutex_unlock(&lock);
    return status;
}

/* ---- readers: what one holds is looked at when it is loaded */

void reader_free(void *freed)
{
    free(freed);
}

static hsa_status_t give_reader(reader *made, hsa_code_object_reader_t *out)
{
    out->handle = handle_new(HANDLE_READER, made);
    if (out->handle) return HSA_STATUS_SUCCESS;
    free(made);
    return HSA_STATUS_ERROR_OUT_OF_RESOURCES;
}

EXPORTED hsa_status_t hsa_code_object_reader_create_from_memory(const void *bytes, size_t size, hsa_code_object_reader_t *out)
{
    REQUIRE_INIT();
    REQUIRE_ARGUMENT(bytes && size && out);
    reader *made = malloc(sizeof *made + size);
    REQUIRE(made, HSA_STATUS_ERROR_OUT_OF_RESOURCES);
    made->size = size;
    memcpy(made->bytes, bytes, size);
    return give_reader(made, out);
}

/* The whole file, wherever it stands. */
EXPORTED hsa_status_t hsa_code_object_reader_create_from_file(hsa_file_t file, hsa_code_object_reader_t *out)
{
    REQUIRE_INIT();
    REQUIRE_ARGUMENT(out);
    off_t size = lseek(file, 0, SEEK_END);
    REQUIRE(size > 0 && size <= MOST_BYTES, HSA_STATUS_ERROR_INVALID_FILE);
    reader *made = malloc(sizeof *made + (size_t)size);
    REQUIRE(made, HSA_STATUS_ERROR_OUT_OF_RESOURCES);
    for (made->size = 0; made->size < (size_t)size;) {
        ssize_t more = pread(file, made->bytes + made->size, (size_t)size - made->size, (off_t)made->size);
        if (more <= 0) break;
        made->size += (size_t)more;
    }
    if (made->size == (size_t)size) return give_reader(made, out);
    free(made);
    return HSA_STATUS_ERROR_INVALID_FILE;
}

EXPORTED hsa_status_t hsa_code_object_reader_destroy(hsa_code_object_reader_t handle)
{
    REQUIRE_INIT();
    reader *ended = handle_end(HANDLE_READER, handle.handle);
    REQUIRE(ended, HSA_STATUS_ERROR_INVALID_CODE_OBJECT_READER);
    free(ended);
    return HSA_STATUS_SUCCESS;
}

/* ---- code objects */

static const code *code_of(hsa_code_object_t object)
{
    return handle_thing(HANDLE_CODE, object.handle);
}

hsa_status_t give_code(code *made, hsa_code_object_t *out)
{
    bool all = true;
    for (uint32_t i = 0; i < made->count; i++) {
        made->symbols[i] = handle_new(HANDLE_CODE_SYMBOL, made->entries[i]);
        all = all && made->symbols[i];
    }
    out->handle = all ? handle_new(HANDLE_CODE, made) : 0;
    if (out->handle) return HSA_STATUS_SUCCESS;
    code_free(made);
    return HSA_STATUS_ERROR_OUT_OF_RESOURCES;
}

EXPORTED hsa_status_t hsa_code_object_deserialize(void *bytes, size_t size, const char *options, hsa_code_object_t *object)
{
    (void)options;
    REQUIRE_INIT();
    REQUIRE_ARGUMENT(bytes && size && object);
    code *made;
    hsa_status_t status = code_of_bytes(bytes, size, &made);
    return status ? status : give_code(made, object);
}

/* The text, which deserialize takes. */
EXPORTED hsa_status_t hsa_code_object_serialize(hsa_code_object_t object, hsa_status_t (*allocate)(size_t, hsa_callback_data_t, void **), hsa_callback_data_t data,
                                                const char *options, void **bytes, size_t *size)
{
    (void)options;
    REQUIRE_INIT();
    const code *of = code_of(object);
    REQUIRE(of, HSA_STATUS_ERROR_INVALID_CODE_OBJECT);
    REQUIRE_ARGUMENT(allocate && bytes && size);
    size_t length = strlen(of->text);
    hsa_status_t status = allocate(length, data, bytes);
    REQUIRE(!status && *bytes, HSA_STATUS_ERROR_OUT_OF_RESOURCES);
    memcpy(*bytes, of->text, length);
    *size = length;
    return HSA_STATUS_SUCCESS;
}

EXPORTED hsa_status_t hsa_code_object_destroy(hsa_code_object_t object)
{
    REQUIRE_INIT();
    code *ended = handle_end(HANDLE_CODE, object.handle);
    REQUIRE(ended, HSA_STATUS_ERROR_INVALID_CODE_OBJECT);
    code_free(ended);
    return HSA_STATUS_SUCCESS;
}

EXPORTED hsa_status_t hsa_code_object_get_info(hsa_code_object_t object, hsa_code_object_info_t attribute, void *value)
{
    REQUIRE_INIT();
    REQUIRE(code_of(object), HSA_STATUS_ERROR_INVALID_CODE_OBJECT);
    REQUIRE_ARGUMENT(value);
    switch ((uint32_t)attribute) {
    case HSA_CODE_OBJECT_INFO_VERSION: GIVE_TEXT(64, "1.0");
    case HSA_CODE_OBJECT_INFO_TYPE: GIVE(hsa_code_object_type_t, HSA_CODE_OBJECT_TYPE_PROGRAM);
    case HSA_CODE_OBJECT_INFO_ISA: GIVE(hsa_isa_t, ((hsa_isa_t){ HSAIL_ISA }));
    case HSA_CODE_OBJECT_INFO_MACHINE_MODEL: GIVE(hsa_machine_model_t, HSA_MACHINE_MODEL_LARGE);
    case HSA_CODE_OBJECT_INFO_PROFILE: GIVE(hsa_profile_t, HSA_PROFILE_BASE);
    case HSA_CODE_OBJECT_INFO_DEFAULT_FLOAT_ROUNDING_MODE: GIVE(hsa_default_float_rounding_mode_t, HSA_DEFAULT_FLOAT_ROUNDING_MODE_DEFAULT);
    default: return unknown_attribute(__func__, (uint32_t)attribute);
    }
}

/* ---- their symbols */

EXPORTED hsa_status_t hsa_code_object_get_symbol(hsa_code_object_t object, const char *name, hsa_code_symbol_t *symbol)
{
    REQUIRE_INIT();
    const code *of = code_of(object);
    REQUIRE(of, HSA_STATUS_ERROR_INVALID_CODE_OBJECT);
    REQUIRE_ARGUMENT(name && symbol);
    for (uint32_t i = 0; i < of->count; i++) {
        if (!is_named(of->entries[i], name)) continue;
        symbol->handle = of->symbols[i];
        return HSA_STATUS_SUCCESS;
    }
    return HSA_STATUS_ERROR_INVALID_SYMBOL_NAME;
}

/* Modules are told from each other by nothing: a code object has one. */
EXPORTED hsa_status_t hsa_code_object_get_symbol_from_name(hsa_code_object_t object, const char *module, const char *name, hsa_code_symbol_t *symbol)
{
    (void)module;
    return hsa_code_object_get_symbol(object, name, symbol);
}

EXPORTED hsa_status_t hsa_code_object_iterate_symbols(hsa_code_object_t object, hsa_status_t (*callback)(hsa_code_object_t, hsa_code_symbol_t, void *), void *data)
{
    REQUIRE_INIT();
    const code *of = code_of(object);
    REQUIRE(of, HSA_STATUS_ERROR_INVALID_CODE_OBJECT);
    REQUIRE_ARGUMENT(callback);
    hsa_status_t status = HSA_STATUS_SUCCESS;
    for (uint32_t i = 0; !status && i < of->count; i++) status = callback(object, (hsa_code_symbol_t){ of->symbols[i] }, data);
    return status;
}

/* How large a kernel's segments are is known once it is loaded. */
EXPORTED hsa_status_t hsa_code_symbol_get_info(hsa_code_symbol_t symbol, hsa_code_symbol_info_t attribute, void *value)
{
    REQUIRE_INIT();
    const char *entry = handle_thing(HANDLE_CODE_SYMBOL, symbol.handle);
    REQUIRE(entry, HSA_STATUS_ERROR_INVALID_CODE_SYMBOL);
    REQUIRE_ARGUMENT(value);
    switch ((uint32_t)attribute) {
    case HSA_CODE_SYMBOL_INFO_TYPE: GIVE(hsa_symbol_kind_t, HSA_SYMBOL_KIND_KERNEL);
    case HSA_CODE_SYMBOL_INFO_NAME_LENGTH: GIVE(uint32_t, (uint32_t)strlen(entry));
    case HSA_CODE_SYMBOL_INFO_NAME:
        memcpy(value, entry, strlen(entry));
        return HSA_STATUS_SUCCESS;
    case HSA_CODE_SYMBOL_INFO_MODULE_NAME_LENGTH: GIVE(uint32_t, 0);
    case HSA_CODE_SYMBOL_INFO_MODULE_NAME: return HSA_STATUS_SUCCESS;
    case HSA_CODE_SYMBOL_INFO_LINKAGE: GIVE(hsa_symbol_linkage_t, HSA_SYMBOL_LINKAGE_PROGRAM);
    case HSA_CODE_SYMBOL_INFO_IS_DEFINITION: GIVE(bool, true);
    default: return unknown_attribute(__func__, (uint32_t)attribute);
    }
}
