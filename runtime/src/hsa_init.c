/* Initialisation and the end. */
#include "hsa_common.h"

#include <pthread.h>
#include <stdarg.h>

runtime the_runtime;
static pthread_mutex_t lock = PTHREAD_MUTEX_INITIALIZER; /* over beginning and end */

void tell(const char *form, ...)
{
    if (!the_runtime.tells) return;
    va_list values;
    va_start(values, form);
    fputs("hobbydresser: ", stderr);
    vfprintf(stderr, form, values);
    fputc('\n', stderr);
    va_end(values);
}

hsa_status_t unknown_attribute(const char *function, uint32_t attribute)
{
    if (the_runtime.traces) fprintf(stderr, "hobbydresser: %s: attribute 0x%x isn't known\n", function, attribute);
    return HSA_STATUS_ERROR_INVALID_ARGUMENT;
}

static hsa_status_t begin(void)
{
    const char *places = getenv("HOBBYDRESSER_PLACES");
    seam_setting setting = {
        .policy = getenv("HOBBYDRESSER_POLICY"), .client = getenv("HOBBYDRESSER_CLIENT"), .journal = getenv("HOBBYDRESSER_JOURNAL"),
        .keep = getenv("HOBBYDRESSER_KEEP_POLICY"), .places = places ? strtoull(places, NULL, 10) : 0, .on_error = queues_error,
    };
    char why[256] = "";
    the_runtime.traces = getenv("HOBBYDRESSER_TRACE");
    the_runtime.tells = getenv("HOBBYDRESSER_TELL");
    seam_status status = seam_connect(&setting, &the_runtime.link, why, sizeof why);
    if (status) {
        fprintf(stderr, "hobbydresser: %s\n", why); /* hsa_init has no other way to tell it */
        return status == SEAM_NO_MEMORY ? HSA_STATUS_ERROR_OUT_OF_RESOURCES : HSA_STATUS_ERROR;
    }
    signals_begin();
    memory_begin();
    return HSA_STATUS_SUCCESS;
}

static void end(void)
{
    static void (*const FREE[HANDLE_KINDS])(void *) = {
        [HANDLE_READER] = reader_free, [HANDLE_CODE] = code_free, [HANDLE_EXECUTABLE] = executable_free,
        [HANDLE_SYMBOL] = symbol_free, [HANDLE_PROGRAM] = program_free, [HANDLE_SIGNAL_GROUP] = free,
    };
    workers_end();
    queues_end();
    handles_end_all(FREE);
    memory_end();
    seam_leave(the_runtime.link);
    the_runtime.link = NULL;
}

EXPORTED hsa_status_t hsa_init(void)
{
    hsa_status_t status = HSA_STATUS_SUCCESS;
    pthread_mutex_lock(&lock);
    uint32_t references = atomic_load(&the_runtime.references);
    if (references == UINT32_MAX) status = HSA_STATUS_ERROR_REFCOUNT_OVERFLOW;
    else if (!references) status = begin();
    if (!status) atomic_fetch_add(&the_runtime.references, 1);
    pthread_mutex_unlock(&lock);
    return status;
}

EXPORTED hsa_status_t hsa_shut_down(void)
{
    hsa_status_t status = HSA_STATUS_SUCCESS;
    pthread_mutex_lock(&lock);
    if (!is_initialized()) status = HSA_STATUS_ERROR_NOT_INITIALIZED;
    else if (atomic_fetch_sub(&the_runtime.references, 1) == 1) end();
    pthread_mutex_unlock(&lock);
    return status;
}

/* A program that ends without shutting down still gets its journal's last line. */
__attribute__((destructor)) static void end_of_process(void)
{
    while (hsa_shut_down() == HSA_STATUS_SUCCESS) ;
}
