/* Waiting for one of several signals, and what waits in a thread of its own: handlers of signals, and copies that depend on signals. */
#include "hsa_common.h"

#include <pthread.h>

enum { LOOK_AGAIN = 50000, HANDLER_LOOK = 10000000 }; /* nanoseconds */

/* ---- any of several */

/* The number of the first signal that meets its condition, or UINT32_MAX when the time is over. They are looked at in turn, with short
   sleeps on the first. */
static uint32_t wait_for_any(uint32_t count, const hsa_signal_t *signals, const hsa_signal_condition_t *conditions, const hsa_signal_value_t *values,
                             uint64_t nanoseconds, hsa_signal_value_t *found)
{
    uint64_t begin = monotonic_now();
    for (;;) {
        for (uint32_t i = 0; i < count; i++) {
            *found = signal_load(signals[i]);
            if (signal_meets(*found, conditions[i], values[i])) return i;
        }
        if (monotonic_now() - begin >= nanoseconds) return UINT32_MAX;
        signal_wait(signals[0], conditions[0], values[0], LOOK_AGAIN, HSA_WAIT_STATE_BLOCKED);
    }
}

typedef struct signal_group {
    uint32_t count;
    hsa_signal_t signals[];
} signal_group;

EXPORTED hsa_status_t hsa_signal_group_create(uint32_t count, const hsa_signal_t *signals, uint32_t consumer_count, const hsa_agent_t *consumers, hsa_signal_group_t *group)
{
    REQUIRE_INIT();
    REQUIRE_ARGUMENT(count && signals && group && (!consumer_count || consumers));
    signal_group *made = malloc(sizeof *made + count * sizeof *signals);
    REQUIRE(made, HSA_STATUS_ERROR_OUT_OF_RESOURCES);
    made->count = count;
    memcpy(made->signals, signals, count * sizeof *signals);
    group->handle = handle_new(HANDLE_SIGNAL_GROUP, made);
    if (group->handle) return HSA_STATUS_SUCCESS;
    free(made);
    return HSA_STATUS_ERROR_OUT_OF_RESOURCES;
}

EXPORTED hsa_status_t hsa_signal_group_destroy(hsa_signal_group_t group)
{
    REQUIRE_INIT();
    signal_group *ended = handle_end(HANDLE_SIGNAL_GROUP, group.handle);
    REQUIRE(ended, HSA_STATUS_ERROR_INVALID_SIGNAL_GROUP);
    free(ended);
    return HSA_STATUS_SUCCESS;
}

static hsa_status_t group_wait(hsa_signal_group_t group, const hsa_signal_condition_t *conditions, const hsa_signal_value_t *values, hsa_signal_t *signal, hsa_signal_value_t *value)
{
    REQUIRE_INIT();
    const signal_group *of = handle_thing(HANDLE_SIGNAL_GROUP, group.handle);
    REQUIRE(of, HSA_STATUS_ERROR_INVALID_SIGNAL_GROUP);
    REQUIRE_ARGUMENT(conditions && values && signal && value);
    *signal = of->signals[wait_for_any(of->count, of->signals, conditions, values, FOR_EVER, value)];
    return HSA_STATUS_SUCCESS;
}

EXPORTED hsa_status_t hsa_signal_group_wait_any_scacquire(hsa_signal_group_t group, const hsa_signal_condition_t *conditions, const hsa_signal_value_t *values,
                                                          hsa_wait_state_t state, hsa_signal_t *signal, hsa_signal_value_t *value)
{
    (void)state;
    return group_wait(group, conditions, values, signal, value);
}

EXPORTED hsa_status_t hsa_signal_group_wait_any_relaxed(hsa_signal_group_t group, const hsa_signal_condition_t *conditions, const hsa_signal_value_t *values,
                                                        hsa_wait_state_t state, hsa_signal_t *signal, hsa_signal_value_t *value)
{
    (void)state;
    return group_wait(group, conditions, values, signal, value);
}

EXPORTED uint32_t hsa_amd_signal_wait_any(uint32_t count, hsa_signal_t *signals, hsa_signal_condition_t *conditions, hsa_signal_value_t *values, uint64_t timeout,
                                          hsa_wait_state_t state, hsa_signal_value_t *value)
{
    (void)state;
    hsa_signal_value_t found = 0;
    uint32_t first = is_initialized() && count ? wait_for_any(count, signals, conditions, values, timeout, &found) : UINT32_MAX;
    if (value && first != UINT32_MAX) *value = found;
    return first;
}

/* ---- threads of this library that wait */

static pthread_mutex_t lock = PTHREAD_MUTEX_INITIALIZER;
static pthread_cond_t one_ended = PTHREAD_COND_INITIALIZER;
static uint32_t workers; /* how many run */

/* Counts a thread from before it begins; its function calls worker_is_done last. */
static bool begin_worker(void *(*work)(void *), void *data)
{
    pthread_t thread;
    pthread_mutex_lock(&lock);
    workers++;
    pthread_mutex_unlock(&lock);
    if (!pthread_create(&thread, NULL, work, data)) return !pthread_detach(thread);
    pthread_mutex_lock(&lock);
    workers--;
    pthread_mutex_unlock(&lock);
    return false;
}

static void worker_is_done(void)
{
    pthread_mutex_lock(&lock);
    workers--;
    pthread_cond_broadcast(&one_ended);
    pthread_mutex_unlock(&lock);
}

/* Each looks now and then whether the runtime is still initialised. */
void workers_end(void)
{
    pthread_mutex_lock(&lock);
    while (workers) pthread_cond_wait(&one_ended, &lock);
    pthread_mutex_unlock(&lock);
}

typedef struct handler {
    hsa_signal_t signal;
    hsa_signal_condition_t condition;
    hsa_signal_value_t against;
    hsa_amd_signal_handler call;
    void *data;
} handler;

/* Calls the handler whenever the condition holds, until it answers false. */
static void *handle_signal(void *data)
{
    handler *it = data;
    bool goes_on = true;
    while (goes_on && is_initialized()) {
        hsa_signal_value_t value = signal_wait(it->signal, it->condition, it->against, HANDLER_LOOK, HSA_WAIT_STATE_BLOCKED);
        if (signal_meets(value, it->condition, it->against)) goes_on = it->call(value, it->data);
    }
    free(it);
    worker_is_done();
    return NULL;
}

EXPORTED hsa_status_t hsa_amd_signal_async_handler(hsa_signal_t signal, hsa_signal_condition_t condition, hsa_signal_value_t value, hsa_amd_signal_handler call, void *data)
{
    REQUIRE_INIT();
    REQUIRE(is_signal(signal), HSA_STATUS_ERROR_INVALID_SIGNAL);
    REQUIRE_ARGUMENT(call);
    handler *it = malloc(sizeof *it);
    REQUIRE(it, HSA_STATUS_ERROR_OUT_OF_RESOURCES);
    *it = (handler){ signal, condition, value, call, data };
    if (begin_worker(handle_signal, it)) return HSA_STATUS_SUCCESS;
    free(it);
    return HSA_STATUS_ERROR_OUT_OF_RESOURCES;
}

typedef struct copying {
    void *to;
    const void *from;
    size_t size;
    hsa_signal_t done;
    uint32_t count;
    hsa_signal_t depends_on[];
} copying;

static void copy_now(const copying *it)
{
    memmove(it->to, it->from, it->size);
    signal_change(it->done, HD_SUBTRACT, 1, 0);
}

/* Copies once each signal was 0; an end of the runtime is the copy's end. */
static void *copy_after(void *data)
{
    copying *it = data;
    uint32_t met = 0;
    while (met < it->count && is_initialized())
        if (!signal_wait(it->depends_on[met], HSA_SIGNAL_CONDITION_EQ, 0, HANDLER_LOOK, HSA_WAIT_STATE_BLOCKED)) met++;
    if (is_initialized()) copy_now(it);
    free(it);
    worker_is_done();
    return NULL;
}

EXPORTED hsa_status_t hsa_amd_memory_async_copy(void *to, hsa_agent_t to_agent, const void *from, hsa_agent_t from_agent, size_t size, uint32_t count, const hsa_signal_t *signals, hsa_signal_t done)
{
    REQUIRE_INIT();
    REQUIRE(is_agent(to_agent) && is_agent(from_agent), HSA_STATUS_ERROR_INVALID_AGENT);
    REQUIRE(!done.handle || is_signal(done), HSA_STATUS_ERROR_INVALID_SIGNAL);
    REQUIRE_ARGUMENT(to && from && (!count || signals));
    copying *it = malloc(sizeof *it + count * sizeof *signals);
    REQUIRE(it, HSA_STATUS_ERROR_OUT_OF_RESOURCES);
    *it = (copying){ .to = to, .from = from, .size = size, .done = done, .count = count };
    if (count) memcpy(it->depends_on, signals, count * sizeof *signals);
    if (count && begin_worker(copy_after, it)) return HSA_STATUS_SUCCESS;
    if (!count) copy_now(it);
    free(it);
    return count ? HSA_STATUS_ERROR_OUT_OF_RESOURCES : HSA_STATUS_SUCCESS;
}
