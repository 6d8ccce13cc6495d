/* Tests of the functions of queues. */
#include "functions.h"

static _Atomic int last_status;

static void on_error(hsa_status_t status, hsa_queue_t *queue, void *data)
{
    *(hsa_queue_t **)data = queue;
    atomic_store(&last_status, (int)status);
}

static hsa_queue_t *new_queue(void)
{
    hsa_queue_t *queue = NULL;
    hsa_queue_create(the.gpu, 8, HSA_QUEUE_TYPE_MULTI, NULL, NULL, 0, 0, &queue);
    return queue;
}

static hsa_signal_t new_signal(hsa_signal_value_t value)
{
    hsa_signal_t signal = { 0 };
    hsa_signal_create(value, 0, NULL, &signal);
    return signal;
}

static hsa_queue_t *new_soft_queue(void)
{
    hsa_queue_t *queue = NULL;
    hsa_soft_queue_create(the.fine, 8, HSA_QUEUE_TYPE_MULTI, HSA_QUEUE_FEATURE_AGENT_DISPATCH, new_signal(0), &queue);
    return queue;
}

/* A barrier packet that depends on nothing: its completion signal falls. */
static hsa_barrier_and_packet_t barrier(hsa_signal_t done)
{
    return (hsa_barrier_and_packet_t){ .header = header_of(HSA_PACKET_TYPE_BARRIER_AND), .completion_signal = done };
}

static int64_t fallen(hsa_signal_t signal)
{
    return hsa_signal_wait_scacquire(signal, HSA_SIGNAL_CONDITION_EQ, 0, LONG_ENOUGH, HSA_WAIT_STATE_BLOCKED);
}

static void test_create(void)
{
    hsa_queue_t *queue = NULL, *who = NULL;
    hsa_signal_t done = new_signal(1);
    hsa_barrier_and_packet_t packet = barrier(done);
    IS(hsa_queue_create(the.gpu, 8, HSA_QUEUE_TYPE_SINGLE, on_error, &who, 0, 0, &queue), OK);
    IS(queue != NULL, 1);
    if (!queue) return;
    IS(queue->size, 8);
    IS(queue->type, HSA_QUEUE_TYPE_SINGLE);
    IS(queue->features, HSA_QUEUE_FEATURE_KERNEL_DISPATCH | HSA_QUEUE_FEATURE_AGENT_DISPATCH);
    IS(*(uint16_t *)queue->base_address, HSA_PACKET_TYPE_INVALID);
    publish(queue, &packet);
    IS(fallen(done), 0);
    packet.header = 6; /* no packet */
    publish(queue, &packet);
    for (int i = 0; i < 10000 && !atomic_load(&last_status); i++) usleep(1000);
    IS(atomic_load(&last_status), HSA_STATUS_ERROR_INVALID_PACKET_FORMAT);
    IS(who == queue, 1);
    IS(hsa_queue_create(the.gpu, 3, HSA_QUEUE_TYPE_MULTI, NULL, NULL, 0, 0, &queue), BAD);
    IS(hsa_queue_create(the.gpu, 8192, HSA_QUEUE_TYPE_MULTI, NULL, NULL, 0, 0, &queue), BAD);
    IS(hsa_queue_create(the.host, 4, HSA_QUEUE_TYPE_MULTI, NULL, NULL, 0, 0, &queue), HSA_STATUS_ERROR_INVALID_QUEUE_CREATION);
    IS(hsa_queue_create(the.gpu, 4, HSA_QUEUE_TYPE_COOPERATIVE, NULL, NULL, 0, 0, &queue), HSA_STATUS_ERROR_INVALID_QUEUE_CREATION);
    IS(hsa_queue_create((hsa_agent_t){ 3 }, 4, HSA_QUEUE_TYPE_MULTI, NULL, NULL, 0, 0, &queue), HSA_STATUS_ERROR_INVALID_AGENT);
}

/* A service of the program's own: the packet is read from the ring that the program serves. */
static void test_soft_queue_create(void)
{
    hsa_queue_t *queue = NULL;
    hsa_signal_t doorbell = new_signal(-1);
    hsa_agent_dispatch_packet_t packet = { .header = header_of(HSA_PACKET_TYPE_AGENT_DISPATCH), .type = 0x8123, .arg = { 5 } };
    IS(hsa_soft_queue_create(the.fine, 8, HSA_QUEUE_TYPE_MULTI, HSA_QUEUE_FEATURE_AGENT_DISPATCH, doorbell, &queue), OK);
    IS(queue != NULL, 1);
    if (!queue) return;
    uint64_t index = publish(queue, &packet);
    IS(hsa_signal_load_scacquire(doorbell), index);
    const hsa_agent_dispatch_packet_t *served = (hsa_agent_dispatch_packet_t *)queue->base_address + index;
    IS(served->type, 0x8123);
    IS(served->arg[0], 5);
    IS(hsa_soft_queue_create(the.fine, 6, HSA_QUEUE_TYPE_MULTI, HSA_QUEUE_FEATURE_AGENT_DISPATCH, doorbell, &queue), BAD);
    IS(hsa_soft_queue_create(the.fine, 8, HSA_QUEUE_TYPE_MULTI, HSA_QUEUE_FEATURE_AGENT_DISPATCH, (hsa_signal_t){ 900 }, &queue), BAD);
}

static void test_destroy(void)
{
    hsa_queue_t *queue = new_queue(), *soft = new_soft_queue();
    IS(hsa_queue_destroy(queue), OK);
    IS(hsa_queue_destroy(queue), HSA_STATUS_ERROR_INVALID_QUEUE);
    IS(hsa_queue_destroy(soft), OK);
    IS(hsa_queue_destroy(soft), HSA_STATUS_ERROR_INVALID_QUEUE);
    IS(hsa_queue_destroy(NULL), BAD);
    for (int i = 0; i < 70; i++) IS(hsa_queue_destroy(new_queue()), OK);
}

static void test_inactivate(void)
{
    hsa_queue_t *queue = new_queue();
    hsa_signal_t done = new_signal(1);
    hsa_barrier_and_packet_t packet = barrier(done);
    IS(hsa_queue_inactivate(queue), OK);
    publish(queue, &packet);
    IS(hsa_signal_wait_scacquire(done, HSA_SIGNAL_CONDITION_EQ, 0, 50000000, HSA_WAIT_STATE_BLOCKED), 1);
    IS(hsa_queue_inactivate(queue), OK);
    IS(hsa_queue_destroy(queue), OK);
    IS(hsa_queue_inactivate((hsa_queue_t *)(void *)&packet), HSA_STATUS_ERROR_INVALID_QUEUE);
}

/* ---- the indices, in each order that hsa.h has */

#define TEST_LOADS(order) \
    static void test_load_write_index_##order(void) \
    { \
        hsa_queue_t *queue = new_soft_queue(); \
        hsa_queue_add_write_index_relaxed(queue, 5); \
        IS(hsa_queue_load_write_index_##order(queue), 5); \
    } \
    static void test_load_read_index_##order(void) \
    { \
        hsa_queue_t *queue = new_queue(); \
        hsa_signal_t done = new_signal(2); \
        hsa_barrier_and_packet_t packet = barrier(done); \
        publish(queue, &packet); \
        publish(queue, &packet); \
        IS(fallen(done), 0); \
        IS(hsa_queue_load_read_index_##order(queue), 2); \
    }
#define TEST_STORES(order) \
    static void test_store_write_index_##order(void) \
    { \
        hsa_queue_t *queue = new_soft_queue(); \
        hsa_queue_store_write_index_##order(queue, 6); \
        IS(hsa_queue_load_write_index_relaxed(queue), 6); \
    } \
    static void test_store_read_index_##order(void) \
    { \
        hsa_queue_t *queue = new_soft_queue(), *served = new_queue(); \
        hsa_queue_store_read_index_##order(queue, 7); \
        IS(hsa_queue_load_read_index_relaxed(queue), 7); \
        hsa_queue_store_read_index_##order(served, 7); /* its processor has it */ \
        IS(hsa_queue_load_read_index_relaxed(served), 0); \
    }
#define TEST_CHANGES(order) \
    static void test_add_write_index_##order(void) \
    { \
        hsa_queue_t *queue = new_soft_queue(); \
        IS(hsa_queue_add_write_index_##order(queue, 3), 0); \
        IS(hsa_queue_add_write_index_##order(queue, 2), 3); \
        IS(hsa_queue_load_write_index_relaxed(queue), 5); \
    } \
    static void test_cas_write_index_##order(void) \
    { \
        hsa_queue_t *queue = new_soft_queue(); \
        hsa_queue_add_write_index_relaxed(queue, 3); \
        IS(hsa_queue_cas_write_index_##order(queue, 2, 8), 3); \
        IS(hsa_queue_load_write_index_relaxed(queue), 3); \
        IS(hsa_queue_cas_write_index_##order(queue, 3, 8), 3); \
        IS(hsa_queue_load_write_index_relaxed(queue), 8); \
    }
TEST_LOADS(relaxed)
TEST_LOADS(scacquire)
TEST_LOADS(acquire)
TEST_STORES(relaxed)
TEST_STORES(screlease)
TEST_STORES(release)
TEST_CHANGES(relaxed)
TEST_CHANGES(scacq_screl)
TEST_CHANGES(scacquire)
TEST_CHANGES(screlease)
TEST_CHANGES(acq_rel)
TEST_CHANGES(acquire)
TEST_CHANGES(release)

/* ---- hints: they are taken, and a queue that is none is known */

static void test_set_priority(void)
{
    hsa_queue_t *queue = new_queue(), none;
    IS(hsa_amd_queue_set_priority(queue, HSA_AMD_QUEUE_PRIORITY_HIGH), OK);
    IS(hsa_amd_queue_set_priority(queue, (hsa_amd_queue_priority_t)77), BAD);
    IS(hsa_amd_queue_set_priority(&none, HSA_AMD_QUEUE_PRIORITY_HIGH), HSA_STATUS_ERROR_INVALID_QUEUE);
}

static void test_cu_set_mask(void)
{
    hsa_queue_t *queue = new_queue(), none;
    uint32_t mask = 1;
    IS(hsa_amd_queue_cu_set_mask(queue, 32, &mask), OK);
    IS(hsa_amd_queue_cu_set_mask(queue, 7, &mask), BAD);
    IS(hsa_amd_queue_cu_set_mask(&none, 32, &mask), HSA_STATUS_ERROR_INVALID_QUEUE);
}

static void test_set_profiler_enabled(void)
{
    hsa_queue_t *queue = new_queue(), none;
    IS(hsa_amd_profiling_set_profiler_enabled(queue, 1), OK);
    IS(hsa_amd_profiling_set_profiler_enabled(&none, 1), HSA_STATUS_ERROR_INVALID_QUEUE);
}

static void test_async_copy_enable(void)
{
    IS(hsa_amd_profiling_async_copy_enable(true), OK);
    hsa_shut_down();
    IS(hsa_amd_profiling_async_copy_enable(true), HSA_STATUS_ERROR_NOT_INITIALIZED);
}

#define ROW(name) { "hsa_queue_" #name, test_##name }
#define LOAD_ROWS(order) ROW(load_write_index_##order), ROW(load_read_index_##order)
#define STORE_ROWS(order) ROW(store_write_index_##order), ROW(store_read_index_##order)
#define CHANGE_ROWS(order) ROW(add_write_index_##order), ROW(cas_write_index_##order)
const test queue_tests[] = {
    ROW(create), ROW(destroy), ROW(inactivate), { "hsa_soft_queue_create", test_soft_queue_create },
    LOAD_ROWS(relaxed), LOAD_ROWS(scacquire), LOAD_ROWS(acquire), STORE_ROWS(relaxed), STORE_ROWS(screlease), STORE_ROWS(release),
    CHANGE_ROWS(relaxed), CHANGE_ROWS(scacq_screl), CHANGE_ROWS(scacquire), CHANGE_ROWS(screlease), CHANGE_ROWS(acq_rel), CHANGE_ROWS(acquire),
    CHANGE_ROWS(release), { "hsa_amd_queue_set_priority", test_set_priority }, { "hsa_amd_queue_cu_set_mask", test_cu_set_mask },
    { "hsa_amd_profiling_set_profiler_enabled", test_set_profiler_enabled },
    { "hsa_amd_profiling_async_copy_enable", test_async_copy_enable }, { NULL, NULL },
};
