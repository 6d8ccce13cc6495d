/* Tests of the functions of signals. */
#include <pthread.h>

#include "functions.h"

static hsa_signal_t new_signal(hsa_signal_value_t value)
{
    hsa_signal_t signal = { 0 };
    hsa_signal_create(value, 0, NULL, &signal);
    return signal;
}

static hsa_signal_value_t value_of(hsa_signal_t signal)
{
    return hsa_signal_load_scacquire(signal);
}

/* ---- loads, stores and changes, in each order that hsa.h has */

#define TEST_LOAD(order) \
    static void test_load_##order(void) \
    { \
        IS(hsa_signal_load_##order(new_signal(-5)), -5); \
    }
#define TEST_STORE(name) \
    static void test_##name(void) \
    { \
        hsa_signal_t signal = new_signal(1); \
        hsa_signal_##name(signal, -7); \
        IS(value_of(signal), -7); \
    }
#define TEST_CHANGE(name, order, first, by, then) \
    static void test_##name##_##order(void) \
    { \
        hsa_signal_t signal = new_signal(first); \
        hsa_signal_##name##_##order(signal, by); \
        IS(value_of(signal), then); \
    }
#define TEST_CHANGES(order) \
    TEST_CHANGE(add, order, 5, 3, 8) \
    TEST_CHANGE(subtract, order, 5, 7, -2) \
    TEST_CHANGE(and, order, 12, 10, 8) \
    TEST_CHANGE(or, order, 12, 10, 14) \
    TEST_CHANGE(xor, order, 12, 10, 6) \
    static void test_exchange_##order(void) \
    { \
        hsa_signal_t signal = new_signal(4); \
        IS(hsa_signal_exchange_##order(signal, 9), 4); \
        IS(value_of(signal), 9); \
    } \
    static void test_cas_##order(void) \
    { \
        hsa_signal_t signal = new_signal(4); \
        IS(hsa_signal_cas_##order(signal, 5, 9), 4); \
        IS(value_of(signal), 4); \
        IS(hsa_signal_cas_##order(signal, 4, 9), 4); \
        IS(value_of(signal), 9); \
    }
#define TEST_WAIT(order) \
    static void test_wait_##order(void) \
    { \
        waits(hsa_signal_wait_##order); \
    }

static void *store_later(void *signal)
{
    usleep(20000);
    hsa_signal_store_screlease(*(hsa_signal_t *)signal, 7);
    return NULL;
}

/* A wait that is over at once, one that is over in time, one that never is. */
static void waits(hsa_signal_value_t (*wait)(hsa_signal_t, hsa_signal_condition_t, hsa_signal_value_t, uint64_t, hsa_wait_state_t))
{
    hsa_signal_t signal = new_signal(-4);
    pthread_t thread;
    IS(wait(signal, HSA_SIGNAL_CONDITION_LT, 0, UINT64_MAX, HSA_WAIT_STATE_ACTIVE), -4);
    IS(wait(signal, HSA_SIGNAL_CONDITION_GTE, 0, 2000000, HSA_WAIT_STATE_BLOCKED), -4);
    pthread_create(&thread, NULL, store_later, &signal);
    IS(wait(signal, HSA_SIGNAL_CONDITION_NE, -4, LONG_ENOUGH, HSA_WAIT_STATE_BLOCKED), 7);
    pthread_join(thread, NULL);
}

TEST_LOAD(relaxed)
TEST_LOAD(scacquire)
TEST_LOAD(acquire)
TEST_WAIT(relaxed)
TEST_WAIT(scacquire)
TEST_WAIT(acquire)
TEST_STORE(store_relaxed)
TEST_STORE(store_screlease)
TEST_STORE(store_release)
TEST_STORE(silent_store_relaxed)
TEST_STORE(silent_store_screlease)
TEST_CHANGES(relaxed)
TEST_CHANGES(scacq_screl)
TEST_CHANGES(scacquire)
TEST_CHANGES(screlease)
TEST_CHANGES(acq_rel)
TEST_CHANGES(acquire)
TEST_CHANGES(release)

/* ---- making and ending */

static void test_create(void)
{
    hsa_signal_t signal = { 0 }, other = { 0 };
    hsa_agent_t twice[2] = { the.gpu, the.gpu };
    IS(hsa_signal_create(5, 0, NULL, &signal), OK);
    IS(hsa_signal_create(6, 1, &the.gpu, &other), OK);
    IS(signal.handle && signal.handle != other.handle, 1);
    IS(value_of(signal), 5);
    IS(value_of(other), 6);
    IS(hsa_signal_create(5, 1, NULL, &signal), BAD);
    IS(hsa_signal_create(5, 2, twice, &signal), BAD);
    for (int i = 2; i < 8; i++) IS(hsa_signal_create(i, 0, NULL, &other), OK);
    IS(hsa_signal_create(8, 0, NULL, &other), HSA_STATUS_ERROR_OUT_OF_RESOURCES); /* the policy has eight */
}

static void test_destroy(void)
{
    hsa_signal_t signal = new_signal(1);
    IS(hsa_signal_destroy(signal), OK);
    IS(hsa_signal_destroy(signal), HSA_STATUS_ERROR_INVALID_SIGNAL);
    IS(hsa_signal_destroy((hsa_signal_t){ 0 }), BAD);
}

static void test_amd_create(void)
{
    hsa_signal_t signal = { 0 };
    IS(hsa_amd_signal_create(-3, 0, NULL, HSA_AMD_SIGNAL_AMD_GPU_ONLY, &signal), OK);
    IS(value_of(signal), -3);
}

/* ---- several at once */

typedef struct several {
    hsa_signal_t signals[2];
    hsa_signal_condition_t conditions[2];
    hsa_signal_value_t values[2];
} several;

static several two_signals(void)
{
    return (several){ { new_signal(0), new_signal(3) }, { HSA_SIGNAL_CONDITION_EQ, HSA_SIGNAL_CONDITION_LT }, { 1, 4 } };
}

static void test_group_create(void)
{
    several it = two_signals();
    hsa_signal_group_t group = { 0 };
    IS(hsa_signal_group_create(2, it.signals, 0, NULL, &group), OK);
    IS(group.handle != 0, 1);
    IS(hsa_signal_group_create(0, it.signals, 0, NULL, &group), BAD);
    IS(hsa_signal_group_create(2, NULL, 0, NULL, &group), BAD);
}

static void test_group_destroy(void)
{
    several it = two_signals();
    hsa_signal_group_t group = { 0 };
    hsa_signal_group_create(2, it.signals, 0, NULL, &group);
    IS(hsa_signal_group_destroy(group), OK);
    IS(hsa_signal_group_destroy(group), HSA_STATUS_ERROR_INVALID_SIGNAL_GROUP);
}

#define TEST_GROUP_WAIT(order) \
    static void test_group_wait_any_##order(void) \
    { \
        several it = two_signals(); \
        hsa_signal_group_t group = { 0 }; \
        hsa_signal_t met = { 0 }; \
        hsa_signal_value_t value = 0; \
        hsa_signal_group_create(2, it.signals, 0, NULL, &group); \
        IS(hsa_signal_group_wait_any_##order(group, it.conditions, it.values, HSA_WAIT_STATE_BLOCKED, &met, &value), OK); \
        IS(met.handle, it.signals[1].handle); \
        IS(value, 3); \
        IS(hsa_signal_group_wait_any_##order((hsa_signal_group_t){ 0 }, it.conditions, it.values, HSA_WAIT_STATE_BLOCKED, &met, &value), \
           HSA_STATUS_ERROR_INVALID_SIGNAL_GROUP); \
    }
TEST_GROUP_WAIT(relaxed)
TEST_GROUP_WAIT(scacquire)

static void test_amd_wait_any(void)
{
    several it = two_signals();
    hsa_signal_value_t value = 0;
    IS(hsa_amd_signal_wait_any(2, it.signals, it.conditions, it.values, UINT64_MAX, HSA_WAIT_STATE_BLOCKED, &value), 1);
    IS(value, 3);
    it.values[1] = 3;
    IS(hsa_amd_signal_wait_any(2, it.signals, it.conditions, it.values, 1000000, HSA_WAIT_STATE_BLOCKED, &value), UINT32_MAX);
}

/* ---- what waits in a thread */

static bool on_signal(hsa_signal_value_t value, void *data)
{
    atomic_fetch_add((_Atomic int *)data, (int)value);
    return false;
}

static void test_async_handler(void)
{
    hsa_signal_t signal = new_signal(0);
    _Atomic int seen = 0;
    IS(hsa_amd_signal_async_handler(signal, HSA_SIGNAL_CONDITION_GTE, 5, on_signal, &seen), OK);
    usleep(5000);
    IS(atomic_load(&seen), 0);
    hsa_signal_store_relaxed(signal, 6);
    for (int i = 0; i < 10000 && !atomic_load(&seen); i++) usleep(1000);
    IS(atomic_load(&seen), 6);
    IS(hsa_amd_signal_async_handler((hsa_signal_t){ 900 }, HSA_SIGNAL_CONDITION_GTE, 5, on_signal, &seen), HSA_STATUS_ERROR_INVALID_SIGNAL);
}

static void test_async_copy(void)
{
    hsa_signal_t after = new_signal(1), done = new_signal(1);
    int from[2] = { 4, 5 }, to[2] = { 0, 0 };
    IS(hsa_amd_memory_async_copy(to, the.gpu, from, the.host, sizeof to, 1, &after, done), OK);
    usleep(5000);
    IS(to[1], 0);
    hsa_signal_store_relaxed(after, 0);
    IS(hsa_signal_wait_scacquire(done, HSA_SIGNAL_CONDITION_EQ, 0, LONG_ENOUGH, HSA_WAIT_STATE_BLOCKED), 0);
    IS(to[1], 5);
    IS(hsa_amd_memory_async_copy(to, (hsa_agent_t){ 3 }, from, the.host, sizeof to, 0, NULL, done), HSA_STATUS_ERROR_INVALID_AGENT);
}

#define ROW(name) { "hsa_signal_" #name, test_##name }
#define CHANGE_ROWS(order) ROW(add_##order), ROW(subtract_##order), ROW(and_##order), ROW(or_##order), ROW(xor_##order), ROW(exchange_##order), ROW(cas_##order)
const test signal_tests[] = {
    ROW(load_relaxed), ROW(load_scacquire), ROW(load_acquire), ROW(wait_relaxed), ROW(wait_scacquire), ROW(wait_acquire),
    ROW(store_relaxed), ROW(store_screlease), ROW(store_release), ROW(silent_store_relaxed), ROW(silent_store_screlease),
    CHANGE_ROWS(relaxed), CHANGE_ROWS(scacq_screl), CHANGE_ROWS(scacquire), CHANGE_ROWS(screlease), CHANGE_ROWS(acq_rel), CHANGE_ROWS(acquire),
    CHANGE_ROWS(release), ROW(create), ROW(destroy), ROW(group_create), ROW(group_destroy), ROW(group_wait_any_relaxed),
    ROW(group_wait_any_scacquire), { "hsa_amd_signal_create", test_amd_create }, { "hsa_amd_signal_wait_any", test_amd_wait_any },
    { "hsa_amd_signal_async_handler", test_async_handler }, { "hsa_amd_memory_async_copy", test_async_copy }, { NULL, NULL },
};
