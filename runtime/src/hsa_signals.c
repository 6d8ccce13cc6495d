/* Signals: numbers of the policy's, which are given out and taken back. A queue's doorbell is a signal that is stored to alone. */
#include "hsa_common.h"

static _Atomic uint64_t given_out[SEAM_SIGNALS / 64 + 1]; /* a bit each */

void signals_begin(void)
{
    for (size_t i = 0; i < sizeof given_out / sizeof *given_out; i++) atomic_store(&given_out[i], 0);
}

bool is_signal(hsa_signal_t signal)
{
    uint64_t number = signal.handle;
    return number && number <= SEAM_SIGNALS && atomic_load_explicit(&given_out[number / 64], memory_order_relaxed) >> number % 64 & 1;
}

static bool give_out(uint64_t number)
{
    uint64_t bit = (uint64_t)1 << number % 64;
    return !(atomic_fetch_or(&given_out[number / 64], bit) & bit);
}

static void take_back(uint64_t number)
{
    atomic_fetch_and(&given_out[number / 64], ~((uint64_t)1 << number % 64));
}

static seam_word word_of(hsa_signal_t signal)
{
    return signal.handle <= SEAM_SIGNALS ? seam_word_of(the_runtime.link, (uint32_t)signal.handle) : (seam_word){ NULL, NULL, NULL };
}

int64_t signal_load(hsa_signal_t signal)
{
    seam_word word = word_of(signal);
    return word.value ? atomic_load(word.value) : 0;
}

int64_t signal_change(hsa_signal_t signal, uint32_t change, int64_t value, int64_t expected)
{
    int64_t old = 0;
    if (signal.handle >= DOORBELL) {
        seam_ring_doorbell(the_runtime.link, signal.handle - DOORBELL);
        return 0;
    }
    if (signal.handle && signal.handle <= SEAM_SIGNALS
        && seam_change(the_runtime.link, (uint32_t)signal.handle, change, value, expected, &old))
        tell("signal %lu isn't changed: the client has no right to", (unsigned long)signal.handle);
    return old;
}

static uint32_t condition_of(hsa_signal_condition_t condition)
{
    static const uint32_t CONDITIONS[] = {
        [HSA_SIGNAL_CONDITION_EQ] = HD_EQ, [HSA_SIGNAL_CONDITION_NE] = HD_NE, [HSA_SIGNAL_CONDITION_LT] = HD_LT, [HSA_SIGNAL_CONDITION_GTE] = HD_GTE,
    };
    return CONDITIONS[condition & 3];
}

bool signal_meets(int64_t value, hsa_signal_condition_t condition, int64_t against)
{
    return meets(value, condition_of(condition), against);
}

/* Only a short wait spins to its end, and only where that is asked for. */
int64_t signal_wait(hsa_signal_t signal, hsa_signal_condition_t condition, int64_t value, uint64_t nanoseconds, hsa_wait_state_t state)
{
    enum { MILLISECOND = 1000000 };
    seam_word word = word_of(signal);
    bool is_busy = state == HSA_WAIT_STATE_ACTIVE && nanoseconds < MILLISECOND;
    return word.value ? wait_for_value(word, condition_of(condition), value, nanoseconds, is_busy) : 0;
}

/* ---- making and ending */

static bool has_doubles(uint32_t count, const hsa_agent_t *agents)
{
    for (uint32_t i = 0; i < count; i++)
        for (uint32_t j = 0; j < i; j++)
            if (agents[i].handle == agents[j].handle) return true;
    return false;
}

/* Whether the client may both wait for a signal and change it. */
static bool is_ours(uint32_t number)
{
    seam_object object;
    uint32_t both = HD_WAIT | HD_CHANGE;
    return seam_object_of(the_runtime.link, HD_SIGNAL, number, &object) && (object.rights & both) == both;
}

EXPORTED hsa_status_t hsa_signal_create(hsa_signal_value_t initial, uint32_t count, const hsa_agent_t *consumers, hsa_signal_t *signal)
{
    REQUIRE_INIT();
    REQUIRE_ARGUMENT(signal && (!count || consumers) && !has_doubles(count, consumers));
    uint32_t all = seam_count(the_runtime.link, HD_SIGNAL);
    for (uint32_t number = 1; number <= all; number++) {
        hsa_signal_t found = { number };
        int64_t old;
        if (is_signal(found) || !is_ours(number) || !give_out(number)) continue;
        if (signal_load(found) != initial && seam_change(the_runtime.link, number, HD_STORE, initial, 0, &old)) {
            take_back(number);
            break;
        }
        *signal = found;
        return HSA_STATUS_SUCCESS;
    }
    return HSA_STATUS_ERROR_OUT_OF_RESOURCES;
}

EXPORTED hsa_status_t hsa_amd_signal_create(hsa_signal_value_t initial, uint32_t count, const hsa_agent_t *consumers, uint64_t attributes, hsa_signal_t *signal)
{
    (void)attributes; /* none changes what a signal is here */
    return hsa_signal_create(initial, count, consumers, signal);
}

EXPORTED hsa_status_t hsa_signal_destroy(hsa_signal_t signal)
{
    REQUIRE_INIT();
    REQUIRE_ARGUMENT(signal.handle);
    REQUIRE(is_signal(signal), HSA_STATUS_ERROR_INVALID_SIGNAL);
    take_back(signal.handle);
    return HSA_STATUS_SUCCESS;
}

/* ---- loads, waits and changes. Each is the broker's, one after the other, so every order that is asked for is kept. */

#define LOADS(order) \
    EXPORTED hsa_signal_value_t hsa_signal_load_##order(hsa_signal_t signal) \
    { \
        return signal_load(signal); \
    } \
    EXPORTED hsa_signal_value_t hsa_signal_wait_##order(hsa_signal_t signal, hsa_signal_condition_t condition, hsa_signal_value_t value, uint64_t timeout, hsa_wait_state_t state) \
    { \
        return signal_wait(signal, condition, value, timeout, state); \
    }
#define CHANGE(name, order, change) \
    EXPORTED void hsa_signal_##name##_##order(hsa_signal_t signal, hsa_signal_value_t value) \
    { \
        signal_change(signal, change, value, 0); \
    }
#define CHANGES(order) \
    CHANGE(add, order, HD_ADD) \
    CHANGE(subtract, order, HD_SUBTRACT) \
    CHANGE(and, order, HD_AND) \
    CHANGE(or, order, HD_OR) \
    CHANGE(xor, order, HD_XOR) \
    EXPORTED hsa_signal_value_t hsa_signal_exchange_##order(hsa_signal_t signal, hsa_signal_value_t value) \
    { \
        return signal_change(signal, HD_EXCHANGE, value, 0); \
    } \
    EXPORTED hsa_signal_value_t hsa_signal_cas_##order(hsa_signal_t signal, hsa_signal_value_t expected, hsa_signal_value_t value) \
    { \
        return signal_change(signal, HD_CAS, value, expected); \
    }

LOADS(relaxed)
LOADS(scacquire)
LOADS(acquire)
CHANGE(store, relaxed, HD_STORE)
CHANGE(store, screlease, HD_STORE)
CHANGE(store, release, HD_STORE)
CHANGE(silent_store, relaxed, HD_STORE)
CHANGE(silent_store, screlease, HD_STORE)
CHANGES(relaxed)
CHANGES(scacq_screl)
CHANGES(scacquire)
CHANGES(screlease)
CHANGES(acq_rel)
CHANGES(acquire)
CHANGES(release)
