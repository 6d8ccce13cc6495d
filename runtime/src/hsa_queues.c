/* Queues. One that an agent serves has its ring on the seam; a soft queue is a ring in the client's memory, which the program serves. */
#include "hsa_common.h"

#include <pthread.h>

enum { LEAST_SLOTS = 2, MOST_SLOTS = 4096, SLOT_BYTES = 64 };
#define SOFT_IDS ((uint64_t)1 << 32) /* ids of soft queues begin here */

typedef struct client_queue {
    hsa_queue_t seen; /* first: a hsa_queue_t * of ours is a client_queue * */
    seam_ring ring;   /* of an agent's queue; NULLs in a soft one */
    _Alignas(128) _Atomic uint64_t write_index; /* of a soft queue */
    _Alignas(128) _Atomic uint64_t read_index;
    void (*callback)(hsa_status_t, hsa_queue_t *, void *);
    void *data;
    struct client_queue *next;
} client_queue;

static pthread_mutex_t lock = PTHREAD_MUTEX_INITIALIZER; /* over the two below */
static client_queue *queues;
static struct {
    const client_queue *queue; /* whose callback runs, or NULL */
    pthread_t thread;
} calling;
static pthread_cond_t call_ended = PTHREAD_COND_INITIALIZER;
static _Atomic uint64_t soft_ids = SOFT_IDS;

/* ---- the list */

static client_queue *new_queue(void)
{
    size_t bytes = (sizeof(client_queue) + 127) / 128 * 128;
    client_queue *it = aligned_alloc(128, bytes);
    if (it) memset(it, 0, bytes);
    return it;
}

static void enlist(client_queue *it)
{
    pthread_mutex_lock(&lock);
    it->next = queues;
    queues = it;
    pthread_mutex_unlock(&lock);
}

static bool is_queue(const hsa_queue_t *queue)
{
    bool found = false;
    pthread_mutex_lock(&lock);
    for (const client_queue *it = queues; it; it = it->next) found = found || &it->seen == queue;
    pthread_mutex_unlock(&lock);
    return found;
}

/* Takes a queue off the list, and waits for its callback where another thread runs it. */
static client_queue *delist(const hsa_queue_t *queue)
{
    client_queue *found = NULL;
    pthread_mutex_lock(&lock);
    for (client_queue **link = &queues; *link && !found;) {
        if (&(*link)->seen != queue) {
            link = &(*link)->next;
            continue;
        }
        found = *link;
        *link = found->next;
    }
    while (found && calling.queue == found && !pthread_equal(calling.thread, pthread_self())) pthread_cond_wait(&call_ended, &lock);
    pthread_mutex_unlock(&lock);
    return found;
}

static bool is_soft(const client_queue *it)
{
    return !it->ring.slots;
}

/* ---- errors */

/* The status that hsa.h has for what a rule asks. */
static hsa_status_t status_of(const seam_error *error)
{
    switch (error->rule) {
    case 0: return error->refusal == HD_OUT_OF_MEMORY ? HSA_STATUS_ERROR_OUT_OF_RESOURCES : HSA_STATUS_ERROR;
    case HD_L1:
    case HD_L2:
    case HD_L3: return HSA_STATUS_ERROR_INVALID_PACKET_FORMAT;
    case HD_L4: return HSA_STATUS_ERROR_INVALID_AGENT;
    case HD_L5: return HSA_STATUS_ERROR_INVALID_ARGUMENT;
    case HD_L6: return HSA_STATUS_ERROR_INVALID_CODE_OBJECT;
    case HD_L7:
    case HD_L8: return HSA_STATUS_ERROR_INVALID_ALLOCATION;
    case HD_L9:
    case HD_L10: return HSA_STATUS_ERROR_INVALID_SIGNAL;
    default: return HSA_STATUS_ERROR_EXCEPTION;
    }
}

void queues_error(void *context, const seam_error *error)
{
    (void)context;
    tell("%s", error->text);
    client_queue *found = NULL;
    pthread_mutex_lock(&lock);
    for (client_queue *it = queues; it; it = it->next)
        if (!is_soft(it) && it->seen.id == error->queue && it->callback) found = it;
    calling.queue = found;
    calling.thread = pthread_self();
    pthread_mutex_unlock(&lock);
    if (!found) return;
    found->callback(status_of(error), &found->seen, found->data); /* which may destroy the queue */
    pthread_mutex_lock(&lock);
    calling.queue = NULL;
    pthread_cond_broadcast(&call_ended);
    pthread_mutex_unlock(&lock);
}

/* ---- making and ending */

static bool is_size(uint32_t size)
{
    return size && !(size & (size - 1));
}

EXPORTED hsa_status_t hsa_queue_create(hsa_agent_t agent, uint32_t size, hsa_queue_type32_t type, void (*callback)(hsa_status_t, hsa_queue_t *, void *), void *data,
                                       uint32_t private_bytes, uint32_t group_bytes, hsa_queue_t **queue)
{
    (void)private_bytes, (void)group_bytes;
    REQUIRE_INIT();
    REQUIRE(is_agent(agent), HSA_STATUS_ERROR_INVALID_AGENT);
    REQUIRE(is_broker_agent(agent) && type != HSA_QUEUE_TYPE_COOPERATIVE, HSA_STATUS_ERROR_INVALID_QUEUE_CREATION);
    REQUIRE_ARGUMENT(queue && is_size(size) && size >= LEAST_SLOTS && size <= MOST_SLOTS && type <= HSA_QUEUE_TYPE_SINGLE);
    seam_object object;
    uint64_t id;
    client_queue *it = new_queue();
    REQUIRE(it, HSA_STATUS_ERROR_OUT_OF_RESOURCES);
    seam_object_of(the_runtime.link, HD_AGENT, (uint32_t)agent.handle, &object);
    seam_status status = seam_open_queue(the_runtime.link, (uint32_t)agent.handle, size, &id, &it->ring);
    if (status) {
        free(it);
        return status == SEAM_NOT_ALLOWED ? HSA_STATUS_ERROR_INVALID_AGENT : HSA_STATUS_ERROR_OUT_OF_RESOURCES;
    }
    uint32_t features = (object.takes & SEAM_TAKES_KERNEL ? HSA_QUEUE_FEATURE_KERNEL_DISPATCH : 0) | (object.takes & SEAM_TAKES_AGENT ? HSA_QUEUE_FEATURE_AGENT_DISPATCH : 0);
    it->seen = (hsa_queue_t){ .type = type, .features = features, .base_address = (void *)it->ring.slots, .doorbell_signal = { DOORBELL + id }, .size = size, .id = id };
    it->callback = callback;
    it->data = data;
    enlist(it);
    *queue = &it->seen;
    return HSA_STATUS_SUCCESS;
}

EXPORTED hsa_status_t hsa_soft_queue_create(hsa_region_t region, uint32_t size, hsa_queue_type32_t type, uint32_t features, hsa_signal_t doorbell, hsa_queue_t **queue)
{
    REQUIRE_INIT();
    REQUIRE_ARGUMENT(queue && is_size(size) && type <= HSA_QUEUE_TYPE_SINGLE && features && is_signal(doorbell));
    void *slots;
    hsa_status_t status = hsa_memory_allocate(region, (size_t)SLOT_BYTES * size, &slots);
    REQUIRE(!status, status);
    client_queue *it = new_queue();
    if (!it) {
        hsa_memory_free(slots);
        return HSA_STATUS_ERROR_OUT_OF_RESOURCES;
    }
    for (uint32_t i = 0; i < size; i++) *(uint16_t *)(void *)((char *)slots + (size_t)SLOT_BYTES * i) = HSA_PACKET_TYPE_INVALID;
    it->seen = (hsa_queue_t){ .type = type, .features = features, .base_address = slots, .doorbell_signal = doorbell, .size = size, .id = atomic_fetch_add(&soft_ids, 1) };
    enlist(it);
    *queue = &it->seen;
    return HSA_STATUS_SUCCESS;
}

EXPORTED hsa_status_t hsa_queue_inactivate(hsa_queue_t *queue)
{
    REQUIRE_INIT();
    REQUIRE_ARGUMENT(queue);
    REQUIRE(is_queue(queue), HSA_STATUS_ERROR_INVALID_QUEUE);
    if (!is_soft((client_queue *)queue)) seam_stop_queue(the_runtime.link, queue->id);
    return HSA_STATUS_SUCCESS;
}

/* Ends a queue that is on the list no more. */
static void end_queue(client_queue *it)
{
    if (is_soft(it)) hsa_memory_free(it->seen.base_address);
    else seam_close_queue(the_runtime.link, it->seen.id);
    free(it);
}

EXPORTED hsa_status_t hsa_queue_destroy(hsa_queue_t *queue)
{
    REQUIRE_INIT();
    REQUIRE_ARGUMENT(queue);
    client_queue *it = delist(queue);
    REQUIRE(it, HSA_STATUS_ERROR_INVALID_QUEUE);
    end_queue(it);
    return HSA_STATUS_SUCCESS;
}

static client_queue *first_queue(void)
{
    pthread_mutex_lock(&lock);
    client_queue *it = queues;
    pthread_mutex_unlock(&lock);
    return it;
}

void queues_end(void)
{
    for (client_queue *it = first_queue(); it; it = first_queue())
        if (delist(&it->seen)) end_queue(it);
}

/* ---- the indices. The read index of an agent's queue is its processor's, and no client stores to it. */

static _Atomic uint64_t *write_index_of(const hsa_queue_t *queue)
{
    client_queue *it = (client_queue *)queue;
    return is_soft(it) ? &it->write_index : it->ring.write_index;
}

static _Atomic uint64_t *read_index_of(const hsa_queue_t *queue)
{
    client_queue *it = (client_queue *)queue;
    return is_soft(it) ? &it->read_index : it->ring.read_index;
}

static void store_read_index(const hsa_queue_t *queue, uint64_t value, memory_order order)
{
    if (is_soft((const client_queue *)queue)) atomic_store_explicit(read_index_of(queue), value, order);
}

static uint64_t exchange_if(_Atomic uint64_t *index, uint64_t expected, uint64_t value)
{
    atomic_compare_exchange_strong(index, &expected, value);
    return expected;
}

#define LOADS(order, memory_order) \
    EXPORTED uint64_t hsa_queue_load_read_index_##order(const hsa_queue_t *queue) \
    { \
        return atomic_load_explicit(read_index_of(queue), memory_order); \
    } \
    EXPORTED uint64_t hsa_queue_load_write_index_##order(const hsa_queue_t *queue) \
    { \
        return atomic_load_explicit(write_index_of(queue), memory_order); \
    }
#define STORES(order, memory_order) \
    EXPORTED void hsa_queue_store_write_index_##order(const hsa_queue_t *queue, uint64_t value) \
    { \
        atomic_store_explicit(write_index_of(queue), value, memory_order); \
    } \
    EXPORTED void hsa_queue_store_read_index_##order(const hsa_queue_t *queue, uint64_t value) \
    { \
        store_read_index(queue, value, memory_order); \
    }
#define CHANGES(order) \
    EXPORTED uint64_t hsa_queue_add_write_index_##order(const hsa_queue_t *queue, uint64_t value) \
    { \
        return atomic_fetch_add(write_index_of(queue), value); \
    } \
    EXPORTED uint64_t hsa_queue_cas_write_index_##order(const hsa_queue_t *queue, uint64_t expected, uint64_t value) \
    { \
        return exchange_if(write_index_of(queue), expected, value); \
    }

LOADS(relaxed, memory_order_relaxed)
LOADS(scacquire, memory_order_seq_cst)
LOADS(acquire, memory_order_seq_cst)
STORES(relaxed, memory_order_relaxed)
STORES(screlease, memory_order_seq_cst)
STORES(release, memory_order_seq_cst)
CHANGES(relaxed)
CHANGES(scacq_screl)
CHANGES(scacquire)
CHANGES(screlease)
CHANGES(acq_rel)
CHANGES(acquire)
CHANGES(release)

/* ---- hints of hsa_ext_amd.h, which are taken and have no effect */

static hsa_status_t take_hint(const hsa_queue_t *queue)
{
    REQUIRE_INIT();
    REQUIRE(queue && is_queue(queue), HSA_STATUS_ERROR_INVALID_QUEUE);
    return HSA_STATUS_SUCCESS;
}

EXPORTED hsa_status_t hsa_amd_queue_set_priority(hsa_queue_t *queue, hsa_amd_queue_priority_t priority)
{
    hsa_status_t status = take_hint(queue);
    REQUIRE(!status, status);
    REQUIRE_ARGUMENT(priority >= HSA_AMD_QUEUE_PRIORITY_LOW && priority <= HSA_AMD_QUEUE_PRIORITY_HIGH);
    return HSA_STATUS_SUCCESS;
}

EXPORTED hsa_status_t hsa_amd_queue_cu_set_mask(const hsa_queue_t *queue, uint32_t count, const uint32_t *mask)
{
    hsa_status_t status = take_hint(queue);
    REQUIRE(!status, status);
    REQUIRE_ARGUMENT(count % 32 == 0 && (!count || mask));
    return HSA_STATUS_SUCCESS;
}

EXPORTED hsa_status_t hsa_amd_profiling_set_profiler_enabled(hsa_queue_t *queue, int enable)
{
    (void)enable;
    return take_hint(queue);
}

EXPORTED hsa_status_t hsa_amd_profiling_async_copy_enable(bool enable)
{
    (void)enable;
    REQUIRE_INIT();
    return HSA_STATUS_SUCCESS;
}
