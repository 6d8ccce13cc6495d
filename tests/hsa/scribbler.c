/* A client that keeps no rule: threads store random words into the ring of a queue, headers, packets and indices, for a million stores,
   while another queue works. Each denial or fault takes the spoiled queue down, and another is opened in its place. Nothing but those
   queues may end, and the other one's work stays right. */
#include <pthread.h>
#include <sched.h>

#include "tests.h"

long right, wrong;
enum { THREADS = 4, SLOTS = 8, QUEUES = 40, ADD = 0x8002 };
static machine the;
static _Atomic(hsa_queue_t *) spoiled;
static _Atomic int is_down, is_over;
static _Atomic long stores, downs;
static long stores_wanted = 1000000;

static void on_error(hsa_status_t status, hsa_queue_t *queue, void *data)
{
    (void)data;
    if (status != OK && queue == atomic_load(&spoiled)) atomic_store(&is_down, 1);
    atomic_fetch_add(&downs, 1);
}

static uint64_t next_random(uint64_t *state)
{
    *state ^= *state << 13;
    *state ^= *state >> 7;
    *state ^= *state << 17;
    return *state;
}

/* A word, mostly one that a packet might have in its place. */
static uint64_t word_for(uint64_t random, int place)
{
    if (place == 0) return random >> 20 & 3 ? 0x0001000100011002u + (random >> 40 & 3) : random;
    return random >> 30 & 1 ? random & 0x1ffffffff : random;
}

static void *scribble(void *seed)
{
    uint64_t state = (uint64_t)(uintptr_t)seed * 0x9e3779b97f4a7c15u + 1;
    while (!atomic_load(&is_over)) {
        hsa_queue_t *queue = atomic_load(&spoiled);
        for (int i = 0; i < 200; i++) {
            uint64_t random = next_random(&state);
            int place = random % 8;
            uint64_t *slot = (uint64_t *)queue->base_address + 8 * (random >> 11 & (SLOTS - 1));
            __atomic_store_n(slot + place, word_for(random >> 8, place), __ATOMIC_RELAXED);
        }
        hsa_queue_store_write_index_relaxed(queue, next_random(&state) >> 60);
        hsa_signal_store_relaxed(queue->doorbell_signal, 0);
        if (atomic_fetch_add(&stores, 201) > stores_wanted) break;
        sched_yield();
    }
    return NULL;
}

static hsa_queue_t *new_queue(void)
{
    hsa_queue_t *queue = NULL;
    IS(hsa_queue_create(the.gpu, SLOTS, HSA_QUEUE_TYPE_MULTI, on_error, NULL, 0, 0, &queue), OK);
    return queue;
}

/* One addition by the queue that keeps the rules. */
static void add(hsa_queue_t *queue, uint64_t *counter, hsa_signal_t done)
{
    hsa_agent_dispatch_packet_t packet = {
        .header = header_of(HSA_PACKET_TYPE_AGENT_DISPATCH), .type = ADD, .arg = { (uint64_t)(uintptr_t)counter, 1 }, .completion_signal = done,
    };
    hsa_signal_store_relaxed(done, 1);
    publish(queue, &packet);
    IS(hsa_signal_wait_scacquire(done, HSA_SIGNAL_CONDITION_EQ, 0, LONG_ENOUGH, HSA_WAIT_STATE_BLOCKED), 0);
}

int main(int count, char **words)
{
    pthread_t thread[THREADS];
    uint64_t *counter, additions = 0;
    hsa_signal_t done;
    int opened = 1;
    if (count > 1) stores_wanted = atol(words[1]);
    alarm(300);
    if (hsa_init()) return 2;
    the = meet_machine();
    hsa_queue_t *keeps = new_queue();
    for (int i = 0; i < 1000; i++) hsa_signal_create(0, 0, NULL, &done); /* words of the scribbler are small: their signals are others */
    if (hsa_memory_allocate(the.coarse, 8, (void **)&counter)) return 2; /* and so are their regions */
    *counter = 0;
    atomic_store(&spoiled, new_queue());
    for (uintptr_t i = 0; i < THREADS; i++) pthread_create(&thread[i], NULL, scribble, (void *)(i + 1));
    while (atomic_load(&stores) < stores_wanted) {
        add(keeps, counter, done);
        additions++;
        if (atomic_load(&is_down) && opened < QUEUES) {
            atomic_store(&is_down, 0);
            atomic_store(&spoiled, new_queue()); /* the one before stays: a thread may still store there */
            opened++;
        }
    }
    atomic_store(&is_over, 1);
    for (int i = 0; i < THREADS; i++) pthread_join(thread[i], NULL);
    add(keeps, counter, done);
    IS(*counter, additions + 1);
    IS(atomic_load(&downs) > 0, 1);
    IS(hsa_shut_down(), OK);
    printf("%ld right, %ld wrong\n", right, wrong);
    fprintf(stderr, "%d queues were spoiled by %ld stores\n", opened, atomic_load(&stores));
    return wrong != 0;
}
