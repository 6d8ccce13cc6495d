/* Many threads share one queue: `producers THREADS PACKETS SIZE`. Each adds 1 to a counter of its own by agent dispatches, and ends with a
   barrier packet that depends on them all. */
#include <pthread.h>

#include "tests.h"

long right, wrong;
enum { MOST = 64, ADD = 0x8002 };
static machine the;
static hsa_queue_t *queue;
static long each;

static void on_error(hsa_status_t status, hsa_queue_t *of, void *data)
{
    (void)of, (void)data;
    printf("the queue is down: %x\n", status);
    exit(3);
}

static void *produce(void *data)
{
    uint64_t *counter;
    hsa_signal_t left, last;
    *(long *)data = 0;
    if (hsa_memory_allocate(the.fine, 8, (void **)&counter) || hsa_signal_create(each, 0, NULL, &left) || hsa_signal_create(1, 0, NULL, &last)) return NULL;
    *counter = 0;
    hsa_agent_dispatch_packet_t packet = {
        .header = header_of(HSA_PACKET_TYPE_AGENT_DISPATCH), .type = ADD, .arg = { (uint64_t)(uintptr_t)counter, 1 }, .completion_signal = left,
    };
    hsa_barrier_and_packet_t barrier = { .header = header_of(HSA_PACKET_TYPE_BARRIER_AND), .dep_signal = { left }, .completion_signal = last };
    for (long i = 0; i < each; i++) publish(queue, &packet);
    publish(queue, &barrier);
    if (hsa_signal_wait_scacquire(last, HSA_SIGNAL_CONDITION_EQ, 0, UINT64_MAX, HSA_WAIT_STATE_BLOCKED)) return NULL;
    *(long *)data = *counter == (uint64_t)each && !hsa_signal_load_relaxed(left);
    return NULL;
}

int main(int count, char **words)
{
    int threads = count > 1 ? atoi(words[1]) : 16;
    pthread_t thread[MOST];
    long well[MOST];
    each = count > 2 ? atol(words[2]) : 200;
    alarm(300);
    if (threads > MOST || hsa_init()) return 2;
    the = meet_machine();
    if (hsa_queue_create(the.gpu, count > 3 ? (uint32_t)atoi(words[3]) : 16, HSA_QUEUE_TYPE_MULTI, on_error, NULL, 0, 0, &queue)) return 2;
    for (int i = 0; i < threads; i++) pthread_create(&thread[i], NULL, produce, &well[i]);
    for (int i = 0; i < threads; i++) {
        pthread_join(thread[i], NULL);
        right += well[i];
        wrong += !well[i];
    }
    IS(hsa_queue_load_read_index_scacquire(queue), threads * (each + 1));
    IS(hsa_queue_destroy(queue), OK);
    IS(hsa_shut_down(), OK);
    printf("%ld right, %ld wrong\n", right, wrong);
    return wrong != 0;
}
