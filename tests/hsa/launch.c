/* How fast packets go: `launch PRODUCERS EACH SIZE RUNS`. So many threads publish on one queue, each packet adds 1 to its producer's number
   and its signal falls; then the time from a packet's publication to its signal. */
#include <pthread.h>
#include <sched.h>
#include <time.h>

#include "tests.h"

long right, wrong;
enum { MOST = 16, SHOTS = 5000, ADD = 0x8002 };
static machine the;
static hsa_queue_t *queue;
static long each = 20000;

static double now(void)
{
    struct timespec time;
    clock_gettime(CLOCK_MONOTONIC, &time);
    return (double)time.tv_sec + (double)time.tv_nsec * 1e-9;
}

static void on_error(hsa_status_t status, hsa_queue_t *of, void *data)
{
    (void)of, (void)data;
    printf("the queue is down: %x\n", status);
    exit(3);
}

static void add_one(uint64_t *to, hsa_signal_t done)
{
    uint64_t index = hsa_queue_add_write_index_relaxed(queue, 1);
    while (index - hsa_queue_load_read_index_scacquire(queue) >= queue->size) sched_yield();
    hsa_agent_dispatch_packet_t *packet = (hsa_agent_dispatch_packet_t *)queue->base_address + (index & (queue->size - 1));
    memset((char *)packet + 4, 0, sizeof *packet - 4);
    packet->arg[0] = (uint64_t)(uintptr_t)to;
    packet->arg[1] = 1;
    packet->completion_signal = done;
    __atomic_store_n((uint32_t *)(void *)packet, header_of(HSA_PACKET_TYPE_AGENT_DISPATCH) | (uint32_t)ADD << 16, __ATOMIC_RELEASE);
    hsa_signal_store_screlease(queue->doorbell_signal, (hsa_signal_value_t)index);
}

static void *produce(void *data)
{
    uint64_t *counter;
    hsa_signal_t left;
    if (hsa_memory_allocate(the.fine, 8, (void **)&counter) || hsa_signal_create(each, 0, NULL, &left)) abort();
    *counter = 0;
    for (long i = 0; i < each; i++) add_one(counter, left);
    hsa_signal_wait_scacquire(left, HSA_SIGNAL_CONDITION_EQ, 0, UINT64_MAX, HSA_WAIT_STATE_ACTIVE);
    if (*counter != (uint64_t)each) abort();
    hsa_signal_destroy(left);
    hsa_memory_free(counter);
    return data;
}

/* The seconds that the threads took together, the least of some runs. */
static double least_time(int producers, int runs)
{
    double least = 1e9;
    for (int run = 0; run < runs; run++) {
        pthread_t thread[MOST];
        double begin = now();
        for (int i = 0; i < producers; i++) pthread_create(&thread[i], NULL, produce, NULL);
        for (int i = 0; i < producers; i++) pthread_join(thread[i], NULL);
        if (now() - begin < least) least = now() - begin;
    }
    return least;
}

static int compare(const void *one, const void *other)
{
    double difference = *(const double *)one - *(const double *)other;
    return difference < 0 ? -1 : difference > 0;
}

static void tell_latency(void)
{
    static double micros[SHOTS];
    uint64_t *counter;
    hsa_signal_t done;
    if (hsa_memory_allocate(the.fine, 8, (void **)&counter) || hsa_signal_create(0, 0, NULL, &done)) abort();
    for (int i = 0; i < SHOTS; i++) {
        hsa_signal_store_relaxed(done, 1);
        double begin = now();
        add_one(counter, done);
        hsa_signal_wait_scacquire(done, HSA_SIGNAL_CONDITION_EQ, 0, UINT64_MAX, HSA_WAIT_STATE_ACTIVE);
        micros[i] = (now() - begin) * 1e6;
    }
    qsort(micros, SHOTS, sizeof *micros, compare);
    printf("latency in microseconds: least %.2f, median %.2f, 99 of 100 %.2f\n", micros[0], micros[SHOTS / 2], micros[SHOTS * 99 / 100]);
}

int main(int count, char **words)
{
    int producers = count > 1 ? atoi(words[1]) : 1, runs = count > 4 ? atoi(words[4]) : 9;
    if (count > 2) each = atol(words[2]);
    if (producers > MOST || hsa_init()) return 2;
    the = meet_machine();
    if (hsa_queue_create(the.gpu, count > 3 ? (uint32_t)atoi(words[3]) : 256, HSA_QUEUE_TYPE_MULTI, on_error, NULL, 0, 0, &queue)) return 2;
    double least = least_time(producers, runs);
    printf("%d producers: %.0f packets a second (best of %d)\n", producers, producers * (double)each / least, runs);
    tell_latency();
    hsa_queue_destroy(queue);
    return hsa_shut_down();
}
