/* A plain queue that does the work unchecked, to hold launch.c beside: a ring of packets of 64 bytes over atomics, a thread that adds, and a
   counter that falls. Nothing is judged, copied, mirrored or entered. `plain PRODUCERS EACH SIZE RUNS`. */
#include <pthread.h>
#include <sched.h>
#include <stdalign.h>
#include <stdatomic.h>
#include <stdint.h>
#include <stdio.h>
#include <stdlib.h>
#include <time.h>

enum { MOST = 16, SHOTS = 5000, INVALID = 1, ADD = 4 };

typedef struct packet {
    alignas(64) _Atomic uint32_t header;
    uint64_t *to, number;
    _Atomic int64_t *done;
    uint64_t rest[4];
} packet;

static packet *slots;
static uint64_t size = 256;
static long each = 20000;
static alignas(128) _Atomic uint64_t write_index;
static alignas(128) _Atomic uint64_t read_index;
static alignas(128) _Atomic int is_over;

static double now(void)
{
    struct timespec time;
    clock_gettime(CLOCK_MONOTONIC, &time);
    return (double)time.tv_sec + (double)time.tv_nsec * 1e-9;
}

static void *serve(void *data)
{
    for (uint64_t index = 0; !atomic_load_explicit(&is_over, memory_order_relaxed);) {
        packet *it = &slots[index & (size - 1)];
        if (atomic_load_explicit(&it->header, memory_order_acquire) == INVALID) continue;
        *it->to += it->number;
        _Atomic int64_t *done = it->done;
        atomic_store_explicit(&it->header, INVALID, memory_order_release);
        atomic_store_explicit(&read_index, ++index, memory_order_release);
        atomic_fetch_sub(done, 1);
    }
    return data;
}

static void add_one(uint64_t *to, _Atomic int64_t *done)
{
    uint64_t index = atomic_fetch_add(&write_index, 1);
    while (index - atomic_load_explicit(&read_index, memory_order_acquire) >= size) sched_yield();
    packet *it = &slots[index & (size - 1)];
    it->to = to;
    it->number = 1;
    it->done = done;
    atomic_store_explicit(&it->header, ADD, memory_order_release);
}

static void *produce(void *data)
{
    _Atomic int64_t left = each;
    uint64_t counter = 0;
    for (long i = 0; i < each; i++) add_one(&counter, &left);
    while (atomic_load(&left)) ;
    if (counter != (uint64_t)each) abort();
    return data;
}

static int compare(const void *one, const void *other)
{
    double difference = *(const double *)one - *(const double *)other;
    return difference < 0 ? -1 : difference > 0;
}

int main(int count, char **words)
{
    static double micros[SHOTS];
    int producers = count > 1 ? atoi(words[1]) : 1, runs = count > 4 ? atoi(words[4]) : 9;
    double least = 1e9;
    pthread_t server;
    if (count > 2) each = atol(words[2]);
    if (count > 3) size = strtoul(words[3], NULL, 10);
    slots = aligned_alloc(64, size * sizeof *slots);
    if (!slots || producers > MOST) return 2;
    for (uint64_t i = 0; i < size; i++) atomic_init(&slots[i].header, INVALID);
    pthread_create(&server, NULL, serve, NULL);
    for (int run = 0; run < runs; run++) {
        pthread_t thread[MOST];
        double begin = now();
        for (int i = 0; i < producers; i++) pthread_create(&thread[i], NULL, produce, NULL);
        for (int i = 0; i < producers; i++) pthread_join(thread[i], NULL);
        if (now() - begin < least) least = now() - begin;
    }
    for (int i = 0; i < SHOTS; i++) {
        _Atomic int64_t left = 1;
        uint64_t counter = 0;
        double begin = now();
        add_one(&counter, &left);
        while (atomic_load(&left)) ;
        micros[i] = (now() - begin) * 1e6;
    }
    qsort(micros, SHOTS, sizeof *micros, compare);
    printf("%d producers: %.0f packets a second (best of %d)\n", producers, producers * (double)each / least, runs);
    printf("latency in microseconds: least %.2f, median %.2f, 99 of 100 %.2f\n", micros[0], micros[SHOTS / 2], micros[SHOTS * 99 / 100]);
    atomic_store(&is_over, 1);
    pthread_join(server, NULL);
    return 0;
}
