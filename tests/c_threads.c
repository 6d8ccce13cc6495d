/* Two threads that share a broker under a lock of the program's own, each for a client of its own: what both wrote is there. */
#include <pthread.h>
#include <stdio.h>
#include <string.h>

#include "hobbydresser.h"

enum { TIMES = 2000 };

static hd_broker broker = HD_BROKER;
static pthread_mutex_t lock = PTHREAD_MUTEX_INITIALIZER;

/* Adds 1 to a signal of its own, and writes a word of its own. */
static void *client(void *number)
{
    uint32_t own = *(const uint32_t *)number;
    int64_t old;
    for (uint32_t i = 1; i <= TIMES; i++) {
        pthread_mutex_lock(&lock);
        hd_status one = hd_signal(&broker, 1, own, HD_ADD, 1, 0, &old);
        hd_status two = hd_write(&broker, 1, ((uint64_t)1 << 32) + own * 4, (const uint8_t *)&i, 4);
        pthread_mutex_unlock(&lock);
        if (one != HD_OK || two != HD_OK) return number;
    }
    return NULL;
}

int main(int count, char **names)
{
    static uint8_t policy[1 << 20];
    static uint32_t numbers[2] = { 1, 2 };
    pthread_t threads[2];
    hd_fault fault;
    FILE *file = count == 2 ? fopen(names[1], "rb") : NULL;
    if (!file) return 2;
    size_t length = fread(policy, 1, sizeof policy, file);
    fclose(file);
    if (hd_open(&broker, policy, length, 5 * TIMES, &fault) != HD_OK) return 3;
    if (hd_grant(&broker, 1, HD_REGION, 1, HD_READ | HD_WRITE) != HD_OK) return 4;
    for (int i = 0; i < 2; i++)
        if (hd_grant(&broker, 1, HD_SIGNAL, numbers[i], HD_WAIT | HD_CHANGE) != HD_OK) return 4;
    for (int i = 0; i < 2; i++)
        if (pthread_create(&threads[i], NULL, client, &numbers[i])) return 5;
    int failed = 0;
    for (int i = 0; i < 2; i++) {
        void *wrong;
        int64_t value = 0;
        uint32_t word = 0;
        pthread_join(threads[i], &wrong);
        pthread_mutex_lock(&lock);
        hd_status one = hd_load(&broker, 1, numbers[i], &value);
        hd_status two = hd_read(&broker, 1, ((uint64_t)1 << 32) + numbers[i] * 4, (uint8_t *)&word, 4);
        pthread_mutex_unlock(&lock);
        failed |= wrong || one != HD_OK || two != HD_OK || value != 1 + TIMES || word != TIMES;
    }
    return failed | (hd_close(&broker) != HD_OK);
}
