#include "handles.h"

#include <pthread.h>
#include <stdlib.h>

typedef struct place {
    handle_kind kind;
    uint32_t turn; /* how many handles it had before */
    void *thing;
} place;

static pthread_mutex_t lock = PTHREAD_MUTEX_INITIALIZER;
static place *places;
static uint32_t count;

/* A handle is its place's number from 1 on, and above it the place's turn. */
static place *place_of(handle_kind kind, uint64_t handle)
{
    uint64_t index = (handle & UINT32_MAX) - 1;
    if (index >= count) return NULL;
    place *it = &places[index];
    return it->kind == kind && it->turn == handle >> 32 ? it : NULL;
}

static uint32_t free_index(void)
{
    uint32_t index = 0;
    while (index < count && places[index].kind != HANDLE_NONE) index++;
    if (index < count) return index;
    uint32_t larger = count ? 2 * count : 64;
    place *more = realloc(places, larger * sizeof *more);
    if (!more) return count;
    for (uint32_t i = count; i < larger; i++) more[i] = (place){ HANDLE_NONE, 0, NULL };
    places = more;
    count = larger;
    return index;
}

uint64_t handle_new(handle_kind kind, void *thing)
{
    uint64_t handle = 0;
    pthread_mutex_lock(&lock);
    uint32_t index = free_index();
    if (index < count) {
        places[index] = (place){ kind, places[index].turn, thing };
        handle = (uint64_t)places[index].turn << 32 | (index + 1);
    }
    pthread_mutex_unlock(&lock);
    return handle;
}

void *handle_thing(handle_kind kind, uint64_t handle)
{
    pthread_mutex_lock(&lock);
    place *it = place_of(kind, handle);
    void *thing = it ? it->thing : NULL;
    pthread_mutex_unlock(&lock);
    return thing;
}

void *handle_end(handle_kind kind, uint64_t handle)
{
    pthread_mutex_lock(&lock);
    place *it = place_of(kind, handle);
    void *thing = it ? it->thing : NULL;
    if (it) *it = (place){ HANDLE_NONE, it->turn + 1, NULL };
    pthread_mutex_unlock(&lock);
    return thing;
}

/* A thing's end may end handles that it has: the lock is free then. */
void handles_end_all(void (*const free_thing[HANDLE_KINDS])(void *))
{
    pthread_mutex_lock(&lock);
    place *ended = places;
    uint32_t ended_count = count;
    places = NULL;
    count = 0;
    pthread_mutex_unlock(&lock);
    for (uint32_t index = 0; index < ended_count; index++)
        if (ended[index].kind && free_thing[ended[index].kind]) free_thing[ended[index].kind](ended[index].thing);
    free(ended);
}
