#include "local.h"

#include <stdlib.h>
#include <string.h>

/* ---- queues */

static ring *new_ring(uint32_t size)
{
    size_t bytes = sizeof(ring) + 64 * (size_t)size;
    ring *it = aligned_alloc(128, (bytes + 127) / 128 * 128);
    if (!it) return NULL;
    atomic_init(&it->write_index, 0);
    atomic_init(&it->read_index, 0);
    for (uint32_t i = 0; i < 8 * size; i++) atomic_init(&it->slots[i], i % 8 ? 0 : INVALID);
    return it;
}

static hd_status try_to_open(seam_link *link, queue *of)
{
    hd_status status;
    do status = hd_open_queue(&link->broker, link->client, of->agent, of->size, &of->number);
    while (was_full(link, status));
    return status;
}

/* Closes a queue at the broker: what it has in flight is given up, and nothing more is launched. */
static void close_at_broker(seam_link *link, queue *of)
{
    hd_status status = HD_OK;
    if (of->number) {
        do status = hd_close_queue(&link->broker, of->number);
        while (was_full(link, status));
    }
    if (!status) of->number = 0;
    of->down = true;
    of->flights = 0;
}

/* Closes the queues at the broker that launch nothing more and have nothing in flight: they only take places there. */
static bool close_idle(seam_link *link)
{
    bool closed = false;
    for (int place = 0; place < PLACES; place++) {
        queue *of = link->queues[place];
        if (!of || !of->number || !of->down || of->flights) continue;
        close_at_broker(link, of);
        closed |= !of->number;
    }
    return closed;
}

/* Opens a queue at the broker, which has place for 64. */
static seam_status open_at_broker(seam_link *link, queue *of)
{
    hd_status status = try_to_open(link, of);
    if (status == HD_TOO_MANY && close_idle(link)) status = try_to_open(link, of);
    switch (status) {
    case HD_OK: return SEAM_OK;
    case HD_TOO_MANY: return SEAM_TOO_MANY;
    case HD_DENIED: return SEAM_NOT_ALLOWED;
    case HD_OUT_OF_MEMORY: return SEAM_NO_MEMORY;
    default: return SEAM_FAILED;
    }
}

static queue *queue_of(seam_link *link, uint64_t id, int *place)
{
    for (*place = 0; *place < PLACES; ++*place) {
        queue *of = link->queues[*place];
        if (of && of->id == id) return of;
    }
    return NULL;
}

static int free_place(const seam_link *link)
{
    int place = 0;
    while (place < PLACES && link->queues[place]) place++;
    return place;
}

static void free_queue(queue *of)
{
    if (of) free(of->ring);
    free(of);
}

seam_status seam_open_queue(seam_link *link, uint32_t agent, uint32_t size, uint64_t *id, seam_ring *ring)
{
    queue *of = calloc(1, sizeof *of);
    if (of) *of = (queue){ .agent = agent, .size = size, .ring = new_ring(size) };
    if (!of || !of->ring) {
        free_queue(of);
        return SEAM_NO_MEMORY;
    }
    local_enter(link);
    int place = free_place(link);
    seam_status status = place < PLACES ? open_at_broker(link, of) : SEAM_TOO_MANY;
    if (!status) {
        of->id = ++link->queues_ever;
        link->queues[place] = of;
        *id = of->id;
        *ring = (seam_ring){ &of->ring->write_index, &of->ring->read_index, of->ring->slots };
    }
    local_leave(link);
    if (status) free_queue(of);
    return status;
}

seam_status seam_stop_queue(seam_link *link, uint64_t id)
{
    int place;
    local_enter(link);
    queue *of = queue_of(link, id, &place);
    if (of) close_at_broker(link, of);
    local_leave(link);
    return of ? SEAM_OK : SEAM_FAILED;
}

/* Errors that weren't told yet are of a queue that nobody has any more. */
static void forget_errors(seam_link *link, uint64_t id)
{
    uint32_t kept = 0;
    for (uint32_t i = 0; i < link->error_count; i++)
        if (link->errors[i].queue != id) link->errors[kept++] = link->errors[i];
    link->error_count = kept;
}

seam_status seam_close_queue(seam_link *link, uint64_t id)
{
    int place;
    local_enter(link);
    queue *of = queue_of(link, id, &place);
    if (of) {
        while (of->flights && advance(link, of)) ; /* dispatches are brought to their end */
        close_at_broker(link, of);
        forget_errors(link, id);
        link->queues[place] = NULL;
    }
    local_leave(link);
    free_queue(of);
    return of ? SEAM_OK : SEAM_FAILED;
}

void seam_ring_doorbell(seam_link *link, uint64_t queue)
{
    (void)queue; /* one thread serves all */
    local_kick(link);
}

/* ---- signals */

seam_word seam_word_of(seam_link *link, uint32_t signal)
{
    if (!signal || signal > link->counts[HD_SIGNAL] || !(link->objects[HD_SIGNAL][signal].rights & HD_WAIT)) return (seam_word){ NULL, NULL, NULL };
    word *of = &link->words[signal];
    return (seam_word){ &of->value, &of->sequence, &of->waiters };
}

seam_status seam_change(seam_link *link, uint32_t signal, uint32_t change, int64_t value, int64_t expected, int64_t *old)
{
    hd_status status;
    local_enter(link);
    do status = hd_signal(&link->broker, link->client, signal, change, value, expected, old);
    while (was_full(link, status));
    if (!status) show_effects(link);
    local_leave(link);
    if (status) return SEAM_NOT_ALLOWED;
    local_kick(link);
    return SEAM_OK;
}
