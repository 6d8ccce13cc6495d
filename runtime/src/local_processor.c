#include "local.h"

#include <inttypes.h>
#include <string.h>

enum { SPINS = 20000, GIVES = 100, COPY = 0x8001, ADD = 0x8002 };

/* ---- what a call changed */

/* A signal's new value. Whoever sleeps is woken. */
static void tell_value(word *of, int64_t value)
{
    atomic_store(&of->value, value);
    atomic_fetch_add(&of->sequence, 1);
    if (atomic_load(&of->waiters)) wake_all(&of->sequence);
}

static void show_effect(seam_link *link, size_t index, const hd_effect *effect)
{
    uint64_t needed;
    if (effect->kind == HD_CHANGED && link->objects[HD_SIGNAL][effect->signal].rights & HD_WAIT) tell_value(&link->words[effect->signal], effect->after);
    if (effect->kind != HD_WROTE) return;
    uint8_t *at = mirror_at(&link->mirror, effect->address, effect->length);
    if (at && hd_effect_bytes(&link->broker, index, at, effect->length, &needed) == HD_OK) mirror_show(&link->mirror, effect->address, effect->length);
}

/* Where the last call left no entry nothing is shown: the changes of the audit's last entry are older then, and were shown before. */
void show_effects(seam_link *link)
{
    uint8_t none;
    uint64_t needed = 0, entry = 0, count = 0;
    hd_effects(&link->broker, &none, 0, &needed, &entry);
    if (!entry) return;
    hd_effect_count(&link->broker, &count);
    for (uint64_t index = 0; index < count; index++) {
        hd_effect effect;
        if (hd_effect_at(&link->broker, index, &effect) == HD_OK) show_effect(link, index, &effect);
    }
}

/* ---- errors */

static void tell_rule(seam_error *to, const hd_error *error)
{
    int length = snprintf(to->text, sizeof to->text, "queue %" PRIu64 " packet %" PRIu64 " rule %s", to->queue, to->packet, library_rule_name(error->rule));
    if (error->has_place) length += snprintf(to->text + length, sizeof to->text - (size_t)length, " group %u item %u line %u", error->group, error->item, error->line);
    snprintf(to->text + length, sizeof to->text - (size_t)length, ": %s", library_rule_text(error->rule));
}

void queue_fails(seam_link *link, queue *of, uint64_t packet, hd_status refusal, const hd_error *error)
{
    of->down = true;
    if (link->error_count == PLACES) return;
    seam_error *to = &link->errors[link->error_count++];
    *to = (seam_error){ .queue = of->id, .packet = packet, .rule = error ? error->rule : 0, .refusal = refusal };
    if (error) tell_rule(to, error);
    else snprintf(to->text, sizeof to->text, "queue %" PRIu64 " packet %" PRIu64 ": %s", to->queue, packet, library_status_text(refusal));
}

static void deliver_errors(seam_link *link)
{
    while (link->error_count) {
        seam_error error = link->errors[0];
        memmove(&link->errors[0], &link->errors[1], --link->error_count * sizeof error);
        local_leave(link);
        link->setting.on_error(link->setting.context, &error);
        local_enter(link);
    }
}

/* ---- packets */

static _Atomic uint64_t *slot_of(const queue *of, uint64_t packet)
{
    return &of->ring->slots[8 * (packet & (of->size - 1))];
}

/* The packet, if it is published: its header is looked at first, and the copy is what is judged. The look is at the header's 16 bits
   alone: the bytes behind them may be being stored, by plain stores, as long as it isn't published. */
static bool collect(const queue *of, uint64_t packet, uint64_t words[8])
{
    _Atomic uint64_t *slot = slot_of(of, packet);
    uint16_t header = atomic_load_explicit((_Atomic uint16_t *)(void *)slot, memory_order_acquire);
    if ((header & 0xff) == INVALID) return false;
    for (int i = 0; i < 8; i++) words[i] = atomic_load_explicit(&slot[i], memory_order_relaxed);
    return true;
}

static void retire(queue *of, uint64_t packet)
{
    atomic_store_explicit(slot_of(of, packet), INVALID, memory_order_release);
    atomic_store_explicit(&of->ring->read_index, packet + 1, memory_order_release);
}

/* Whether the broker may launch a packet now. It is asked where it may alone; its answer is what counts. */
static bool may_start(const queue *of, uint64_t header)
{
    bool waits_for_all = header >> 8 & 1;
    if (of->flights == IN_FLIGHT || (waits_for_all && of->flights)) return false;
    for (uint32_t i = 0; i < of->flights; i++)
        if (is_barrier(of->flight[i].words[0])) return false;
    return true;
}

static hd_status write_in(void *context, uint64_t address, const uint8_t *bytes, size_t length)
{
    seam_link *link = context;
    hd_status status;
    do status = hd_write(&link->broker, link->client, address, bytes, length);
    while (was_full(link, status));
    return status;
}

/* Each region in which a word of a kernel's argument block points: a kernel reaches no other (rule A1). */
static hd_status reached_in(seam_link *link, const uint8_t *block, uint64_t length)
{
    uint64_t seen = 0;
    for (uint64_t at = 0; at + 8 <= length; at += 8) {
        uint64_t pointer;
        memcpy(&pointer, block + at, 8);
        uint64_t region = pointer >> 32;
        if (!region || region > link->counts[HD_REGION] || seen >> (region - 1) & 1) continue;
        seen |= (uint64_t)1 << (region - 1);
        hd_status status = mirror_region_in(&link->mirror, (uint32_t)region, write_in, link);
        if (status) return status;
    }
    return HD_OK;
}

static hd_status kernel_reads_in(seam_link *link, const uint64_t words[8])
{
    uint64_t kernel = words[4], address = words[5];
    if (!kernel || kernel > link->counts[HD_KERNEL]) return HD_OK;
    uint64_t length = link->objects[HD_KERNEL][kernel].kernarg;
    if (!length) return HD_OK;
    hd_status status = mirror_range_in(&link->mirror, address, length, write_in, link);
    const uint8_t *block = mirror_at(&link->mirror, address, length);
    return status || !block ? status : reached_in(link, block, length);
}

static hd_status agent_reads_in(seam_link *link, const uint64_t words[8])
{
    switch (words[0] >> 16 & 0xffff) {
    case COPY: return mirror_range_in(&link->mirror, words[2], words[4], write_in, link);
    case ADD: return mirror_range_in(&link->mirror, words[2], 8, write_in, link);
    default: return HD_OK; /* FILL reads nothing */
    }
}

/* What the packet may see of the client's memory goes in. What a client without WRITE stored stays its own. */
static hd_status acquire(seam_link *link, const uint64_t words[8])
{
    uint64_t type = words[0] & 0xff;
    hd_status status = type == KERNEL_DISPATCH ? kernel_reads_in(link, words) : type == AGENT_DISPATCH ? agent_reads_in(link, words) : HD_OK;
    return status == HD_DENIED ? HD_OK : status;
}

/* Takes the next packet of a queue, if it is published and may start. */
static bool serve(seam_link *link, queue *of)
{
    uint64_t packet = atomic_load_explicit(&of->ring->read_index, memory_order_relaxed), next;
    flight taking = { .packet = packet };
    hd_taken taken;
    if (of->down || !collect(of, packet, taking.words) || !may_start(of, taking.words[0])) return false;
    hd_status status = acquire(link, taking.words);
    if (!status) {
        do status = hd_take(&link->broker, of->number, packet - of->base, (const uint8_t *)taking.words, &taken, &next);
        while (was_full(link, status));
    }
    if (!status && taken.became != HD_LAUNCHED && taken.became != HD_REFUSED) return false;
    retire(of, packet);
    if (status) queue_fails(link, of, packet, status, NULL);
    else if (taken.became == HD_REFUSED) queue_fails(link, of, packet, HD_OK, &taken.error);
    else of->flight[of->flights++] = taking;
    return true;
}

/* What became of a step of a packet in flight. */
typedef enum step { STEP_WAITS, STEP_GOES_ON, STEP_IS_DONE, STEP_FAILED } step;

static step poll_barrier(seam_link *link, const queue *of, uint64_t id, hd_status *status, hd_error *error)
{
    hd_polled polled;
    do *status = hd_poll(&link->broker, of->number, id, &polled);
    while (was_full(link, *status));
    if (*status || polled.became == HD_READY) return *status ? STEP_FAILED : STEP_IS_DONE;
    if (polled.became == HD_PENDING) return STEP_WAITS;
    *error = polled.error;
    return STEP_FAILED;
}

static step run_group(seam_link *link, const queue *of, uint64_t id, hd_status *status, hd_error *error)
{
    hd_worked worked;
    do *status = hd_run(&link->broker, of->number, id, &worked);
    while (was_full(link, *status));
    if (*status) return STEP_FAILED;
    show_effects(link);
    if (worked.became == HD_FAULTED) {
        *error = worked.error;
        return STEP_FAILED;
    }
    return worked.became == HD_RAN && worked.left ? STEP_GOES_ON : STEP_IS_DONE;
}

/* A barrier packet that isn't ready lets others go on. */
bool advance(seam_link *link, queue *of)
{
    for (uint32_t i = 0; i < of->flights; i++) {
        uint64_t packet = of->flight[i].packet, id = packet - of->base;
        hd_status status = HD_OK;
        hd_error error = { 0 };
        step came = is_barrier(of->flight[i].words[0]) ? poll_barrier(link, of, id, &status, &error) : run_group(link, of, id, &status, &error);
        if (came == STEP_WAITS) continue;
        if (came == STEP_GOES_ON) return true;
        if (came == STEP_IS_DONE) {
            status = hd_finish(&link->broker, of->number, id);
            if (!status) show_effects(link);
        }
        memmove(&of->flight[i], &of->flight[i + 1], (--of->flights - i) * sizeof *of->flight);
        if (status || error.rule) queue_fails(link, of, packet, status, error.rule ? &error : NULL);
        return true;
    }
    return false;
}

/* ---- the thread */

static bool pass_over_queues(seam_link *link)
{
    bool moved = false;
    for (int place = 0; place < PLACES; place++) {
        if (!link->queues[place]) continue;
        moved |= serve(link, link->queues[place]);
        moved |= advance(link, link->queues[place]);
        if (link->error_count) deliver_errors(link);
        if (atomic_load_explicit(&link->wanted, memory_order_relaxed)) local_give_way(link);
    }
    return moved;
}

/* Waits for a kick, that came after `seen`: with open eyes for a while, then asleep. */
static void await_kick(seam_link *link, uint32_t seen)
{
    for (int spin = 0; spin < SPINS; spin++) {
        if (atomic_load_explicit(&link->rung, memory_order_relaxed) != seen) return;
        rest();
    }
    atomic_store(&link->asleep, 1);
    if (atomic_load(&link->rung) == seen) sleep_on(&link->rung, seen, FOR_EVER);
    atomic_store(&link->asleep, 0);
}

void *run_processor(void *context)
{
    seam_link *link = context;
    pthread_mutex_lock(&link->lock);
    while (!atomic_load(&link->stopping)) {
        uint32_t seen = atomic_load(&link->rung);
        if (pass_over_queues(link)) continue;
        local_leave(link);
        await_kick(link, seen);
        pthread_mutex_lock(&link->lock);
    }
    local_leave(link);
    return NULL;
}
