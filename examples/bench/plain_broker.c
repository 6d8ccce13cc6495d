/* The yardstick of the library for C: the calls of hobbydresser.h that examples/bench/c_speed.c makes, by hand in C, with the same steps
   and checks. Nothing here is proved, and of policies it knows the one of c_speed alone.

   take reads the packet with all its reserved parts, looks up each right that it needs by client and object in a table, and keeps with
   the packet in flight all that it holds; take, run and finish enter the call, what it came to and what it changed into an audit whose
   memory was got before, and keep a place of it free for each packet in flight. Memory for what a group writes is got for each. */
#include <stdlib.h>
#include <string.h>

#include "hobbydresser.h"

enum { CLIENTS = 1, AGENTS = 1, REGIONS = 1, SIGNALS = 1, MOST_IN_FLIGHT = 8, QUEUES = 64, REGION_LENGTH = 64, ADD64 = 0x8002 };

typedef struct {
    uint32_t kind, number, rights;
} right;

typedef struct {
    int is_barrier;
    unsigned acquire, release;
    uint16_t function;
    uint64_t result, arguments[4], completion;
} agent_packet;

typedef struct {
    uint64_t id;
    int ran;
    agent_packet packet;
    right holds[4];
    unsigned held;
} in_flight;

typedef struct {
    uint32_t client, agent;
    uint64_t next;
    int is_down;
    unsigned flying;
    in_flight places[MOST_IN_FLIGHT];
    hd_error error;
} queue_state;

typedef struct {
    uint32_t kind;
    uint64_t address, id, length;
    int64_t before, after;
    uint8_t *bytes;
} change;

typedef struct {
    uint32_t call, outcome;
    uint64_t queue, id;
    uint8_t bytes[64];
    uint32_t group, left;
    unsigned changed;
    change changes[2];
} entry;

enum { TAKE, RUN, FINISH, GRANT, OPEN };

typedef struct {
    uint8_t allowed[4][2], in_force[CLIENTS + 1][4][2];
    uint8_t memory[REGION_LENGTH];
    int64_t signals[SIGNALS + 1];
    queue_state queues[QUEUES + 1];
    uint64_t opened;
    size_t in_flight, capacity, length;
    entry *audit;
} core;

static const uint32_t counts[4] = { AGENTS, REGIONS, SIGNALS, 0 };

static core *core_of(const hd_broker *broker) { return broker->state == 1 ? broker->at : NULL; }

hd_status hd_open(hd_broker *broker, const uint8_t *policy, size_t length, size_t places, hd_fault *fault)
{
    (void)policy, (void)length, (void)fault;
    if (broker->state == 1) return HD_OPEN_ALREADY;
    if (places == 0 || places > 1048576) return HD_BAD_PLACES;
    core *it = calloc(1, sizeof *it);
    if (!it) return HD_OUT_OF_MEMORY;
    it->audit = malloc(places * sizeof *it->audit);
    if (!it->audit) {
        free(it);
        return HD_OUT_OF_MEMORY;
    }
    it->capacity = places;
    it->allowed[HD_AGENT][1] = HD_USE;
    it->allowed[HD_REGION][1] = HD_READ | HD_WRITE;
    it->allowed[HD_SIGNAL][1] = HD_WAIT | HD_CHANGE;
    broker->state = 1;
    broker->at = it;
    return HD_OK;
}

hd_status hd_close_handle(hd_broker broker)
{
    core *it = core_of(&broker);
    if (!it) return HD_CLOSED;
    for (size_t i = 0; i < it->length; i++)
        for (unsigned k = 0; k < it->audit[i].changed; k++) free(it->audit[i].changes[k].bytes);
    free(it->audit);
    free(it);
    return HD_OK;
}

/* Whether the audit has no room for an entry after which so many packets are in flight. */
static int is_full(const core *it, size_t flying) { return it->capacity < it->length + 1 + flying; }

static entry *enter(core *it, uint32_t call, uint64_t queue, uint64_t id)
{
    entry *made = &it->audit[it->length++];
    made->call = call;
    made->outcome = 0;
    made->queue = queue;
    made->id = id;
    made->group = made->left = 0;
    made->changed = 0;
    return made;
}

static uint8_t in_force(const core *it, uint32_t client, uint32_t kind, uint64_t number)
{
    return client - 1 < CLIENTS && number - 1 < counts[kind] ? it->in_force[client][kind][number] : 0;
}

hd_status hd_grant(hd_broker *broker, uint32_t client, uint32_t kind, uint32_t number, uint32_t rights)
{
    core *it = core_of(broker);
    if (!it) return HD_CLOSED;
    if (kind > HD_KERNEL || rights > 63) return HD_NO_SUCH;
    if (client - 1 >= CLIENTS) return HD_UNKNOWN_CLIENT;
    if (number - 1 >= counts[kind]) return HD_UNKNOWN_OBJECT;
    if ((it->allowed[kind][number] & rights) != rights) return HD_NOT_ALLOWED;
    if (is_full(it, it->in_flight)) return HD_AUDIT_FULL;
    it->in_force[client][kind][number] |= (uint8_t)rights;
    enter(it, GRANT, 0, 0);
    return HD_OK;
}

hd_status hd_open_queue(hd_broker *broker, uint32_t client, uint32_t agent, uint64_t size, uint64_t *queue)
{
    core *it = core_of(broker);
    if (!it) return HD_CLOSED;
    if (client - 1 >= CLIENTS) return HD_UNKNOWN_CLIENT;
    if (!(in_force(it, client, HD_AGENT, agent) & HD_USE)) return HD_DENIED;
    if (size < 2 || size > 4096 || (size & (size - 1))) return HD_BAD_SIZE;
    if (it->opened == QUEUES) return HD_TOO_MANY;
    if (is_full(it, it->in_flight)) return HD_AUDIT_FULL;
    *queue = ++it->opened;
    it->queues[*queue] = (queue_state){ .client = client, .agent = agent };
    enter(it, OPEN, *queue, 0);
    return HD_OK;
}

/* The first of the rules on a packet's bytes that fails, or 0. */
static uint32_t decode(const uint8_t bytes[64], agent_packet *packet)
{
    uint16_t header;
    uint32_t reserved;
    uint64_t more;
    memcpy(&header, bytes, 2);
    unsigned type = header & 255;
    if (type < 2 || type > 5) return HD_L1;
    packet->is_barrier = header >> 8 & 1;
    packet->acquire = header >> 9 & 3;
    packet->release = header >> 11 & 3;
    if (header >> 13 || packet->acquire == 3 || packet->release == 3) return HD_L2;
    if (type != 4) abort(); /* a packet of another kind */
    memcpy(&packet->function, bytes + 2, 2);
    memcpy(&reserved, bytes + 4, 4);
    memcpy(&more, bytes + 48, 8);
    if (reserved || more) return HD_L3;
    memcpy(&packet->result, bytes + 8, 8);
    memcpy(packet->arguments, bytes + 16, 32);
    memcpy(&packet->completion, bytes + 56, 8);
    return 0;
}

/* Whether rights are in force; they are kept with the packet. */
static int has(const core *it, const queue_state *queue, in_flight *flight, uint32_t kind, uint64_t number, uint8_t rights)
{
    if ((in_force(it, queue->client, kind, number) & rights) != rights) return 0;
    flight->holds[flight->held++] = (right){ kind, (uint32_t)number, rights };
    return 1;
}

static int has_range(const core *it, const queue_state *queue, in_flight *flight, uint64_t address, uint64_t length, uint8_t rights)
{
    uint64_t number = address >> 32, offset = address & 0xffffffff;
    return number - 1 < REGIONS && offset + length <= REGION_LENGTH && has(it, queue, flight, HD_REGION, number, rights);
}

/* The first of the rules on rights that fails, or 0. */
static uint32_t lacks(const core *it, const queue_state *queue, in_flight *flight)
{
    const agent_packet *packet = &flight->packet;
    if (!has(it, queue, flight, HD_AGENT, queue->agent, HD_USE)) return HD_L4;
    if (packet->function != ADD64) return HD_L5;
    if (!has_range(it, queue, flight, packet->arguments[0], 8, HD_READ | HD_WRITE)) return HD_L8;
    if (packet->result && !has_range(it, queue, flight, packet->result, 8, HD_WRITE)) return HD_L8;
    if (packet->completion && !has(it, queue, flight, HD_SIGNAL, packet->completion, HD_CHANGE)) return HD_L10;
    return 0;
}

hd_status hd_take(hd_broker *broker, uint64_t number, uint64_t id, const uint8_t bytes[64], hd_taken *taken, uint64_t *next)
{
    core *it = core_of(broker);
    if (!it) return HD_CLOSED;
    if (number - 1 >= it->opened) return HD_UNKNOWN_QUEUE;
    queue_state *queue = &it->queues[number];
    if (queue->is_down) return HD_QUEUE_DOWN;
    if (id != queue->next) {
        *next = queue->next;
        return HD_OUT_OF_STEP;
    }
    in_flight flight = { .id = id };
    uint32_t rule = decode(bytes, &flight.packet);
    memset(taken, 0, sizeof *taken);
    if (!rule && flight.packet.is_barrier && queue->flying) {
        taken->became = HD_AWAITS_ALL;
        return HD_OK;
    }
    if (!rule && queue->flying == MOST_IN_FLIGHT) {
        taken->became = HD_AWAITS_SLOT;
        return HD_OK;
    }
    if (!rule) rule = lacks(it, queue, &flight);
    if (is_full(it, it->in_flight + !rule)) return HD_AUDIT_FULL;
    queue->next++;
    entry *made = enter(it, TAKE, number, id);
    memcpy(made->bytes, bytes, 64);
    if (rule) {
        queue->is_down = 1;
        queue->error = (hd_error){ .queue = number, .packet = id, .rule = rule };
        made->outcome = taken->became = HD_REFUSED;
        taken->error = queue->error;
        return HD_OK;
    }
    queue->places[queue->flying++] = flight;
    it->in_flight++;
    return HD_OK;
}

static in_flight *find(queue_state *queue, uint64_t id)
{
    for (unsigned place = 0; place < queue->flying; place++)
        if (queue->places[place].id == id) return &queue->places[place];
    return NULL;
}

hd_status hd_run(hd_broker *broker, uint64_t number, uint64_t id, hd_worked *worked)
{
    core *it = core_of(broker);
    if (!it) return HD_CLOSED;
    if (number - 1 >= it->opened) return HD_UNKNOWN_QUEUE;
    in_flight *flight = find(&it->queues[number], id);
    if (!flight) return HD_NOT_IN_FLIGHT;
    memset(worked, 0, sizeof *worked);
    if (flight->ran) {
        worked->became = HD_DONE;
        return HD_OK;
    }
    if (is_full(it, it->in_flight)) return HD_AUDIT_FULL;
    uint64_t target = flight->packet.arguments[0], value;
    uint8_t *bytes = malloc(8), *at = it->memory + (target & 0xffffffff);
    if (!bytes) return HD_OUT_OF_MEMORY;
    memcpy(&value, at, 8);
    value += flight->packet.arguments[1];
    memcpy(bytes, &value, 8);
    memcpy(at, &value, 8);
    flight->ran = 1;
    entry *made = enter(it, RUN, number, id);
    made->changes[made->changed++] = (change){ .kind = HD_WROTE, .address = target, .length = 8, .bytes = bytes };
    return HD_OK;
}

hd_status hd_finish(hd_broker *broker, uint64_t number, uint64_t id)
{
    core *it = core_of(broker);
    if (!it) return HD_CLOSED;
    if (number - 1 >= it->opened) return HD_UNKNOWN_QUEUE;
    queue_state *queue = &it->queues[number];
    in_flight *flight = find(queue, id);
    if (!flight) return HD_NOT_IN_FLIGHT;
    if (!flight->ran) return HD_NOT_FINISHED;
    entry *made = enter(it, FINISH, number, id);
    if (flight->packet.completion) {
        int64_t *signal = &it->signals[flight->packet.completion];
        made->changes[made->changed++] = (change){ .kind = HD_CHANGED, .id = flight->packet.completion, .before = *signal, .after = *signal - 1 };
        --*signal;
    }
    made->changes[made->changed++] = (change){ .kind = HD_RELEASED, .id = id };
    memmove(flight, flight + 1, (size_t)(queue->places + queue->flying - (flight + 1)) * sizeof *flight);
    queue->flying--;
    it->in_flight--;
    return HD_OK;
}

hd_status hd_read(hd_broker *broker, uint32_t client, uint64_t address, uint8_t *buffer, size_t length)
{
    core *it = core_of(broker);
    if (!it) return HD_CLOSED;
    if (client - 1 >= CLIENTS) return HD_UNKNOWN_CLIENT;
    if (length == 0 || length > 65536) return HD_BAD_SIZE;
    uint64_t offset = address & 0xffffffff;
    if (!(in_force(it, client, HD_REGION, address >> 32) & HD_READ) || offset + length > REGION_LENGTH) return HD_DENIED;
    memcpy(buffer, it->memory + offset, length);
    return HD_OK;
}

hd_status hd_load(hd_broker *broker, uint32_t client, uint64_t signal, int64_t *value)
{
    core *it = core_of(broker);
    if (!it) return HD_CLOSED;
    if (client - 1 >= CLIENTS) return HD_UNKNOWN_CLIENT;
    if (!(in_force(it, client, HD_SIGNAL, signal) & HD_WAIT)) return HD_DENIED;
    *value = it->signals[signal];
    return HD_OK;
}
