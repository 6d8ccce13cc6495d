#include "local.h"

#include <inttypes.h>
#include <stdlib.h>
#include <string.h>

enum { LOOKS = 300, GIVES = 100, MOST_POLICY = (1 << 20) + 1 };

/* Brokers that this process opened before: each has a journal of its own. */
static _Atomic uint32_t generations;

/* ---- the lock */

void local_enter(seam_link *link)
{
    if (!pthread_mutex_trylock(&link->lock)) return;
    atomic_fetch_add(&link->wanted, 1);
    int look = 0;
    while (look < LOOKS && pthread_mutex_trylock(&link->lock)) {
        look++;
        rest();
    }
    if (look == LOOKS) pthread_mutex_lock(&link->lock);
    atomic_fetch_sub(&link->wanted, 1);
}

void local_leave(seam_link *link)
{
    pthread_mutex_unlock(&link->lock);
}

void local_give_way(seam_link *link)
{
    local_leave(link);
    for (int give = 0; give < GIVES && atomic_load_explicit(&link->wanted, memory_order_relaxed); give++) rest();
    pthread_mutex_lock(&link->lock);
}

void local_kick(seam_link *link)
{
    atomic_fetch_add(&link->rung, 1);
    if (atomic_load(&link->asleep)) wake_all(&link->rung);
}

/* ---- what the policy declares */

/* A text by one of the calls that fill a buffer. It is the caller's, or NULL. */
static char *text_of(seam_link *link, hd_status (*call)(hd_broker *, uint32_t, char *, size_t, uint64_t *), uint32_t number)
{
    uint64_t needed = 0;
    char none;
    call(&link->broker, number, &none, 0, &needed);
    char *text = calloc(1, needed + 1);
    if (!text || !call(&link->broker, number, text, needed, &needed)) return text;
    free(text);
    return NULL;
}

static bool learn_object(seam_link *link, uint32_t kind, uint32_t number)
{
    seam_object *object = &link->objects[kind][number];
    uint64_t needed;
    *object = (seam_object){ .rights = 0 };
    hd_name(&link->broker, kind, number, object->name, SEAM_NAME, &needed);
    if (kind == HD_REGION) hd_region_length(&link->broker, number, &object->length);
    if (kind == HD_AGENT) hd_agent_takes(&link->broker, number, &object->takes);
    if (kind != HD_KERNEL) return true;
    hd_layout layout = { 0, 0 };
    hd_kernel_layout(&link->broker, number, &layout);
    object->kernarg = layout.kernarg;
    object->group = layout.group;
    object->text = text_of(link, hd_kernel_text, number);
    object->entry = text_of(link, hd_kernel_entry, number);
    return object->text && object->entry;
}

/* Objects that are known stay: a policy that was made anew has more kernels, and nothing else. */
static bool learn(seam_link *link)
{
    for (uint32_t kind = 0; kind < KINDS; kind++) {
        uint64_t count = 0;
        hd_count(&link->broker, kind, &count);
        if (link->objects[kind] && link->counts[kind] == count) continue; /* readers of signals and regions take no lock */
        seam_object *more = realloc(link->objects[kind], (count + 1) * sizeof *more);
        if (!more) return false;
        link->objects[kind] = more;
        while (link->counts[kind] < count) {
            if (!learn_object(link, kind, link->counts[kind] + 1)) return false;
            link->counts[kind]++;
        }
    }
    return true;
}

/* The client is granted all that the policy allows it. */
static void grant_all(seam_link *link)
{
    static const uint32_t RIGHTS[][2] = { { HD_USE, 0 }, { HD_READ, HD_WRITE }, { HD_WAIT, HD_CHANGE }, { HD_LAUNCH, 0 } };
    for (uint32_t kind = 0; kind < HD_CLIENT; kind++)
        for (uint32_t number = 1; number <= link->counts[kind]; number++) {
            uint32_t one = RIGHTS[kind][0], other = RIGHTS[kind][1];
            hd_status status;
            do status = hd_grant(&link->broker, link->client, kind, number, one | other);
            while (was_full(link, status));
            if (status == HD_NOT_ALLOWED && other) {
                do status = hd_grant(&link->broker, link->client, kind, number, one);
                while (was_full(link, status));
                do status = hd_grant(&link->broker, link->client, kind, number, other);
                while (was_full(link, status));
            }
            uint32_t rights = 0;
            hd_rights(&link->broker, link->client, kind, number, &rights);
            if (link->objects[kind][number].rights != rights) link->objects[kind][number].rights = rights;
        }
}

static bool find_client(seam_link *link)
{
    uint64_t number = 1;
    const char *name = link->setting.client;
    if (name) hd_number(&link->broker, HD_CLIENT, name, strlen(name), &number);
    link->client = number <= link->counts[HD_CLIENT] ? (uint32_t)number : 0;
    return link->client;
}

/* ---- opening */

static void write_file(const char *path, const char *text, size_t length)
{
    FILE *file = path ? fopen(path, "w") : NULL;
    if (!file) return;
    fwrite(text, 1, length, file);
    fclose(file);
}

/* A policy that was made is kept where that is asked, and beside its journal, which wants it to be replayed. */
static void keep_policy(const seam_link *link, uint32_t generation, const char *policy, size_t length)
{
    char path[4096];
    write_file(link->setting.keep, policy, length);
    if (!link->setting.journal) return;
    if (generation) snprintf(path, sizeof path, "%s.%u.toml", link->setting.journal, generation);
    else snprintf(path, sizeof path, "%s.toml", link->setting.journal);
    write_file(path, policy, length);
}

static void tell_fault(char *why, size_t room, hd_status status, const hd_fault *fault)
{
    static const char *const SECTIONS[] = { "", "client", "agent", "region", "signal", "kernel", "allow", "deny" };
    int length = snprintf(why, room, "the policy is refused: %s", library_status_text(status));
    if (fault->section && fault->section < sizeof SECTIONS / sizeof *SECTIONS && (size_t)length < room)
        length += snprintf(why + length, room - (size_t)length, ", row %u of %s", fault->row, SECTIONS[fault->section]);
    if (fault->kernel && (size_t)length < room)
        snprintf(why + length, room - (size_t)length, ", kernel %" PRIu64 " line %u", fault->kernel, fault->line);
}

/* Opens a broker in the empty handle of a link, and its journal. The status is the library's where the policy is refused. */
static seam_status open_over(seam_link *link, const char *policy, size_t length, hd_fault *fault, char *why, size_t room)
{
    hd_status status = hd_open(&link->broker, (const uint8_t *)policy, length, link->setting.places, fault);
    if (status) {
        tell_fault(why, room, status, fault);
        return status == HD_OUT_OF_MEMORY ? SEAM_NO_MEMORY : status == HD_TOO_LONG ? SEAM_TOO_MANY : SEAM_BAD_TEXT;
    }
    if (!learn(link)) return SEAM_NO_MEMORY;
    if (!link->client && !find_client(link)) {
        snprintf(why, room, "the policy has no client %s", link->setting.client ? link->setting.client : "at all");
        return SEAM_BAD_SETTING;
    }
    uint32_t generation = atomic_load(&generations);
    if (!journal_begin(link, generation)) {
        snprintf(why, room, "the journal %s can't be begun: a file of its name is there already, or can't be written", link->setting.journal);
        return SEAM_BAD_SETTING;
    }
    atomic_fetch_add(&generations, 1);
    grant_all(link);
    if (link->is_made) keep_policy(link, generation, policy, length);
    return SEAM_OK;
}

/* ---- a broker in another's place */

/* Dispatches in flight are brought to their end. Of each queue a barrier packet that waits may be left, which is its last. */
static void end_dispatches(seam_link *link)
{
    for (int place = 0; place < PLACES; place++)
        while (link->queues[place] && advance(link, link->queues[place])) ;
}

/* A queue goes on in the broker that is open now: a barrier packet that waits is its first packet there. */
static void move_queue(seam_link *link, queue *of)
{
    hd_taken taken;
    uint64_t next;
    of->number = 0;
    if (of->down) return;
    of->base = atomic_load(&of->ring->read_index) - of->flights;
    hd_status status = hd_open_queue(&link->broker, link->client, of->agent, of->size, &of->number);
    if (status || !of->flights) {
        of->down = status;
        return;
    }
    status = hd_take(&link->broker, of->number, 0, (const uint8_t *)of->flight[0].words, &taken, &next);
    if (status || taken.became != HD_LAUNCHED) {
        of->flights = 0;
        queue_fails(link, of, of->base, status, taken.became == HD_REFUSED ? &taken.error : NULL);
    }
}

/* What a broker that is replaced has of its own. */
typedef struct before {
    hd_broker broker;
    FILE *journal;
    hd_chain chain;
} before;

static before put_aside(seam_link *link)
{
    static const hd_broker NONE = HD_BROKER;
    before kept = { link->broker, link->journal, link->chain };
    link->broker = NONE;
    link->journal = NULL;
    return kept;
}

static void put_back(seam_link *link, const before *kept)
{
    link->broker = kept->broker;
    link->journal = kept->journal;
    link->chain = kept->chain;
}

/* Ends the broker that was put aside. */
static void end_before(seam_link *link, const before *kept)
{
    before now = put_aside(link);
    put_back(link, kept);
    journal_end(link);
    hd_close(&link->broker);
    put_back(link, &now);
}

/* A broker that couldn't be brought up is given back, and what was learnt of its kernels forgotten. */
static void undo_opening(seam_link *link, uint32_t kernels)
{
    if (link->journal) fclose(link->journal);
    if (link->broker.state) hd_close(&link->broker);
    for (; link->counts[HD_KERNEL] > kernels; link->counts[HD_KERNEL]--) {
        free((char *)link->objects[HD_KERNEL][link->counts[HD_KERNEL]].text);
        free((char *)link->objects[HD_KERNEL][link->counts[HD_KERNEL]].entry);
    }
}

seam_status open_again(seam_link *link, hd_fault *fault)
{
    static int64_t values[SEAM_SIGNALS + 1]; /* the lock is held */
    char why[256];
    size_t length;
    uint32_t kernels = link->counts[HD_KERNEL];
    end_dispatches(link);
    for (int signal = 1; signal <= SEAM_SIGNALS; signal++) values[signal] = atomic_load(&link->words[signal].value);
    char *policy = make_policy(values, link->kernels, link->kernel_count, &length);
    if (!policy) return SEAM_NO_MEMORY;
    before kept = put_aside(link);
    seam_status status = open_over(link, policy, length, fault, why, sizeof why);
    free(policy);
    if (status) {
        undo_opening(link, kernels);
        put_back(link, &kept);
        return status;
    }
    end_before(link, &kept);
    mirror_forget(&link->mirror);
    for (int place = 0; place < PLACES; place++)
        if (link->queues[place]) move_queue(link, link->queues[place]);
    return SEAM_OK;
}

/* ---- the seam's calls */

static char *read_policy(const char *path, size_t *length)
{
    FILE *file = fopen(path, "r");
    char *text = file ? calloc(1, MOST_POLICY + 1) : NULL;
    *length = text ? fread(text, 1, MOST_POLICY, file) : 0;
    if (file) fclose(file);
    return text;
}

static char *first_policy(const seam_link *link, size_t *length)
{
    static const int64_t ZEROS[SEAM_SIGNALS + 1];
    return link->is_made ? make_policy(ZEROS, NULL, 0, length) : read_policy(link->setting.policy, length);
}

static bool map_regions(seam_link *link, char *why, size_t room)
{
    for (uint32_t region = 1; region <= link->counts[HD_REGION]; region++) {
        const seam_object *object = &link->objects[HD_REGION][region];
        if (object->rights && !mirror_map(&link->mirror, region, object->length, why, room)) return false;
    }
    return true;
}

static void load_signals(seam_link *link)
{
    for (uint32_t signal = 1; signal <= link->counts[HD_SIGNAL]; signal++) {
        int64_t value = 0;
        if (hd_load(&link->broker, link->client, signal, &value) == HD_OK) atomic_store(&link->words[signal].value, value);
    }
}

static seam_status bring_up(seam_link *link, char *why, size_t room)
{
    size_t length = 0;
    hd_fault fault = { 0 };
    char *policy = first_policy(link, &length);
    if (!policy) {
        snprintf(why, room, "the policy %s can't be read", link->is_made ? "that is made" : link->setting.policy);
        return link->is_made ? SEAM_NO_MEMORY : SEAM_BAD_SETTING;
    }
    seam_status status = open_over(link, policy, length, &fault, why, room);
    free(policy);
    if (status) return status == SEAM_NO_MEMORY ? status : SEAM_BAD_SETTING;
    if (!map_regions(link, why, room)) return SEAM_NO_MEMORY;
    load_signals(link);
    link->is_running = !pthread_create(&link->processor, NULL, run_processor, link);
    return link->is_running ? SEAM_OK : SEAM_NO_MEMORY;
}

seam_status seam_connect(const seam_setting *setting, seam_link **link, char *why, size_t room)
{
    seam_link *new_link = calloc(1, sizeof *new_link);
    snprintf(why, room, "no memory");
    if (!new_link) return SEAM_NO_MEMORY;
    new_link->setting = *setting;
    if (!new_link->setting.places) new_link->setting.places = MOST_PLACES;
    new_link->is_made = !setting->policy;
    pthread_mutex_init(&new_link->lock, NULL);
    new_link->words = calloc(SEAM_SIGNALS + 1, sizeof *new_link->words);
    seam_status status = new_link->words ? bring_up(new_link, why, room) : SEAM_NO_MEMORY;
    if (status) {
        seam_leave(new_link);
        return status;
    }
    *link = new_link;
    return SEAM_OK;
}

static void free_objects(seam_link *link)
{
    for (uint32_t kernel = 1; kernel <= link->counts[HD_KERNEL]; kernel++) {
        free((char *)link->objects[HD_KERNEL][kernel].text);
        free((char *)link->objects[HD_KERNEL][kernel].entry);
    }
    for (uint32_t kind = 0; kind < KINDS; kind++) free(link->objects[kind]);
    for (uint32_t i = 0; i < link->kernel_count; i++) {
        free(link->kernels[i].text);
        free(link->kernels[i].entry);
    }
}

void seam_leave(seam_link *link)
{
    if (link->is_running) {
        atomic_store(&link->stopping, 1);
        local_kick(link);
        pthread_join(link->processor, NULL);
    }
    journal_end(link);
    if (link->broker.state) hd_close(&link->broker);
    for (int place = 0; place < PLACES; place++) {
        if (link->queues[place]) free(link->queues[place]->ring);
        free(link->queues[place]);
    }
    free_objects(link);
    mirror_free(&link->mirror);
    free(link->words);
    free(link->line);
    pthread_mutex_destroy(&link->lock);
    free(link);
}

uint32_t seam_count(seam_link *link, uint32_t kind)
{
    local_enter(link);
    uint32_t count = link->counts[kind];
    local_leave(link);
    return count;
}

bool seam_object_of(seam_link *link, uint32_t kind, uint32_t number, seam_object *object)
{
    local_enter(link);
    bool is_known = number && number <= link->counts[kind];
    if (is_known) *object = link->objects[kind][number];
    local_leave(link);
    return is_known;
}

static bool remember_kernel(seam_link *link, const char *text, const char *entry)
{
    made_kernel made = { strdup(text), strdup(entry) };
    if (made.text && made.entry) {
        link->kernels[link->kernel_count++] = made;
        return true;
    }
    free(made.text);
    free(made.entry);
    return false;
}

static void forget_kernels(seam_link *link, uint32_t count)
{
    while (link->kernel_count > count) {
        link->kernel_count--;
        free(link->kernels[link->kernel_count].text);
        free(link->kernels[link->kernel_count].entry);
    }
}

seam_status seam_add_kernels(seam_link *link, const char *text, char *const *entries, uint32_t count, uint32_t *numbers, hd_fault *fault)
{
    if (!link->is_made) return SEAM_NOT_ALLOWED;
    if (strstr(text, "'''")) return SEAM_BAD_TEXT; /* no policy can have it */
    local_enter(link);
    uint32_t had = link->kernel_count;
    seam_status status = had + count <= SEAM_KERNELS ? SEAM_OK : SEAM_TOO_MANY;
    for (uint32_t i = 0; !status && i < count; i++)
        if (!remember_kernel(link, text, entries[i])) status = SEAM_NO_MEMORY;
    if (!status) status = open_again(link, fault);
    if (status) forget_kernels(link, had);
    for (uint32_t i = 0; !status && i < count; i++) numbers[i] = had + 1 + i;
    local_leave(link);
    local_kick(link);
    return status;
}

seam_region seam_map(seam_link *link, uint32_t region)
{
    return region <= SEAM_REGIONS ? link->mirror.region[region] : (seam_region){ NULL, 0, NULL, NULL };
}
