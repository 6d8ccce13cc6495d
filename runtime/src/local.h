/* The back end in this process: one lock over the broker's handle, and a thread that is the packet processor. Its files:
     local_link.c       connecting and leaving, what is declared, a broker in another's place
     local_queues.c     queues and signals, as the client calls
     local_processor.c  the thread that takes packets, runs and completes them
     local_journal.c    the journal */
#ifndef LOCAL_H
#define LOCAL_H

#include <pthread.h>
#include <stdio.h>

#include "library.h"
#include "made_policy.h"
#include "mirror.h"
#include "wait.h"

enum { IN_FLIGHT = 8, PLACES = 256, KINDS = 5, MOST_PLACES = 1 << 20 };
/* Types of packets, by the low byte of a header. */
enum { INVALID = 1, KERNEL_DISPATCH = 2, BARRIER_AND = 3, AGENT_DISPATCH = 4, BARRIER_OR = 5 };

/* A packet in flight: its number in its ring, and its bytes. */
typedef struct flight {
    uint64_t packet, words[8];
} flight;

/* A ring. Each index has a line of its own. */
typedef struct ring {
    _Alignas(128) _Atomic uint64_t write_index;
    _Alignas(128) _Atomic uint64_t read_index;
    _Alignas(128) _Atomic uint64_t slots[];
} ring;

typedef struct word {
    _Atomic int64_t value;
    _Atomic uint32_t sequence, waiters;
} word;

typedef struct queue {
    uint64_t id, number; /* this seam's, and the broker's, where it is open there */
    uint64_t base;       /* how many packets it had before the broker that is open now */
    uint32_t agent, size, flights;
    bool down;
    ring *ring;
    flight flight[IN_FLIGHT];
} queue;

struct seam_link {
    seam_setting setting;
    pthread_mutex_t lock; /* over the broker, and all below that isn't atomic */
    _Atomic uint32_t wanted, rung, asleep, stopping;
    bool is_running;
    pthread_t processor;
    hd_broker broker;
    bool is_made; /* the policy is */
    uint32_t client, counts[KINDS];
    seam_object *objects[KINDS];
    made_kernel kernels[SEAM_KERNELS + 1];
    uint32_t kernel_count;
    mirror mirror;
    word *words;
    queue *queues[PLACES];
    uint64_t queues_ever; /* opened by this link */
    seam_error errors[PLACES];
    uint32_t error_count;
    FILE *journal;
    hd_chain chain;
    char *line;
    size_t line_room;
};

static inline bool is_barrier(uint64_t header)
{
    return (header & 0xff) == BARRIER_AND || (header & 0xff) == BARRIER_OR;
}

/* The lock. A client's thread looks some time whether it is free before it sleeps: the processor has it for a packet at the most. */
void local_enter(seam_link *link);
void local_leave(seam_link *link);
/* Gives the lock to a client's thread that waits for it. */
void local_give_way(seam_link *link);
/* Tells the processor that there is work. */
void local_kick(seam_link *link);

/* Begins the journal of the broker that was opened as this process's generation-th. False: its file is there, or can't be written. */
bool journal_begin(seam_link *link, uint32_t generation);
/* Writes the entries that the audit has by now. */
void journal_go_on(seam_link *link);
void journal_end(seam_link *link);
/* Whether a call found the audit full, and it is emptied now: the call is made once more. */
bool was_full(seam_link *link, hd_status status);

/* What the last call changed is shown to the client. */
void show_effects(seam_link *link);
/* A queue is down by a rule, or, where error is NULL, by a refusal. */
void queue_fails(seam_link *link, queue *of, uint64_t packet, hd_status refusal, const hd_error *error);
/* One group, or one poll, of the first packet in flight that can go on. */
bool advance(seam_link *link, queue *of);
void *run_processor(void *link);

/* Opens a broker in the other's place, over the policy with the kernels that there are now. The lock is held. */
seam_status open_again(seam_link *link, hd_fault *fault);

#endif
