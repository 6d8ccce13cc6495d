/* The seam: all that the functions of hsa.h want from a broker. What stands above it knows no broker; what stands below it is one of the
   back ends. Today there is one, in this process (local.h), over libhobbydresser.a. Of hobbydresser.h the front uses the numbers of
   kinds, rights, changes, conditions and rules alone.

   What is shared is plain memory, of which each word has one writer or is atomic:
     - a ring: write index and slots (the client writes), read index (the broker writes);
     - a signal's word: value and sequence (the broker writes), waiters (the client's). A waiter sleeps on the sequence;
     - a region: its bytes, at one address for client, packets and broker, and `users`, a count for each page, and `spans`, their sums
       for SEAM_SPAN pages together, by which the client tells which pages are worth looking at. They are hints: a page that they leave
       out isn't seen by packets, and harms the client alone.
   All else are calls, which a process of its own could answer by a message each. */
#ifndef SEAM_H
#define SEAM_H

#include <stdatomic.h>
#include <stdbool.h>
#include <stddef.h>
#include <stdint.h>

#include "hobbydresser.h"

enum { SEAM_PAGE = 4096, SEAM_SPAN = 512, SEAM_AGENTS = 16, SEAM_REGIONS = 64, SEAM_SIGNALS = 1024, SEAM_KERNELS = 64, SEAM_QUEUES = 64, SEAM_NAME = 64 };

typedef enum seam_status {
    SEAM_OK = 0,
    SEAM_FAILED,      /* the broker refuses, or there is no such thing */
    SEAM_NO_MEMORY,
    SEAM_NOT_ALLOWED, /* the policy doesn't allow it to this client */
    SEAM_TOO_MANY,    /* as many as there can be are in use */
    SEAM_BAD_TEXT,    /* a kernel's text isn't read, or no module may have it */
    SEAM_BAD_SETTING  /* a policy, a client or a journal that was named can't be used */
} seam_status;

typedef struct seam_link seam_link;

/* Why a queue is down: the rule that a packet broke, with the place of a kernel's fault, or, where rule is 0, what the broker refused. */
typedef struct seam_error {
    uint64_t queue, packet;
    uint32_t rule, refusal;
    char text[256]; /* the same in words */
} seam_error;

typedef struct seam_setting {
    const char *policy;  /* a file; NULL: one is made that allows all, and grows with the kernels that are loaded */
    const char *client;  /* a name of it; NULL: the first */
    const char *journal; /* a file that gets the journal as it goes, or NULL */
    const char *keep;    /* a file that gets the policy that was made, or NULL */
    uint64_t places;     /* of the audit; 0: as many as it can have */
    void (*on_error)(void *context, const seam_error *); /* from a thread of the back end, which holds no lock then */
    void *context;
} seam_setting;

/* An object, as this client may see it. */
typedef struct seam_object {
    char name[SEAM_NAME + 1];
    uint32_t rights;          /* of this client, in force */
    uint32_t takes;           /* of an agent: SEAM_TAKES_KERNEL, SEAM_TAKES_AGENT */
    uint64_t length;          /* of a region */
    uint32_t kernarg, group;  /* of a kernel: bytes of its segments */
    const char *text, *entry; /* of a kernel; they stay until the link is left */
} seam_object;

enum { SEAM_TAKES_KERNEL = 1, SEAM_TAKES_AGENT = 2 };

typedef struct seam_region {
    uint8_t *bytes;
    uint64_t length;
    _Atomic uint16_t *users;
    _Atomic uint32_t *spans;
} seam_region;

typedef struct seam_ring {
    _Atomic uint64_t *write_index, *read_index, *slots;
} seam_ring;

typedef struct seam_word {
    const _Atomic int64_t *value;
    const _Atomic uint32_t *sequence;
    _Atomic uint32_t *waiters;
} seam_word;

/* Connects. Where that fails, `why` tells the cause. */
seam_status seam_connect(const seam_setting *setting, seam_link **link, char *why, size_t room);
/* Ends the link, and all that was handed out by it. */
void seam_leave(seam_link *link);

/* How many objects of a kind the policy declares. Their numbers count from 1, and stay. */
uint32_t seam_count(seam_link *link, uint32_t kind);
/* One of them; false where there is none of this number. */
bool seam_object_of(seam_link *link, uint32_t kind, uint32_t number, seam_object *object);
/* The numbers of the kernels of a text, by their entries. The same text and entry has the same number. SEAM_NOT_ALLOWED: the policy was
   given, and has no such text. SEAM_BAD_TEXT: `fault` tells where. All of them are added, or none. */
seam_status seam_add_kernels(seam_link *link, const char *text, char *const *entries, uint32_t count, uint32_t *numbers, hd_fault *fault);
/* A region's memory, which lies at its number << 32; bytes is NULL where the client has no right on it. */
seam_region seam_map(seam_link *link, uint32_t region);

/* Opens a queue: its id, which no other queue of this link has, and its ring. SEAM_TOO_MANY where SEAM_QUEUES are open. */
seam_status seam_open_queue(seam_link *link, uint32_t agent, uint32_t size, uint64_t *queue, seam_ring *ring);
/* Stops a queue: what it has in flight is given up, and no packet of it is launched any more. */
seam_status seam_stop_queue(seam_link *link, uint64_t queue);
/* Closes a queue: its dispatches in flight are brought to their end, what else it has in flight is given up, and its ring is gone. */
seam_status seam_close_queue(seam_link *link, uint64_t queue);
/* Says that a queue has packets. */
void seam_ring_doorbell(seam_link *link, uint64_t queue);

/* The word of a signal that the client may wait for; its pointers are NULL where there is none. */
seam_word seam_word_of(seam_link *link, uint32_t signal);
/* Changes a signal. `old` gets what HD_EXCHANGE and HD_CAS found. */
seam_status seam_change(seam_link *link, uint32_t signal, uint32_t change, int64_t value, int64_t expected, int64_t *old);

#endif
