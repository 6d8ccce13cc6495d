/* What the files of the functions of hsa.h share. They know the seam, and no broker. */
#ifndef HSA_COMMON_H
#define HSA_COMMON_H

#include <hsa/hsa.h>
#include <hsa/hsa_ext_amd.h>
#include <stdio.h>
#include <stdlib.h>
#include <string.h>

#include "handles.h"
#include "seam.h"
#include "wait.h"

#define EXPORTED __attribute__((visibility("default")))

/* Handles that aren't numbers of the policy: the host's agent, each agent's group region, the instruction set, its wavefront. A queue's
   doorbell is a signal with this bit, and the queue's id. */
#define HOST_AGENT ((uint64_t)0x1000)
#define GROUP_REGION ((uint64_t)0x2000)
#define HSAIL_ISA ((uint64_t)0x3000)
#define WAVEFRONT ((uint64_t)0x3001)
#define DOORBELL ((uint64_t)1 << 40)

typedef struct runtime {
    _Atomic uint32_t references; /* 0: it isn't initialised */
    seam_link *link;
    bool traces, tells; /* HOBBYDRESSER_TRACE: what is asked and isn't known; HOBBYDRESSER_TELL: why something was refused */
} runtime;

extern runtime the_runtime;

static inline bool is_initialized(void)
{
    return atomic_load_explicit(&the_runtime.references, memory_order_acquire);
}

#define REQUIRE(test, status) do { if (!(test)) return status; } while (0)
#define REQUIRE_INIT() REQUIRE(is_initialized(), HSA_STATUS_ERROR_NOT_INITIALIZED)
#define REQUIRE_ARGUMENT(test) REQUIRE(test, HSA_STATUS_ERROR_INVALID_ARGUMENT)
/* An attribute's value, as its type has it. */
#define GIVE(type, given) do { type value_ = (given); memcpy(value, &value_, sizeof value_); return HSA_STATUS_SUCCESS; } while (0)
#define GIVE_ZEROS(length) do { memset(value, 0, length); return HSA_STATUS_SUCCESS; } while (0)
#define GIVE_TEXT(length, text) do { memset(value, 0, length); snprintf(value, length, "%.*s", (int)(length) - 1, text); return HSA_STATUS_SUCCESS; } while (0)

/* An attribute that isn't known. */
hsa_status_t unknown_attribute(const char *function, uint32_t attribute);
/* What HOBBYDRESSER_TELL asks for: a line on standard error. */
__attribute__((format(printf, 1, 2))) void tell(const char *form, ...);

/* ---- agents */
bool is_agent(hsa_agent_t agent); /* the host's too */
bool is_broker_agent(hsa_agent_t agent);
bool takes_kernels(hsa_agent_t agent);

/* ---- memory */
void memory_begin(void);
void memory_end(void);

/* ---- signals */
void signals_begin(void);
bool is_signal(hsa_signal_t signal); /* one that was given out */
int64_t signal_load(hsa_signal_t signal);
int64_t signal_change(hsa_signal_t signal, uint32_t change, int64_t value, int64_t expected);
int64_t signal_wait(hsa_signal_t signal, hsa_signal_condition_t condition, int64_t value, uint64_t nanoseconds, hsa_wait_state_t state);
bool signal_meets(int64_t value, hsa_signal_condition_t condition, int64_t against);
/* Waits until the threads that this library began for waiting have ended. The runtime isn't initialised any more. */
void workers_end(void);

/* ---- queues */
void queues_end(void);
void queues_error(void *context, const seam_error *error);

/* ---- code */
void code_free(void *code);
void reader_free(void *reader);
void executable_free(void *executable);
void symbol_free(void *symbol);
void program_free(void *program);
hsa_status_t finalizer_table(size_t length, void *table);

#endif
