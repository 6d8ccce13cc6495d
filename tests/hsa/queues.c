/* More queues than a broker opens, one after the other, and what goes on meanwhile: a queue that stays, a barrier packet that waits, and
   memory; kernels that are loaded one after the other. No policy is given. */
#include "tests.h"

long right, wrong;
static machine the;
static hsa_queue_t *stays;
static hsa_signal_t gate, behind, done;
static uint64_t **arguments, *counter;

static const char TEXT[] =
    "module &m%d:1:0:$base:$large:$default;\nprog kernel &add(kernarg_u64 %%p)\n{\n  ld_kernarg_u64 $d0, [%%p];\n"
    "  atomicnoret_add_global_rlx_system_u32 [$d0], %d;\n  ret;\n};\n";

/* A kernel that adds a number. */
static uint64_t load_adder(int by)
{
    char text[400];
    hsa_executable_t executable;
    snprintf(text, sizeof text, TEXT, by, by);
    return load_text(the.gpu, text, "&add", &executable);
}

static void run_adder(hsa_queue_t *queue, uint64_t kernel)
{
    hsa_kernel_dispatch_packet_t packet = dispatch_of(kernel, arguments, done);
    hsa_signal_store_relaxed(done, 1);
    publish(queue, &packet);
    IS(hsa_signal_wait_scacquire(done, HSA_SIGNAL_CONDITION_EQ, 0, LONG_ENOUGH, HSA_WAIT_STATE_BLOCKED), 0);
}

static void open_and_close(uint64_t kernel)
{
    hsa_queue_t *queue = NULL;
    IS(hsa_queue_create(the.gpu, 4, HSA_QUEUE_TYPE_SINGLE, NULL, NULL, 0, 0, &queue), OK);
    if (!queue) return;
    run_adder(queue, kernel);
    IS(hsa_queue_destroy(queue), OK);
}

int main(int count, char **words)
{
    int queues = count > 1 ? atoi(words[1]) : 80;
    hsa_queue_t *waits = NULL;
    alarm(300);
    if (hsa_init()) return 2;
    the = meet_machine();
    if (hsa_memory_allocate(the.kernarg, 8, (void **)&arguments) || hsa_memory_allocate(the.fine, 8, (void **)&counter)) return 2;
    if (hsa_signal_create(1, 0, NULL, &gate) || hsa_signal_create(1, 0, NULL, &behind) || hsa_signal_create(1, 0, NULL, &done)) return 2;
    *arguments = counter;
    *counter = 0;
    uint64_t one = load_adder(1);
    IS(hsa_queue_create(the.gpu, 4, HSA_QUEUE_TYPE_MULTI, NULL, NULL, 0, 0, &stays), OK);
    IS(hsa_queue_create(the.gpu, 4, HSA_QUEUE_TYPE_MULTI, NULL, NULL, 0, 0, &waits), OK);
    hsa_barrier_and_packet_t barrier = { .header = header_of(HSA_PACKET_TYPE_BARRIER_AND), .dep_signal = { gate }, .completion_signal = behind };
    publish(waits, &barrier);
    for (int i = 0; i < queues; i++) open_and_close(one);
    IS(*counter, queues);
    run_adder(stays, one);
    IS(*counter, queues + 1);
    uint64_t thousand = load_adder(1000); /* while the barrier packet waits */
    IS(thousand && thousand != one, 1);
    IS(load_adder(1), one); /* the same text is the same kernel */
    *counter += 5; /* what the program stores between two packets is seen by the second */
    run_adder(stays, thousand);
    IS(*counter, queues + 1006);
    IS(hsa_signal_load_scacquire(behind), 1);
    hsa_signal_store_screlease(gate, 0);
    IS(hsa_signal_wait_scacquire(behind, HSA_SIGNAL_CONDITION_EQ, 0, LONG_ENOUGH, HSA_WAIT_STATE_BLOCKED), 0);
    run_adder(waits, one);
    IS(*counter, queues + 1007);
    IS(hsa_queue_destroy(waits), OK);
    IS(hsa_queue_destroy(stays), OK);
    IS(hsa_shut_down(), OK);
    printf("%ld right, %ld wrong\n", right, wrong);
    return wrong != 0;
}
