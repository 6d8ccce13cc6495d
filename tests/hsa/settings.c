/* What the environment asks for: `settings told` prints what the client may do, `settings unknown` asks for what isn't known, `settings
   widths` has a dispatch over 64 MiB of which 4 KB is used, beside one over 4 KB. */
#include <time.h>

#include "tests.h"

long right, wrong;
static machine the;

static hsa_status_t count_region(hsa_region_t region, void *data)
{
    hsa_region_segment_t segment;
    hsa_region_get_info(region, HSA_REGION_INFO_SEGMENT, &segment);
    *(int *)data += segment == HSA_REGION_SEGMENT_GLOBAL;
    return OK;
}

static const char COUNT[] =
    "module &counting:1:0:$base:$large:$default;\nprog kernel &count(kernarg_u64 %counter)\n{\n  ld_kernarg_u64 $d0, [%counter];\n"
    "  atomicnoret_add_global_rlx_system_u32 [$d0], 1;\n  ret;\n};\n";

/* Loads the kernel, and opens a queue: what a client that may do nothing can't. */
static void tell(void)
{
    hsa_executable_t executable;
    hsa_queue_t *queue = NULL;
    int regions = 0;
    hsa_agent_iterate_regions(the.gpu, count_region, &regions);
    uint64_t kernel = load_text(the.gpu, COUNT, "&count", &executable);
    hsa_signal_t done;
    uint64_t **arguments, *counter;
    int runs = kernel && !hsa_queue_create(the.gpu, 4, HSA_QUEUE_TYPE_MULTI, NULL, NULL, 0, 0, &queue) && !hsa_signal_create(1, 0, NULL, &done)
               && !hsa_memory_allocate(the.kernarg, 8, (void **)&arguments) && !hsa_memory_allocate(the.fine, 8, (void **)&counter);
    if (runs) {
        *arguments = counter;
        *counter = 0;
        hsa_kernel_dispatch_packet_t packet = dispatch_of(kernel, arguments, done);
        publish(queue, &packet);
        runs = !hsa_signal_wait_scacquire(done, HSA_SIGNAL_CONDITION_EQ, 0, LONG_ENOUGH, HSA_WAIT_STATE_BLOCKED) && *counter == 1;
    }
    printf("regions %d, kernels %s\n", regions, runs ? "loaded" : "refused");
}

static uint64_t now(void)
{
    struct timespec time;
    clock_gettime(CLOCK_PROCESS_CPUTIME_ID, &time);
    return (uint64_t)time.tv_sec * 1000000000u + (uint64_t)time.tv_nsec;
}

/* A kernel of an argument block with pointers into so many regions; the least time of many dispatches, by the process's own time, so that
   a busy machine tells the same. */
static uint64_t least_time(hsa_queue_t *queue, const char *text, uint32_t pointers, uint64_t **arguments, uint32_t *const places[4])
{
    enum { SHOTS = 200 };
    hsa_executable_t executable;
    hsa_signal_t done;
    uint64_t least = UINT64_MAX, kernel = load_text(the.gpu, text, "&widths", &executable);
    IS(kernel != 0, 1);
    IS(hsa_signal_create(1, 0, NULL, &done), OK);
    for (uint32_t i = 0; i < pointers; i++) arguments[i] = (uint64_t *)(void *)places[i];
    hsa_kernel_dispatch_packet_t packet = dispatch_of(kernel, arguments, done);
    for (int shot = 0; shot < SHOTS; shot++) {
        hsa_signal_store_relaxed(done, 1);
        places[0][0] = (uint32_t)shot; /* there is something to see */
        uint64_t begin = now();
        publish(queue, &packet);
        while (hsa_signal_load_scacquire(done)) ;
        uint64_t gone = now() - begin;
        if (gone < least) least = gone;
        IS(places[0][0], shot + 1);
    }
    return least;
}

/* Four regions of 63 MiB, with a page used in one of them, beside one region of 4 KB's use. */
static void hold_widths(void)
{
    static const char ONE[] = "module &one:1:0:$base:$large:$default;\nprog kernel &widths(kernarg_u64 %a)\n{\n  ld_kernarg_u64 $d0, [%a];\n"
                              "  atomicnoret_add_global_rlx_system_u32 [$d0], 1;\n  ret;\n};\n";
    static const char FOUR[] = "module &four:1:0:$base:$large:$default;\nprog kernel &widths(kernarg_u64 %a, kernarg_u64 %b, kernarg_u64 %c, kernarg_u64 %d)\n"
                               "{\n  ld_kernarg_u64 $d0, [%a];\n  atomicnoret_add_global_rlx_system_u32 [$d0], 1;\n  ret;\n};\n";
    hsa_queue_t *queue;
    uint64_t **arguments;
    uint32_t *place;
    IS(hsa_queue_create(the.gpu, 4, HSA_QUEUE_TYPE_MULTI, NULL, NULL, 0, 0, &queue), OK);
    IS(hsa_memory_allocate(the.kernarg, 64, (void **)&arguments), OK);
    IS(hsa_memory_allocate((hsa_region_t){ 2 }, 4096, (void **)&place), OK);
    uint32_t *const places[4] = { place, (uint32_t *)(3ul << 32), (uint32_t *)(4ul << 32), (uint32_t *)(5ul << 32) };
    uint64_t narrow = least_time(queue, ONE, 1, arguments, places), wide = least_time(queue, FOUR, 4, arguments, places);
    printf("%" PRIu64 " ns over 4 KB, %" PRIu64 " ns over 64 MiB\n", narrow, wide);
    wrong += wide > 2 * narrow;
}

int main(int count, char **words)
{
    uint32_t value;
    alarm(300);
    if (count != 2) return 2;
    if (hsa_init()) {
        puts("no runtime");
        return 0;
    }
    the = meet_machine();
    if (!strcmp(words[1], "told")) tell();
    else if (!strcmp(words[1], "unknown")) IS(hsa_agent_get_info(the.gpu, (hsa_agent_info_t)0x9999, &value), BAD);
    else if (!strcmp(words[1], "widths")) hold_widths();
    hsa_shut_down();
    return wrong != 0;
}
