/* Breaks each rule once, each on a queue of its own, over policy.toml: prints the rule, and the status that the queue's callback got. With
   HOBBYDRESSER_TELL the library says on standard error which packet broke which rule; tests/hsa.py holds both against its table. */
#include "tests.h"

long right, wrong;
enum { COUNT = 1, SPIN, DIVERGE, BEYOND }; /* kernels of the policy */

static machine the;
static _Atomic int last_status;
static hsa_agent_t service;
static hsa_signal_t done, negative;
static uint64_t **arguments, *number;

static void on_error(hsa_status_t status, hsa_queue_t *queue, void *data)
{
    (void)queue, (void)data;
    atomic_store(&last_status, (int)status);
}

static void breaks_at(const char *rule, hsa_agent_t agent, const void *packet)
{
    hsa_queue_t *queue;
    const char *text = "no error came";
    if (hsa_queue_create(agent, 4, HSA_QUEUE_TYPE_SINGLE, on_error, NULL, 0, 0, &queue)) exit(2);
    atomic_store(&last_status, 0);
    publish(queue, packet);
    for (int i = 0; i < 20000 && !atomic_load(&last_status); i++) usleep(1000);
    if (atomic_load(&last_status)) hsa_status_string((hsa_status_t)atomic_load(&last_status), &text);
    printf("%s %.*s\n", rule, (int)strcspn(text, ":"), text);
    hsa_queue_destroy(queue);
}

static void breaks(const char *rule, const void *packet)
{
    breaks_at(rule, the.gpu, packet);
}

static hsa_status_t find_service(hsa_agent_t agent, void *data)
{
    uint32_t features = 0;
    hsa_agent_get_info(agent, HSA_AGENT_INFO_FEATURE, &features);
    if (features == HSA_AGENT_FEATURE_AGENT_DISPATCH) *(hsa_agent_t *)data = agent;
    return OK;
}

static void break_launch_rules(void)
{
    const hsa_kernel_dispatch_packet_t good = dispatch_of(COUNT, arguments, done);
    hsa_kernel_dispatch_packet_t packet = good;
    hsa_barrier_and_packet_t barrier = { .header = header_of(HSA_PACKET_TYPE_BARRIER_AND), .dep_signal = { { 5000 } } };
    packet.header = 6;
    breaks("L1", &packet);
    packet = good;
    packet.header |= 3 << HSA_PACKET_HEADER_SCACQUIRE_FENCE_SCOPE;
    breaks("L2", &packet);
    packet = good;
    packet.reserved2 = 1;
    breaks("L3", &packet);
    breaks_at("L4", service, &good);
    packet = good;
    packet.workgroup_size_x = 2;
    breaks("L5", &packet);
    packet = good;
    packet.kernel_object = 60;
    breaks("L6", &packet);
    packet = good;
    packet.group_segment_size = 70000;
    breaks("L7", &packet);
    packet = good;
    packet.kernarg_address = &packet;
    breaks("L8", &packet);
    breaks("L9", &barrier);
    packet = good;
    packet.completion_signal.handle = 5000;
    breaks("L10", &packet);
}

/* The counter is at an address that the kernel may not count at. */
static void break_access_rule(const char *rule, uint64_t address)
{
    hsa_kernel_dispatch_packet_t packet = dispatch_of(COUNT, arguments, done);
    *arguments = (uint64_t *)(uintptr_t)address;
    breaks(rule, &packet);
}

static void break_access_rules(void)
{
    hsa_kernel_dispatch_packet_t packet;
    break_access_rule("A1", (uint64_t)(uintptr_t)&packet);
    break_access_rule("A2", (uint64_t)4 << 32); /* the region that the client may only read */
    break_access_rule("A3", ((uint64_t)the.fine.handle << 32) + 65536 - 2);
    break_access_rule("A4", (uint64_t)(uintptr_t)number + 1);
    packet = dispatch_of(SPIN, NULL, done);
    breaks("A5", &packet);
    packet = dispatch_of(DIVERGE, NULL, done);
    packet.workgroup_size_x = 2;
    packet.grid_size_x = 2;
    breaks("A6", &packet);
    packet = dispatch_of(BEYOND, NULL, done);
    breaks("A7", &packet);
    hsa_barrier_and_packet_t barrier = { .header = header_of(HSA_PACKET_TYPE_BARRIER_AND), .dep_signal = { negative } };
    breaks("B1", &barrier);
}

int main(void)
{
    alarm(300);
    if (hsa_init()) return 2;
    the = meet_machine();
    hsa_iterate_agents(find_service, &service);
    if (hsa_memory_allocate(the.kernarg, 8, (void **)&arguments) || hsa_memory_allocate(the.fine, 8, (void **)&number)) return 2;
    if (hsa_signal_create(1, 0, NULL, &done) || hsa_signal_create(-1, 0, NULL, &negative)) return 2;
    *arguments = number;
    break_launch_rules();
    break_access_rules();
    printf("signal %" PRId64 "\n", hsa_signal_load_scacquire(done)); /* no packet completed */
    return hsa_shut_down() != OK;
}
