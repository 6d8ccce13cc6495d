"""The rules of a launch that ask for grants and sizes, in their order, and what a launched packet holds."""
from math import prod

from model.memory import region_of
from model.packets import ADD64, AGENT, COPY, FILL, KERNEL, has_a_header, has_a_type, reserves_zeros
from model.policy import CHANGE, LAUNCH, READ, USE, WAIT, WRITE

MOST_ITEMS, MOST_GROUPS, MOST_SEGMENT = 1024, 2**32 - 1, 65536
TAKEN = {KERNEL: "kernel", AGENT: "agent"}


def may_use_the_agent(broker, queue, packet):
    """L4: USE on the agent, which takes this kind of packet."""
    takes = broker.policy.row("agent", queue.agent)["takes"]
    return broker.in_force(queue.client, ("agent", queue.agent), USE) and (packet.is_barrier or TAKEN[packet.kind] in takes)


def has_sizes(broker, queue, packet):
    """L5: dimensions and sizes that may be, or a function that agents have."""
    if packet.kind != KERNEL:
        return packet.is_barrier or packet.function in (FILL, COPY, ADD64)
    dimensions, groups, grids = packet.dimensions, packet.group_sizes, packet.grid_sizes
    return (
        1 <= dimensions
        and all(size >= 1 for size in groups)
        and all(grid == 1 for grid in grids[dimensions:])
        and all(grid >= group for grid, group in zip(grids, groups))
        and prod(groups) <= MOST_ITEMS
        and prod(-(-grid // max(group, 1)) for grid, group in zip(grids, groups)) <= MOST_GROUPS
    )


def may_launch_the_kernel(broker, queue, packet):
    """L6: LAUNCH on the kernel."""
    return packet.kind != KERNEL or broker.in_force(queue.client, ("kernel", packet.kernel), LAUNCH)


def has_segments(broker, queue, packet):
    """L7: as much group memory as the kernel's variables take, and no segment that is too large."""
    if packet.kind != KERNEL:
        return True
    least = broker.kernels[packet.kernel].group_bytes
    return least <= packet.group_segment <= MOST_SEGMENT and packet.private_segment <= MOST_SEGMENT


def ranges(packet):
    """What an agent's function reads and writes: address, length and right of each range that isn't empty."""
    a, b, c = packet.arguments
    found = {
        FILL: {(a, b, WRITE)},
        COPY: {(a, c, READ), (b, c, WRITE)},
        ADD64: {(a, 8, right) for right in (READ, WRITE)},
    }[packet.function]
    if packet.return_address != 0:
        found.add((packet.return_address, 8, WRITE))
    return {it for it in found if it[1] > 0}


def may_touch_memory(broker, queue, packet):
    """L8: READ on the argument block, or the rights on each range."""
    if packet.kind != KERNEL:
        return packet.is_barrier or all(broker.covers(queue.client, *it) for it in ranges(packet))
    length = broker.kernels[packet.kernel].argument_bytes
    return length == 0 or broker.covers(queue.client, packet.argument_block, length, READ)


def may_wait(broker, queue, packet):
    """L9: WAIT on each signal that a barrier packet depends on."""
    if not packet.is_barrier:
        return True
    return all(signal == 0 or broker.in_force(queue.client, ("signal", signal), WAIT) for signal in packet.dependencies)


def may_complete(broker, queue, packet):
    """L10: CHANGE on the completion signal."""
    return packet.completion == 0 or broker.in_force(queue.client, ("signal", packet.completion), CHANGE)


LAYOUT = [("L1", has_a_type), ("L2", has_a_header), ("L3", reserves_zeros)]
RULES = [
    ("L4", may_use_the_agent),
    ("L5", has_sizes),
    ("L6", may_launch_the_kernel),
    ("L7", has_segments),
    ("L8", may_touch_memory),
    ("L9", may_wait),
    ("L10", may_complete),
]


def first_broken(broker, queue, packet):
    """The first rule that a packet breaks, or none."""
    for name, holds in LAYOUT:
        if not holds(packet):
            return name
    for name, holds in RULES:
        if not holds(broker, queue, packet):
            return name
    return None


def regions_pointed_at(broker, packet):
    """The regions in which a kernel's arguments of 64 bits point."""
    for place in broker.kernels[packet.kernel].wide_arguments():
        address = int.from_bytes(broker.memory.read(packet.argument_block + place, 8), "little")
        if broker.memory.has(address):
            yield ("region", region_of(address))


def holds_of(broker, queue, packet):
    """The rights that a packet holds from its launch on, each with its object."""
    held = {(("agent", queue.agent), USE)}
    if packet.completion != 0:
        held.add((("signal", packet.completion), CHANGE))
    if packet.kind == KERNEL:
        held.add((("kernel", packet.kernel), LAUNCH))
        regions = regions_pointed_at(broker, packet)
        held |= {(region, right) for region in regions for right in (READ, WRITE) if broker.in_force(queue.client, region, right)}
    elif packet.kind == AGENT:
        held |= {(("region", region_of(address)), right) for address, _, right in ranges(packet)}
    else:
        held |= {(("signal", signal), WAIT) for signal in packet.dependencies if signal != 0}
    return held
