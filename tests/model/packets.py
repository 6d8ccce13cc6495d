"""A packet's 64 bytes, and the three rules of their layout."""
from dataclasses import dataclass

INVALID, KERNEL, BARRIER_AND, AGENT, BARRIER_OR = 1, 2, 3, 4, 5
# the bytes that a type reserves: the first and how many
RESERVED = {
    KERNEL: {(10, 2), (48, 8)},
    AGENT: {(4, 4), (48, 8)},
    BARRIER_AND: {(2, 6), (48, 8)},
    BARRIER_OR: {(2, 6), (48, 8)},
}
FILL, COPY, ADD64 = 0x8000, 0x8001, 0x8002


@dataclass(frozen=True)
class Packet:
    """A packet by its bytes."""

    data: bytes

    def number(self, first, size):
        """The number in some of its bytes, the least byte first."""
        return int.from_bytes(self.data[first : first + size], "little")

    @property
    def kind(self):
        return self.data[0]

    @property
    def has_barrier_bit(self):
        return self.data[1] % 2 == 1

    @property
    def is_barrier(self):
        return self.kind in (BARRIER_AND, BARRIER_OR)

    @property
    def dimensions(self):
        """How many there are; the bits above the two are reserved."""
        return self.data[2]

    @property
    def group_sizes(self):
        return [self.number(4, 2), self.number(6, 2), self.number(8, 2)]

    @property
    def grid_sizes(self):
        return [self.number(12, 4), self.number(16, 4), self.number(20, 4)]

    @property
    def private_segment(self):
        return self.number(24, 4)

    @property
    def group_segment(self):
        return self.number(28, 4)

    @property
    def kernel(self):
        return self.number(32, 8)

    @property
    def argument_block(self):
        return self.number(40, 8)

    @property
    def function(self):
        return self.number(2, 2)

    @property
    def return_address(self):
        return self.number(8, 8)

    @property
    def arguments(self):
        """The arguments that functions have; the fourth is ignored."""
        return [self.number(16, 8), self.number(24, 8), self.number(32, 8)]

    @property
    def dependencies(self):
        """The five signals that a barrier packet depends on, 0 where one is null."""
        return [self.number(8, 8), self.number(16, 8), self.number(24, 8), self.number(32, 8), self.number(40, 8)]

    @property
    def completion(self):
        return self.number(56, 8)


def has_a_type(packet):
    """L1: the type is one that runs."""
    return packet.kind in RESERVED


def has_a_header(packet):
    """L2: the header's reserved bits are zero, and no scope is 3."""
    high = packet.data[1]
    return high // 32 == 0 and high // 2 % 4 != 3 and high // 8 % 4 != 3


def reserves_zeros(packet):
    """L3: what the type reserves is zero."""
    spare = packet.number(2, 2) // 4 if packet.kind == KERNEL else 0
    return spare == 0 and all(packet.number(*place) == 0 for place in RESERVED[packet.kind])
