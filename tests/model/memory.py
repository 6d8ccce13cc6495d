"""The bytes of the regions, and what of them a packet sees."""
from dataclasses import dataclass

from model.policy import READ, WRITE
from model.work_group import Broken

SPAN = 2**32


def region_of(address):
    """The number of the region that an address would lie in, whether there is one or not."""
    return address // SPAN


class Memory:
    """The bytes of each region, by its number."""

    def __init__(self, lengths):
        self.regions = {number: bytearray(length) for number, length in enumerate(lengths, 1)}

    def length(self, address):
        """How long the region of an address is; one that isn't there has no length."""
        return len(self.regions.get(region_of(address), b""))

    def has(self, address):
        return address % SPAN < self.length(address)

    def is_whole(self, address, length):
        """Whether a range that isn't empty lies in one region as a whole."""
        return address % SPAN + length <= self.length(address)

    def read(self, address, length):
        first = address % SPAN
        return bytes(self.regions[region_of(address)][first : first + length])

    def write(self, address, data):
        if data:
            first = address % SPAN
            self.regions[region_of(address)][first : first + len(data)] = data


@dataclass
class View:
    """The memory as a packet sees it, by what it holds."""

    memory: Memory
    holds: set

    def reach(self, address, size, rights):
        """Holds an access against the rules on the regions that are held."""
        region = ("region", region_of(address))
        held = {right for right in (READ, WRITE) if (region, right) in self.holds}
        if not held or not self.memory.has(address):
            raise Broken("A1")
        if not held >= set(rights):
            raise Broken("A2")
        if not self.memory.is_whole(address, size):
            raise Broken("A3")

    def bytes(self, address, size):
        return self.memory.read(address, size)
