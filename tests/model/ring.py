"""The ring of a queue: its words, and the steps that producers and the processor may make."""
from dataclasses import dataclass, field

from model.packets import INVALID

# word 0 of a slot without a packet, and each other word
EMPTY, ZEROS = bytes([INVALID]) + bytes(7), bytes(8)
BODY = range(1, 8)


class NotAStep(Exception):
    """A step that its seat may not make now."""


def demand(allowed):
    if not allowed:
        raise NotAStep


@dataclass
class Ticket:
    """An id that a producer reserved."""

    seen: int = None
    written: set = field(default_factory=set)


@dataclass
class Ring:
    """A ring of some slots for some producers. Tickets that are published are gone.

    That a producer may reserve 2^40 ids alone is left out: no script is so long."""

    size: int
    producers: int
    write: int = 0
    read: int = 0
    cleared: bool = False

    def __post_init__(self):
        self.slots = list(map(list, [[EMPTY, *[ZEROS] * 7]] * self.size))
        self.tickets = {}
        self.collected = {}

    def slot(self, number):
        return self.slots[number % self.size]

    def ticket(self, producer, number):
        """An open ticket of a producer."""
        demand((producer, number) in self.tickets)
        return self.tickets[producer, number]

    def reserve(self, producer):
        demand(1 <= producer <= self.producers)
        self.tickets[producer, self.write] = Ticket()
        self.write += 1
        return self.write - 1

    def look_for_room(self, producer, number):
        self.ticket(producer, number).seen = self.read
        return self.read

    def saw_room(self, producer, number):
        seen = self.ticket(producer, number).seen
        return seen is not None and number < seen + self.size

    def store_body(self, producer, number, place, word):
        ticket = self.ticket(producer, number)
        demand(place in BODY and self.saw_room(producer, number))
        ticket.written.add(place)
        self.slot(number)[place] = word

    def store_header(self, producer, number, word):
        ticket = self.ticket(producer, number)
        demand(word[0] != INVALID and ticket.written == set(BODY))
        del self.tickets[producer, number]
        self.slot(number)[0] = word

    def load_header(self):
        demand(not self.cleared)
        word = self.slot(self.read)[0]
        if word[0] != INVALID:
            self.collected[0] = word
        return word

    def load_body(self, place):
        demand(place in BODY and 0 in self.collected)
        self.collected[place] = self.slot(self.read)[place]
        return self.collected[place]

    def packet(self):
        """The packet that the processor has read whole."""
        demand(len(self.collected) == 8)
        return b"".join(self.collected[place] for place in range(8))

    def clear_header(self):
        """Clears a packet that is launched or denied, which was read whole for that."""
        demand(not self.cleared)
        self.cleared = True
        self.slot(self.read)[0] = EMPTY

    def raise_read_index(self):
        demand(self.cleared)
        self.cleared = False
        self.collected = {}
        self.read += 1
        return self.read
