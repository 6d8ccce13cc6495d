"""The broker: grants, queues, packets in flight, and the audit. Each call raises the first refusal that is due."""
from dataclasses import dataclass, field

from model.memory import Memory, View, region_of
from model.launch import first_broken, holds_of
from model.packets import ADD64, BARRIER_AND, BARRIER_OR, COPY, FILL, KERNEL, Packet
from model.policy import CHANGE, KINDS, READ, RIGHTS, USE, WAIT, WRITE, Policy
from model.ring import Ring
from model.work_group import Dispatch, Fault, Group, runs

MOST_QUEUES, MOST_IN_FLIGHT, MOST_HOST_BYTES = 64, 8, 65536
LEAST_SIZE, MOST_SIZE, MOST_PRODUCERS = 2, 4096, 16


class Refused(Exception):
    """A call that is refused, by the text of its reply."""


def wrapped(number):
    """A whole number as 64 bits with a sign."""
    return (number + 2**63) % 2**64 - 2**63


def listed(rights):
    """Rights in their order, as they are told."""
    return ",".join(it for it in RIGHTS if it in rights) or "-"


@dataclass
class Flight:
    """A packet in flight: what it holds, how far it is, and for a kernel its dispatch."""

    packet: Packet
    holds: set
    dispatch: Dispatch = None
    groups_run: int = 0
    seen: set = field(default_factory=set)

    def groups(self):
        return self.dispatch.groups() if self.dispatch else 1

    def unseen(self):
        """The positions of the signals that it depends on and hasn't seen as 0."""
        return [place for place, signal in enumerate(self.packet.dependencies, 1) if signal != 0 and place not in self.seen]

    def is_ready(self):
        return self.unseen() == [] if self.packet.kind == BARRIER_AND else self.seen != set()

    def is_done(self):
        return self.is_ready() if self.packet.is_barrier else self.groups_run == self.groups()


@dataclass
class Queue:
    """A queue: its opening, its ring, its packets in flight, and whether it is down."""

    client: int
    agent: int
    ring: Ring
    next: int = 0
    has_error: bool = False
    is_stopped: bool = False
    errors: list = field(default_factory=list)
    flights: dict = field(default_factory=dict)


@dataclass
class Entry:
    """An entry of the audit: its event, and the effects."""

    event: str
    effects: list

    def told(self, number):
        return "; ".join([f"{number} {self.event}", *self.effects])


class Broker:
    """All that there is, over a policy and the kernels that its rows name, with an audit of some places."""

    def __init__(self, policy, kernels, places):
        self.policy, self.kernels, self.places = policy, kernels, places
        self.granted = set()
        self.memory = Memory([row["length"] for row in policy.rows["region"]])
        self.signals = {number: row["initial"] for number, row in enumerate(policy.rows["signal"], 1)}
        self.queues, self.opened = {}, 0
        self.entries, self.before = [], 0

    # ---- what is asked of each call

    def client_name(self, client):
        return self.policy.row("client", client)["name"]

    def ask_client(self, client):
        if client == 0:
            raise Refused("1 UnknownClient")

    def ask_object(self, thing):
        if thing[1] == 0:
            raise Refused("13 UnknownObject")

    def ask_right(self, client, thing, right):
        if not self.in_force(client, thing, right):
            raise Refused(f"3 Denied {right}")

    def ask_range(self, client, address, length, right):
        if not self.covers(client, address, length, right):
            raise Refused(f"3 Denied {right}")

    def ask_allowed(self, client, thing, rights):
        if not all(self.policy.allowed(client, thing, right) for right in rights):
            raise Refused("5 NotAllowed")

    def ask_free(self, is_taken):
        """Refuses where a packet in flight holds a right that is taken, by the least such packet.

        (Queues are kept in the order of their numbers, and so are their packets, as they are launched.)"""
        for number, queue in self.queues.items():
            for packet, flight in queue.flights.items():
                if any(is_taken(queue.client, thing, right) for thing, right in flight.holds):
                    raise Refused(f"4 Busy queue {number} packet {packet}")

    def ask_place(self, more):
        """Refuses an event without a place in the audit; `more` are the packets that it brings into flight."""
        free = self.places - len(self.entries)
        if free - 1 < self.in_flight() + more:
            raise Refused("10 AuditFull")

    def queue(self, number):
        if number not in self.queues:
            raise Refused("2 UnknownQueue")
        return self.queues[number]

    def flight(self, number, packet, are_barriers):
        """A packet in flight of a kind that a call takes."""
        flights = self.queue(number).flights
        if packet not in flights or flights[packet].packet.is_barrier not in are_barriers:
            raise Refused("8 NotInFlight")
        return flights[packet]

    # ---- what is in force

    def in_force(self, client, thing, right):
        return (client, thing, right) in self.granted

    def rights(self, client, thing):
        return {right for right in RIGHTS if self.in_force(client, thing, right)}

    def covers(self, client, address, length, right):
        """Whether a range lies in one region as a whole, on which a client has a right."""
        return self.memory.is_whole(address, length) and self.in_force(client, ("region", region_of(address)), right)

    def in_flight(self):
        return sum(len(queue.flights) for queue in self.queues.values())

    # ---- effects

    def enter(self, event, *effects):
        self.entries.append(Entry(event, [it for it in effects if it]))

    def put(self, address, data):
        """Writes memory; of no bytes there is no effect."""
        self.memory.write(address, data)
        return f"write {address:016x} {data.hex()}" if data else ""

    def change(self, signal, new):
        old, self.signals[signal] = self.signals[signal], wrapped(new)
        return f"signal {signal} {old} {self.signals[signal]}"

    def release(self, number, packet):
        del self.queues[number].flights[packet]
        return f"release {number} {packet}"

    def fail(self, number, packet, rule, place=""):
        """Notes an error of a queue, which launches nothing more."""
        error = f"queue {number} packet {packet} rule {rule}{place}"
        self.queues[number].has_error = True
        self.queues[number].errors.append(error)
        return error

    # ---- grants

    def grant(self, client, thing, rights):
        self.ask_client(client)
        self.ask_object(thing)
        self.ask_allowed(client, thing, rights)
        self.ask_place(0)
        self.granted |= {(client, thing, right) for right in rights}
        self.enter(f"grant {self.client_name(client)} {thing[0]} {thing[1]} {listed(rights)}")

    def revoke(self, client, thing, rights):
        self.ask_client(client)
        self.ask_object(thing)
        self.ask_free(lambda *held: held in {(client, thing, right) for right in rights})
        self.ask_place(0)
        self.granted -= {(client, thing, right) for right in rights}
        self.enter(f"revoke {self.client_name(client)} {thing[0]} {thing[1]} {listed(rights)}")

    def reload(self, policy):
        if not policy.declares_as(self.policy):
            raise Refused("16 OtherObjects")
        self.ask_free(lambda *held: not policy.allowed(*held))
        self.ask_place(0)
        self.policy = policy
        self.granted = {held for held in self.granted if policy.allowed(*held)}
        self.enter("reload")

    # ---- queues

    def open_queue(self, client, agent, size, producers):
        self.ask_client(client)
        self.ask_right(client, ("agent", agent), USE)
        if not LEAST_SIZE <= size <= MOST_SIZE or size & size - 1 or not 1 <= producers <= MOST_PRODUCERS:
            raise Refused("11 BadSize")
        if len(self.queues) == MOST_QUEUES:
            raise Refused("12 TooMany")
        self.ask_place(0)
        self.opened += 1
        self.queues[self.opened] = Queue(client, agent, Ring(size, producers))
        self.enter(f"queue {self.opened} {self.client_name(client)} agent {agent} size {size}")
        return self.opened

    def stop(self, number):
        queue = self.queue(number)
        if queue.is_stopped:
            raise Refused("7 QueueDown")
        barriers = [packet for packet, flight in queue.flights.items() if flight.packet.is_barrier]
        self.ask_place(-len(barriers))
        queue.is_stopped = True
        self.enter(f"stop {number}", *[self.release(number, packet) for packet in barriers])

    def close(self, number):
        queue = self.queue(number)
        self.ask_place(-len(queue.flights))
        released = [self.release(number, packet) for packet in list(queue.flights)]
        del self.queues[number]
        self.enter(f"close {number}", *released)

    # ---- packets

    def may_start(self, queue, packet):
        """The cause for which a packet waits, or none."""
        flights = queue.flights.values()
        if any(it.packet.is_barrier for it in flights):
            return "Barrier"
        if packet.has_barrier_bit and flights:
            return "Active"
        return "Slots" if len(flights) == MOST_IN_FLIGHT else None

    def take(self, number, packet, data):
        """Launches or denies a packet, or tells why it waits."""
        queue, packet_of = self.queue(number), Packet(data)
        if queue.has_error or queue.is_stopped:
            raise Refused("7 QueueDown")
        if packet != queue.next:
            raise Refused(f"6 OutOfStep {queue.next}")
        if cause := self.may_start(queue, packet_of):
            return f"waiting {packet} {cause}"
        if rule := first_broken(self, queue, packet_of):
            self.ask_place(0)
            queue.next += 1
            self.enter(f"take {number} {packet} denied {rule}")
            return f"denied {self.fail(number, packet, rule)}"
        self.ask_place(1)
        queue.next += 1
        queue.flights[packet] = Flight(packet_of, holds_of(self, queue, packet_of), self.dispatch(packet_of))
        self.enter(f"take {number} {packet} launched")
        return f"launched {packet}"

    def dispatch(self, packet):
        """What a kernel's packet brings to its groups, with a copy of its argument block."""
        if packet.kind != KERNEL:
            return None
        kernel = self.kernels[packet.kernel]
        block = self.memory.read(packet.argument_block, kernel.argument_bytes) if kernel.argument_bytes else b""
        return Dispatch(kernel, packet.group_sizes, packet.grid_sizes, packet.group_segment, block)

    def run(self, number, packet):
        """Runs the next group of a dispatch."""
        flight = self.flight(number, packet, [False])
        group = flight.groups_run
        if group == flight.groups():
            return "done"
        try:
            writes = self.group_writes(number, flight, group)
        except Fault as fault:
            place = f" group {group} item {fault.item} line {fault.line}"
            self.enter(f"run {number} {packet} faulted {fault.rule}{place}", self.release(number, packet))
            return f"faulted {self.fail(number, packet, fault.rule, place)}"
        self.ask_place(0)
        flight.groups_run += 1
        self.enter(f"run {number} {packet} group {group}", *[self.put(*it) for it in writes])
        return f"ran {group} left {flight.groups() - flight.groups_run}"

    def group_writes(self, number, flight, group):
        """The addresses that a group writes, each with its bytes, in the order of their effects."""
        if flight.dispatch:
            view = View(self.memory, flight.holds)
            return runs(Group(flight.dispatch, group, view).run())
        return self.function_writes(flight.packet)

    def function_writes(self, packet):
        """What an agent's function writes, and then its result."""
        a, b, c = packet.arguments
        result = 0
        if packet.function == FILL:
            writes = [(a, bytes([c % 256]) * b)]
        elif packet.function == COPY:
            writes = [(b, self.memory.read(a, c) if c else b"")]
        else:
            result = int.from_bytes(self.memory.read(a, 8), "little")
            writes = [(a, ((result + b) % 2**64).to_bytes(8, "little"))]
        if packet.return_address != 0:
            writes.append((packet.return_address, result.to_bytes(8, "little")))
        return writes

    def poll(self, number, packet):
        """Has a barrier packet look at the signals that it depends on and hasn't yet seen as 0."""
        flight = self.flight(number, packet, [True])
        if flight.is_ready():
            return "ready"
        values = {place: self.signals[flight.packet.dependencies[place - 1]] for place in flight.unseen()}
        if any(value < 0 for value in values.values()):
            self.enter(f"poll {number} {packet} failed B1", self.release(number, packet))
            return f"failed {self.fail(number, packet, 'B1')}"
        seen = [place for place, value in values.items() if value == 0]
        if not seen:
            return "pending"
        self.ask_place(0)
        flight.seen |= set(seen)
        self.enter(f"poll {number} {packet} seen {','.join(map(str, seen))}")
        return "ready" if flight.is_ready() else "pending"

    def finish(self, number, packet):
        flight = self.flight(number, packet, [False, True])
        if not flight.is_done():
            raise Refused("9 NotFinished")
        signal = flight.packet.completion
        completed = self.change(signal, self.signals[signal] - 1) if signal != 0 else ""
        self.enter(f"finish {number} {packet}", completed, self.release(number, packet))

    # ---- what a client asks by itself

    def host_write(self, client, address, data):
        """Writes memory; no line has room for more bytes than a client may write."""
        self.ask_client(client)
        self.ask_range(client, address, len(data), WRITE)
        self.ask_place(0)
        self.enter(f"write {self.client_name(client)}", self.put(address, data))

    def host_read(self, client, address, length):
        self.ask_client(client)
        if not 1 <= length <= MOST_HOST_BYTES:
            raise Refused("11 BadSize")
        self.ask_range(client, address, length, READ)
        return self.memory.read(address, length)

    def signal_change(self, client, signal, operation, change):
        """Changes a signal by a function of its value, and gives the old one."""
        self.ask_client(client)
        self.ask_right(client, ("signal", signal), CHANGE)
        self.ask_place(0)
        old = self.signals[signal]
        self.enter(f"signal {self.client_name(client)} {operation}", self.change(signal, change(old)))
        return old

    def signal_value(self, client, signal):
        self.ask_client(client)
        self.ask_right(client, ("signal", signal), WAIT)
        return self.signals[signal]

    # ---- what is listed

    def list(self, client):
        self.ask_client(client)
        found = []
        for kind in KINDS:
            for number, name in enumerate(self.policy.names(kind), 1):
                if rights := self.rights(client, (kind, number)):
                    found.append(f"{kind} {number} {name} {listed(rights)}")
        return found

    def audit(self):
        return [entry.told(number) for number, entry in enumerate(self.entries, self.before + 1)]

    def rotate(self):
        """Hands out the entries, and goes on with none."""
        found = self.audit()
        self.before += len(self.entries)
        self.entries = []
        return found
