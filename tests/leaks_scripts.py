"""Scripts made at random that a broker takes far: over one policy, from a seed alone, each line of a form."""
import functools
import random

from trial import TOP

# names of the policy `every.toml`: what each kind of object has
NAMES = {
    "agent": ["gpu", "dsp", "npu", "dma"],
    "region": ["buf", "args", "byte"],
    "signal": ["done", "go", "least", "most"],
    "kernel": ["inc", "two", "meet", "count", "none"],
}
RIGHTS = {"agent": ["USE"], "region": ["READ", "WRITE"], "signal": ["WAIT", "CHANGE"], "kernel": ["LAUNCH"]}
# addresses that are the last of a region, or far from all
FAR = [0, 1, 7, 2**31, 2**32 - 1, 2**32 + 63, 2**32 + 64, 2**33 + 39, 2**34 - 1, 2**34, 2**34 + 1, 2**63, 2**64 - 1]
DENIED = """[[deny]]
client = "alice"
kind = "region"
object = "buf"
rights = ["WRITE"]
[[deny]]
client = "*"
kind = "signal"
object = "go"
rights = ["WAIT"]
"""


@functools.cache
def policies():
    """The texts of the policy that scripts run over, and of the further ones."""
    with open(f"{TOP}/cases/every.toml", encoding="utf-8") as file:
        first = file.read()
    others = [first + DENIED, first.replace('rights = ["READ"]', 'rights = ["READ", "WRITE"]'), first.replace("length = 64", "length = 65")]
    return [it.encode() for it in [first, *others]]


class Maker:
    """What makes a script: some luck, and the right broker, which has run it so far."""

    def __init__(self, seed, script, run):
        self.luck, self.script, self.run = random.Random(seed), script, run
        self.lines, self.replies = [], []

    def add(self, line):
        """Adds a line, and has it run."""
        self.lines.append(line)
        self.replies.append(self.script.reply_to(self.run, line))

    def of(self, *given):
        return self.luck.choice(given)

    def seldom(self, part=0.04):
        return self.luck.random() < part

    def client(self):
        return self.of("alice", "alice", "alice", "alice", "alice", "bob", "carol") if not self.seldom() else "nobody"

    def queue(self):
        """A queue, mostly one that still launches."""
        queues = self.run.broker.queues
        if not queues or self.seldom(0.03):
            return self.of(0, self.luck.randint(1, self.run.broker.opened + 1), 2**64 - 1)
        up = [number for number, it in queues.items() if not it.has_error and not it.is_stopped]
        return self.luck.choice(up if up and not self.seldom(0.15) else list(queues))

    def among(self, is_fit):
        """A queue that something is true of, if there is one."""
        fit = [number for number, it in self.run.broker.queues.items() if is_fit(it)]
        return self.luck.choice(fit) if fit and not self.seldom() else self.queue()

    def packet_id(self, queue):
        flights = list(getattr(self.run.broker.queues.get(queue), "flights", ()))
        return self.luck.choice(flights) if flights and not self.seldom(0.08) else self.luck.randint(0, 4)

    def ticket(self, queue):
        """A producer and a ticket, mostly of that producer."""
        ring = getattr(self.run.broker.queues.get(queue), "ring", None)
        if ring and ring.tickets and not self.seldom(0.15):
            return "{} {}".format(*self.luck.choice(list(ring.tickets)))
        return f"{self.seat()} {self.luck.randint(0, 4)}"

    def seat(self):
        return self.of(1, 1, 2, 2) if not self.seldom(0.05) else self.of(0, 3, 17)

    def address(self):
        region = self.of(1, 1, 1, 1, 2) if not self.seldom(0.1) else 3
        return self.of(*FAR) if self.seldom(0.05) else region * 2**32 + (self.of(0, 0, 8, 16, 24, 32) if not self.seldom(0.2) else self.luck.randrange(66))

    def value(self):
        return self.of(0, 0, 1, -1, 5, 2**63 - 1, -(2**63), self.luck.randrange(-9, 9))

    def thing(self):
        kind = self.of(*RIGHTS)
        name = self.of(*NAMES[kind]) if not self.seldom() else "nothing"
        return kind, name, self.rights(kind)

    def rights(self, kind):
        luck = self.luck.random()
        if luck < 0.05:
            return self.of("-", "USE", "READ,CHANGE", "LAUNCH")
        return ",".join(self.luck.sample(RIGHTS[kind], self.luck.randint(1, len(RIGHTS[kind]))))

    # ---- packets

    def head(self, type, setup):
        header = type + 256 * self.of(0x14, 0x14, 0, 0x14, 0x15, 0x0A)
        if self.seldom(0.02):
            header ^= 1 << self.luck.randrange(16)
        return header.to_bytes(2, "little") + setup.to_bytes(2, "little")

    def completion(self):
        return (self.of(0, 0, 1, 1, 2, 3, 4) if not self.seldom() else 5).to_bytes(8, "little")

    def wide(self, *numbers):
        return b"".join(it.to_bytes(8, "little") for it in numbers)

    def packet(self):
        made = self.of(self.kernel, self.kernel, self.agent, self.agent, self.barrier)()
        if self.seldom(0.05):
            place = self.luck.randrange(512)
            made = (int.from_bytes(made, "little") ^ (1 << place)).to_bytes(64, "little")
        return made.hex()

    def kernel(self):
        dimensions = self.of(1, 1, 1, 2, 3)
        group = [self.of(1, 2, 3), self.of(1, 2) if dimensions > 1 else 1, 1]
        grid = [self.of(1, 2, 3, 4, 8), self.of(1, 2, 3) if dimensions > 1 else 1, self.of(1, 2) if dimensions > 2 else 1]
        if not self.seldom():
            grid = [max(pair) for pair in zip(grid, group)]
        sizes = b"".join(it.to_bytes(2, "little") for it in [*group, 0]) + b"".join(it.to_bytes(4, "little") for it in grid)
        segments = (0 if not self.seldom() else self.of(65536, 65537)).to_bytes(4, "little") + (16 if not self.seldom() else self.of(0, 15, 24, 65536, 65537)).to_bytes(4, "little")
        block = self.of(2**33, 2**33, 2**33 + 8, 2**33 + 8) if not self.seldom(0.1) else self.of(2**33 + 16, 2**33 + 32, 2**32, self.address())
        return self.head(2, dimensions) + sizes + segments + self.wide(self.of(1, 1, 2, 2, 3, 4, 5) if not self.seldom() else 6, block, 0) + self.completion()

    def agent(self):
        function = self.of(0x8000, 0x8001, 0x8002) if not self.seldom() else 0x8003
        length = self.of(0, 1, 4, 8) if not self.seldom(0.1) else self.of(33, 64, 65)
        back = self.of(0, 0, self.address())
        given = {0x8001: [self.address(), self.address(), length]}.get(function, [self.address(), length, self.luck.randrange(600)])
        return self.head(4, function) + bytes(4) + self.wide(back, *given, self.of(0, 9), 0) + self.completion()

    def barrier(self):
        signals = [self.of(0, 0, 0, 1, 2, 3, 4) for _ in range(5)]
        return self.head(self.of(3, 5), 0) + bytes(4) + self.wide(*signals, 0) + self.completion()

    # ---- lines

    def grant(self):
        kind, name, rights = self.thing()
        verb = self.of("grant", "revoke") if self.seldom(0.6) else "grant"
        return f"{verb} {self.client()} {kind} {name} {rights}"

    def open(self):
        agent = self.of("gpu", "gpu", "gpu", "gpu", "dsp", "npu", "dma", "nothing")
        size = self.of(2, 4, 4, 16, 16) if not self.seldom(0.1) else self.of(0, 1, 3, 4096, 6, 8192)
        return f"queue {self.of('alice', 'alice', self.client())} {agent} {size} {2 if not self.seldom(0.1) else self.of(0, 1, 16, 17)}"

    def submit(self):
        return f"submit {self.queue()} {self.seat()} {self.packet()}"

    def serve(self):
        return f"serve {self.among(lambda it: it.ring.write > it.ring.read and not it.has_error and not it.is_stopped)}"

    def step(self):
        queue = self.queue()
        return self.of(
            f"reserve {queue} {self.seat()}", f"room {queue} {self.ticket(queue)}",
            f"word {queue} {self.ticket(queue)} {self.luck.randrange(9)} {self.packet()[:16]}",
            f"publish {queue} {self.ticket(queue)} {self.packet()}", f"publish {queue} {self.ticket(queue)} {self.packet()}", f"look {queue}",
            f"part {queue} {self.luck.randrange(9)}", f"peek {queue}", f"peek {queue}", f"take {queue}", f"clear {queue}", f"advance {queue}",
            f"retire {queue}",
        )

    def work(self):
        queue = self.among(lambda it: it.flights)
        packet = self.packet_id(queue)
        flight = getattr(self.run.broker.queues.get(queue), "flights", {}).get(packet)
        if not flight or self.seldom():
            return f"{self.of('run', 'finish', 'poll')} {queue} {packet}"
        likely = "finish" if flight.is_done() else "poll" if flight.packet.is_barrier else "run"
        return f"{likely if not self.seldom(0.1) else self.of('run', 'finish', 'poll')} {queue} {packet}"

    def host(self):
        address, client = f"{self.address():016x}", self.client()
        if self.luck.random() < 0.4:
            return f"read {client} {address} {self.of(1, 4, 8, 16, 40, 64, 65, 0, 65536, 65537)}"
        if self.luck.random() < 0.5:
            return f"write alice 0000000200000000 {self.wide(*(self.address() for _ in range(self.of(1, 3, 5)))).hex()}"
        return f"write {client} {address} {self.luck.randbytes(self.of(1, 4, 8, 16, 64, 65)).hex()}"

    def signal(self):
        client, name = self.client(), self.of(*NAMES["signal"], "done", "go") if not self.seldom() else "nothing"
        operation = self.of("store", "store", "add", "subtract", "and", "or", "xor", "exchange")
        return self.of(
            f"signal {client} {name} {operation} {self.value()}", f"signal {client} {name} cas {self.value()} {self.value()}",
            f"load {client} {name}", f"test {client} {name} {self.of('EQ', 'NE', 'LT', 'GTE')} {self.value()}", f"signal alice {name} store 0",
        )

    def told(self):
        return self.of("audit", f"list {self.client()}", f"errors {self.queue()}", "rotate", f"stop {self.queue()}", f"close {self.queue()}", f"reload {self.luck.randint(1, 3)}")

    def line(self):
        queues = self.run.broker.queues.values()
        flies, waits = any(it.flights for it in queues), any(it.ring.write > it.ring.read and not it.has_error and not it.is_stopped for it in queues)
        likely = [
            (self.grant, 3), (self.open, 1 if any(not it.has_error and not it.is_stopped for it in queues) else 9), (self.submit, 8), (self.serve, 14 if waits else 1),
            (self.step, 3), (self.work, 12 if flies else 1), (self.host, 4), (self.signal, 3), (self.told, 1),
        ]
        made, weights = zip(*likely)
        return self.luck.choices(made, weights)[0]()

    def begin(self):
        """Grants and a queue, so that there is something to lose."""
        for kind in RIGHTS:
            for name in NAMES[kind]:
                if not self.seldom(0.05):
                    self.add(f"grant alice {kind} {name} {','.join(RIGHTS[kind])}")
        block = [self.of(2**32, 2**32 + 8, 2**32 + 16, self.address()) for _ in range(5)]
        self.add(f"write alice 0000000200000000 {self.wide(*block).hex()}")
        self.add(f"queue alice gpu {self.of(2, 4, 16)} 2")

    def end(self):
        """Questions after all."""
        for line in ("audit", *(f"errors {number}" for number in self.run.broker.queues), "list alice", "read alice 0000000100000000 64"):
            self.add(line)


def made_script(seed, script, broker):
    """A script of a seed, how many places its audit has, and its replies; `broker` makes a right broker of so many places."""
    places = random.Random(f"places {seed}").choice([65536, 65536, 65536, 24, 30, 40])
    maker = Maker(seed, script, broker(places))
    maker.begin()
    for _ in range(maker.of(12, 25, 40)):
        maker.add(maker.line())
    maker.end()
    return maker.lines, places, maker.replies
