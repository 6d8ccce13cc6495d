"""What a work-group of a kernel does: its items run one after another, each to a barrier or to its end."""
import operator
from dataclasses import dataclass, field

from model.kernel_text import Type, type_of
from model.policy import READ, WRITE

MOST_STEPS = 65536
ADDRESS, GROUP_ADDRESS, WORD, TRUTH = Type("u", 64), Type("u", 32), Type("u", 32), Type("b", 1)


class Broken(Exception):
    """An access rule that is broken."""


@dataclass
class Fault(Exception):
    """A rule that an item broke, and the line."""

    rule: str
    item: int
    line: int


@dataclass
class Dispatch:
    """What a kernel's packet brings to each of its groups."""

    kernel: object
    group_sizes: list
    grid_sizes: list
    group_segment: int
    arguments: bytes

    def counts(self):
        """How many work-groups there are in each dimension."""
        return [-(-grid // group) for grid, group in zip(self.grid_sizes, self.group_sizes)]

    def groups(self):
        x, y, z = self.counts()
        return x * y * z


@dataclass
class Item:
    """A work-item: its place in the group, its registers, and how far it is."""

    place: tuple
    registers: dict = field(default_factory=dict)
    next: int = 0
    steps: int = 0


def quotient(a, b):
    if b == 0:
        return 0
    return abs(a) // abs(b) if (a < 0) == (b < 0) else -(abs(a) // abs(b))


CALCULATIONS = {
    "mov": lambda a: a,
    "not": lambda a: ~a,
    "add": operator.add,
    "sub": operator.sub,
    "mul": operator.mul,
    "mad": lambda a, b, c: a * b + c,
    "div": quotient,
    "rem": lambda a, b: a - quotient(a, b) * b if b else 0,
    "min": min,
    "max": max,
    "and": operator.and_,
    "or": operator.or_,
    "xor": operator.xor,
    "exch": lambda a, b: b,
    "cmov": lambda a, b, c: b if a else c,
}
COMPARISONS = {"eq": operator.eq, "ne": operator.ne, "lt": operator.lt, "le": operator.le, "gt": operator.gt, "ge": operator.ge}


class Group:
    """A work-group that runs: its memory, what it has written, and its items."""

    def __init__(self, dispatch, number, view):
        self.dispatch, self.kernel, self.view = dispatch, dispatch.kernel, view
        x, y, _ = dispatch.counts()
        self.place = (number % x, number // x % y, number // x // y)
        sizes = zip(dispatch.group_sizes, dispatch.grid_sizes, self.place)
        self.sizes = [min(size, grid - size * place) for size, grid, place in sizes]
        self.memory, self.written = bytearray(dispatch.group_segment), {}
        x, y, z = self.sizes
        self.items = [Item((a, b, c)) for c in range(z) for b in range(y) for a in range(x)]
        self.steps = [self.step(it) for it in self.kernel.instructions]

    # ---- operands

    def source(self, operand, type):
        """How an item gets the number of a source."""
        if operand[0].startswith("$"):
            return lambda item: type.number(item.registers.get(operand[0], 0))
        number = type.number(int("".join(operand), 0))
        return lambda item: number

    def target(self, operand, type):
        """How a number is put into a register."""

        def put(item, number):
            item.registers[operand[0]] = type.kept(number)

        return put

    def place_of(self, operand, segment):
        """How an item gets the address of a memory operand."""
        width = ADDRESS if segment == "global" else GROUP_ADDRESS
        tokens, base, register = [it for it in operand if it not in "[]"], 0, None
        if tokens[0].startswith("%"):
            base = self.kernel.variables[tokens.pop(0)].place
        if tokens and tokens[0].startswith("$"):
            register = tokens.pop(0)
        if tokens:
            base += int("".join(tokens), 0)
        return lambda item: width.number(item.registers.get(register, 0) + base)

    # ---- memory

    def load(self, segment, address, size):
        if segment == "group":
            return self.memory[address : address + size]
        found = bytearray(self.view.bytes(address, size))
        for place in range(size):
            found[place] = self.written.get(address + place, found[place])
        return found

    def store(self, segment, address, data):
        if segment == "group":
            self.memory[address : address + len(data)] = data
        else:
            self.written.update(enumerate(data, address))

    def reach(self, segment, address, size, rights, is_atomic):
        """Holds an access against the access rules."""
        if segment == "group":
            if address + size > len(self.memory):
                raise Broken("A7")
        else:
            self.view.reach(address, size, rights)
        if is_atomic and address % size != 0:
            raise Broken("A4")

    # ---- instructions

    def step(self, it):
        """What an instruction does to an item; what it gives is the next instruction, or none for the one behind it."""
        word, *parts = it.word.split("_")
        makers = {
            "ld": self.loading, "st": self.storing, "atomic": self.atomic, "atomicnoret": self.atomic, "cmp": self.comparing,
            "cvt": self.converting, "shl": self.shifting, "shr": self.shifting, "br": self.branching, "cbr": self.branching,
            "ret": self.returning, "barrier": self.waiting, "cmov": self.choosing,
        }
        if word in CALCULATIONS and word not in makers:
            return self.calculating(word, type_of(parts[0]), it.operands)
        return makers[word](it) if word in makers else self.telling(word, type_of(parts[0]), it.operands)

    def calculating(self, word, type, operands):
        put, calculate = self.target(operands[0], type), CALCULATIONS[word]
        sources = [self.source(it, type) for it in operands[1:]]
        return lambda item: put(item, calculate(*[source(item) for source in sources]))

    def choosing(self, it):
        type = type_of(it.word.split("_")[1])
        put, truth = self.target(it.operands[0], type), self.source(it.operands[1], TRUTH)
        first, second = (self.source(operand, type) for operand in it.operands[2:])
        return lambda item: put(item, first(item) if truth(item) else second(item))

    def shifting(self, it):
        word, name = it.word.split("_")
        type = type_of(name)
        put, value, count = self.target(it.operands[0], type), self.source(it.operands[1], type), self.source(it.operands[2], WORD)
        if word == "shl":
            return lambda item: put(item, value(item) << count(item) % type.bits)
        return lambda item: put(item, value(item) >> count(item) % type.bits)

    def comparing(self, it):
        _, word, _, name = it.word.split("_")
        put, holds = self.target(it.operands[0], TRUTH), COMPARISONS[word]
        first, second = (self.source(operand, type_of(name)) for operand in it.operands[1:])
        return lambda item: put(item, holds(first(item), second(item)))

    def converting(self, it):
        _, to, of = it.word.split("_")
        put, value = self.target(it.operands[0], type_of(to)), self.source(it.operands[1], type_of(of))
        if to == "b1":
            return lambda item: put(item, value(item) != 0)
        return lambda item: put(item, value(item))

    def branching(self, it):
        label = self.kernel.labels[it.operands[-1][0]]
        if it.word == "br":
            return lambda item: label
        truth = self.source(it.operands[0], TRUTH)
        return lambda item: label if truth(item) else None

    def returning(self, it):
        return lambda item: len(self.kernel.instructions)

    def waiting(self, it):
        return lambda item: None

    def loading(self, it):
        _, segment, name = it.word.split("_")
        type = type_of(name)
        put = self.target(it.operands[0], type)
        if segment == "kernarg":
            first = self.kernel.arguments[it.operands[1][1]].place
            number = int.from_bytes(self.dispatch.arguments[first : first + type.bytes], "little")
            return lambda item: put(item, number)
        place_of = self.place_of(it.operands[1], segment)

        def load(item):
            address = place_of(item)
            self.reach(segment, address, type.bytes, [READ], False)
            put(item, int.from_bytes(self.load(segment, address, type.bytes), "little"))

        return load

    def storing(self, it):
        _, segment, name = it.word.split("_")
        type = type_of(name)
        value, place_of = self.source(it.operands[0], type), self.place_of(it.operands[1], segment)

        def store(item):
            address = place_of(item)
            self.reach(segment, address, type.bytes, [WRITE], False)
            self.store(segment, address, (value(item) % 2**type.bits).to_bytes(type.bytes, "little"))

        return store

    def atomic(self, it):
        """An atomic operation; `cas` has the expected value before the new one, and writes nothing where the old one is another."""
        name, word, segment, _, _, kind = it.word.split("_")
        operands, type = list(it.operands), type_of(kind)
        put = self.target(operands.pop(0), type) if name == "atomic" else lambda item, number: None
        place_of, sources = self.place_of(operands[0], segment), [self.source(operand, type) for operand in operands[1:]]

        def change(item):
            address, given = place_of(item), [source(item) for source in sources]
            self.reach(segment, address, type.bytes, [READ, WRITE], True)
            old = type.number(int.from_bytes(self.load(segment, address, type.bytes), "little"))
            if word != "cas" or old == given[0]:
                new = given[1] if word == "cas" else CALCULATIONS[word](old, given[0])
                self.store(segment, address, (new % 2**type.bits).to_bytes(type.bytes, "little"))
            put(item, old)

        return change

    def telling(self, word, type, operands):
        """An instruction that tells where an item is."""
        put, k = self.target(operands[0], type), int(operands[1][0], 0)
        size, group = self.dispatch.group_sizes[k], self.place[k]
        return {
            "workitemid": lambda item: put(item, item.place[k]),
            "workgroupid": lambda item: put(item, group),
            "workgroupsize": lambda item: put(item, size),
            "currentworkgroupsize": lambda item: put(item, self.sizes[k]),
            "workitemabsid": lambda item: put(item, group * size + item.place[k]),
            "gridsize": lambda item: put(item, self.dispatch.grid_sizes[k]),
        }[word]

    # ---- the run

    def run_item(self, number, item):
        """Runs an item to a barrier, which it then has behind it, or to its end."""
        instructions, end = self.kernel.instructions, len(self.steps)
        while item.next < end:
            at = item.next
            if item.steps == MOST_STEPS:
                raise Fault("A5", number, instructions[at].line)
            item.steps += 1
            try:
                to = self.steps[at](item)
            except Broken as broken:
                raise Fault(str(broken), number, instructions[at].line) from None
            item.next = at + 1 if to is None else to
            if instructions[at].word == "barrier":
                return at
        return None

    def run(self):
        """Runs the group, and gives what it wrote, by addresses."""
        while True:
            stands = [self.run_item(number, item) for number, item in enumerate(self.items)]
            if stands == [None] * len(stands):
                return self.written
            if stands != [stands[0]] * len(stands):
                least = next(number for number, at in enumerate(stands) if at is not None)
                raise Fault("A6", least, self.kernel.instructions[stands[least]].line)


def runs(written):
    """The maximal runs of written addresses, ascending, each with its bytes."""
    found = []
    for address in sorted(written):
        if found and address == found[-1][0] + len(found[-1][1]):
            found[-1][1].append(written[address])
        else:
            found.append((address, bytearray([written[address]])))
    return found
