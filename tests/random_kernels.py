"""Kernels made at random from the table of instructions, with the packets that launch them, each from its seed alone.

An instruction has any of its types, and registers or constants at each of its places. Behind the instructions stand stores of
the registers that they name most. Most kernels keep the rules of accesses; some have lines that may break one, and a fiftieth
ends near the end of an item's budget."""
import random
import struct
from dataclasses import dataclass
from math import prod

from instruction_rows import rows
from model.kernel_text import read_kernels, type_of

# the regions of the policy: numbers that kernels work on, their arguments, two that lack a right, one whose end is near, and one
# that no client may touch
WORDS, ARGUMENTS, READABLE, WRITABLE, NEAR, CLOSED = (it << 32 for it in range(1, 7))
LENGTHS = (1 << 18, 256, 64, 64, 64, 64)
POINTERS = {"words": WORDS + 64, "readable": READABLE, "writable": WRITABLE, "near": NEAR + 40}
OTHERS = {"a8": "u8", "b8": "b8", "a16": "s16", "b16": "u16", "a32": "b32", "b32": "s32", "a64": "b64"}
VARIABLES = "group_u8 %small[3];\n  align(16) group_u64 %g[24];"
# registers that the lines made at random don't set: where an item's numbers lie, a place in group memory, and the arguments
OWN, PLACE, READ_ONLY, WRITTEN_ONLY, ENDING = "$d60", "$s60", "$d58", "$d57", "$d56"
# how often a loop goes round, whether it does once more, and what parts the items of a group
TURNS, GOES_ON, PARTS = "$s61", "$c60", "$c61"
OFFSETS = (0, 1, 2, 4, 8, 16, 24, 56, 60, 61, 62, 63, 100, 120, 8120, 8124, 8184, 8190)
STRIDES = (64, 72, 200, 1024, 16384)
SMALL = (0, 1, 2, 7, 31, 32, 33, 63, 64, 255, 256, 65535)
BUDGET = 65536
CLASSES = {1: "$c", 32: "$s", 64: "$d"}
ORDERS, SCOPES, WIDTHS = ("rlx", "scacq", "screl", "scar"), ("wave", "wg", "agent", "system"), ("all", "WAVESIZE", "64")
ACCESSES = ("ld", "st", "atomic", "atomicnoret")


def rows_of(head):
    """The rows whose stem begins with a word."""
    return [it for it in rows() if it.stem.split("_")[0] == head]


# the words that rows begin with, and the rows of each; of some words there are many rows
ROWS = {head: rows_of(head) for head in dict.fromkeys(it.stem.split("_")[0] for it in rows())}
HEADS = [*ROWS, "cmp", "cmp", "cvt", "cvt", "atomic"]


class Maker:
    """Makes the lines of one kernel."""

    def __init__(self, chance):
        self.chance, self.labels = chance, 0
        self.is_risky, self.may_part = chance.random() < 0.3, chance.random() < 0.15

    def likely(self, share):
        return self.chance.random() < share

    # ---- operands

    def number(self, bits):
        """A number that a constant of so many bits may be: a small one, one near an end, or any."""
        if bits == 1:
            return self.chance.randrange(2)
        ends = (-1, -2, -(2 ** (bits - 1)), 2 ** (bits - 1) - 1, 2 ** (bits - 1), 2**bits - 1)
        return self.chance.choice((self.chance.choice(SMALL) % 2**bits, self.chance.choice(ends), self.chance.randrange(2**bits)))

    def constant(self, bits):
        """A constant in digits of either base, with a sign where it needs one, and else now and then."""
        number = self.number(bits)
        sign = "-" if number < 0 else "+" if self.likely(0.05) else ""
        return sign + (f"{abs(number):#x}" if self.likely(0.15) else str(abs(number)))

    def register(self, bits):
        return f"{CLASSES[bits]}{self.chance.randrange(4 if self.likely(0.97) else 56)}"

    def source(self, type):
        return self.constant(type.bits) if self.likely(0.3) else self.register(type.register)

    def argument(self, bits):
        """An argument of so many bits."""
        return self.chance.choice([name for name, type in OTHERS.items() if type_of(type).bits == bits] + [*POINTERS] * (bits == 64))

    def behind(self, register, number, bits):
        """A place so many bytes behind a register; one that lies before it goes round the end of all addresses now and then."""
        if number < 0 and self.likely(0.7):
            return f"{register}-{-number}"
        return f"{register}+{number % 2**bits}" if number else register

    def global_place(self, step):
        """A place among the numbers of an item, a multiple of a step away from their begin; or at a number."""
        if self.likely(0.05):
            return f"[{WORDS + self.chance.randrange(4096) // step * step}]"
        number = self.chance.choice(OFFSETS) if self.likely(0.9) else -self.chance.randrange(64)
        return f"[{self.behind(OWN, number // step * step, 64)}]"

    def group_place(self, step):
        """A place in group memory: from a variable on, at a register, or at a number."""
        number, before = self.chance.randrange(100) // step * step, -(self.chance.randrange(16) // step * step)
        near = self.behind(PLACE, self.chance.choice((number, before)), 32)
        round = number + 2**32 * self.chance.randrange(2)
        return self.chance.choice(("[%g]", f"[%g][{number}]", f"[%g][{PLACE}]", f"[%g][{near}]", f"[{near}]", f"[{PLACE}]", f"[{round}]", f"[%small][{number}]"))

    def place(self, segment, type, is_atomic):
        """A place in a segment; for an atomic operation one of its alignment."""
        if segment == "kernarg":
            return f"[%{self.argument(type.bits)}]"
        step = type.bytes if is_atomic else 1
        return self.global_place(step) if segment == "global" else self.group_place(step)

    # ---- instructions

    def word(self, row, type):
        """A word of a row, with modifiers."""
        further = ""
        if row.modifiers == "OrderAndScope":
            further = f"_{self.chance.choice(ORDERS)}_{self.chance.choice(SCOPES)}"
        elif row.modifiers != "Plain" and self.likely(0.2):
            further = "_align(4)" if row.modifiers.startswith("Align") else f"_width({self.chance.choice(WIDTHS)})"
        return row.stem + further + (f"_{type}" if type else "")

    def operand(self, it, row, name, place):
        """What stands at a place of a row's operands, behind a word of a type."""
        type = type_of(it.of if it.role in ("source", "target") and it.of else name)
        if it.role == "address":
            return place or self.place(it.of, type, row.stem.startswith("atomic"))
        if it.role == "dimension":
            return str(self.chance.randrange(3))
        return self.register(type.register) if it.role == "target" else self.source(type)

    def instruction(self, row, place=""):
        """An instruction of a row, at any of its types; its address may be given."""
        name = self.chance.choice(row.types)
        return f"{self.word(row, name)} {', '.join(self.operand(it, row, name, place) for it in row.operands)};"

    def branch(self, head, lines=("add_u32 $s0, $s0, 77;",), truth=""):
        """A branch over some lines."""
        self.labels += 1
        label, row = f"@l{self.labels}", ROWS[head][0]
        truth = f" {truth or self.source(type_of('b1'))}," if head == "cbr" else ""
        return [f"{self.word(row, ''.join(row.types))}{truth} {label};", *lines, f"{label}:"]

    def waiting_or_ending(self, head):
        """A barrier at which all items meet; or one, or an end, that only some come to."""
        line = f"{self.word(ROWS[head][0], '')};"
        if self.may_part and self.likely(0.5):
            return self.branch("cbr", [line], PARTS)
        return [line] if head == "barrier" else self.branch("cbr", [line], "1")

    def risky(self):
        """An access that may break a rule."""
        segment = self.chance.choice(("global", "group"))
        row = self.chance.choice([it for it in ROWS[self.chance.choice(ACCESSES)] if it.stem.endswith(segment)])
        near = f"[{ENDING}+{self.chance.randrange(28)}]"
        places = {
            "global": (f"[{self.register(64)}]", f"[{CLOSED + 8}]", f"[{WORDS + LENGTHS[0] - 2}]", f"[{READ_ONLY}]", f"[{WRITTEN_ONLY}]", near, f"[{OWN}+4]", f"[{ENDING}+20]"),
            "group": (f"[{PLACE}+2]", f"[{PLACE}+{184 - self.chance.choice((1, 2, 4, 8)) + self.chance.choice((0, 1, 8, 9))}]"),
        }
        return self.instruction(row, self.chance.choice(places[segment]))

    def lines(self):
        """An instruction of any row, with what it wants around it."""
        head = self.chance.choice(HEADS)
        if head in ("br", "cbr"):
            return self.branch(head)
        if head in ("ret", "barrier"):
            return self.waiting_or_ending(head)
        return [self.instruction(self.chance.choice(ROWS[head]))]

    def body(self):
        """The lines in the midst, now and then in a loop."""
        parts = [self.lines() for _ in range(self.chance.randrange(8, 50))]
        if self.is_risky:
            parts[self.chance.randrange(len(parts))] = [*self.branch("cbr", [self.risky(), self.risky()]), self.risky()]
        found = [line for part in parts for line in part]
        if self.likely(0.2):
            turn = [f"sub_u32 {TURNS}, {TURNS}, 1;", f"cmp_gt_b1_s32 {GOES_ON}, {TURNS}, 0;", f"cbr_b1 {GOES_ON}, @turn;"]
            found = [f"mov_b32 {TURNS}, {self.chance.randrange(5)};", "@turn:", *found, *turn]
        return found

    def spending(self, others):
        """Lines that with so many others take an item to the end of its budget, or a step or two past it."""
        turns, left = divmod(BUDGET + self.chance.randint(-1, 2) - others - 1, 4)
        count = [f"sub_u32 {TURNS}, {TURNS}, 1;", f"xor_b32 $s0, $s0, {TURNS};", f"cmp_ne_b1_u32 {GOES_ON}, {TURNS}, 0;", f"cbr_b1 {GOES_ON}, @turn;"]
        return [f"mov_b32 {TURNS}, {turns};", "@turn:", *count, *["add_u32 $s0, $s0, 1;"] * left]

    def begin(self, dimensions):
        """An item's own places: its numbers, one in group memory, and the arguments that are addresses; and numbers to begin with."""
        stride = self.chance.choice(STRIDES if dimensions == 1 else STRIDES[:4])
        found = [
            f"ld_kernarg_u64 {OWN}, [%words];", "workitemabsid_u64 $d1, 2;", "workitemabsid_u64 $d0, 1;", "mad_u64 $d1, $d1, 4, $d0;",
            "workitemabsid_u64 $d0, 0;", "mad_u64 $d1, $d1, 4, $d0;", f"mad_u64 {OWN}, $d1, {stride}, {OWN};", f"workitemid_u32 {PLACE}, 0;",
            f"cmp_ge_b1_u32 {PARTS}, {PLACE}, {self.chance.randint(1, 3)};", f"and_b32 {PLACE}, {PLACE}, 1;", f"mad_u32 {PLACE}, {PLACE}, 8, 16;",
            f"ld_kernarg_u64 {READ_ONLY}, [%readable];", f"ld_kernarg_u64 {WRITTEN_ONLY}, [%writable];", f"ld_kernarg_u64 {ENDING}, [%near];",
        ]
        for it, bits in enumerate((32, 8, 16, 32)):
            found += [f"ld_global_s{bits} $s{it}, [{OWN}+{4 * it}];", f"ld_global_u64 $d{it}, [{OWN}+{32 + 8 * it}];"]
        return found

    def end(self):
        """Stores of the registers that the lines name most."""
        found = []
        for it in range(4):
            found += [f"st_global_u32 $s{it}, [{OWN}+{200 + 4 * it}];", f"st_global_u64 $d{it}, [{OWN}+{216 + 8 * it}];"]
            found += [f"cvt_u32_b1 {TURNS}, $c{it};", f"st_global_u32 {TURNS}, [{OWN}+{248 + 4 * it}];"]
        return found + ["ret;"] * self.chance.randrange(2)

    # ---- texts

    def arguments(self):
        """The arguments in any order, some at places of an alignment."""
        found = [*((name, "u64") for name in POINTERS), *OTHERS.items()]
        self.chance.shuffle(found)
        align = lambda: f"align({self.chance.choice((1, 2, 4, 8, 16))}) " if self.likely(0.2) else ""
        return ", ".join(f"{align()}kernarg_{type} %{name}" for name, type in found)

    def spelled(self, lines):
        """Lines with comments and blanks now and then."""
        further = lambda: self.chance.choice(("\t", " // a remark", " /* two\n lines */", "\n")) if self.likely(0.05) else ""
        return "".join(f"  {line}{further()}\n" for line in lines)

    def text(self, lines):
        """A module of one kernel."""
        head = f"module &m:1:{self.chance.randrange(3)}:$full:$large:$default;\n{self.chance.choice(('', 'prog '))}kernel &k({self.arguments()})\n"
        return f"{head}{{\n{self.spelled([VARIABLES, *lines])}{self.chance.choice(('}', '};'))}\n"


def sizes(chance, dimensions, most):
    """The sizes of a group, at most so many items in each dimension, and of a grid, whose last groups may be cut off."""
    group = [chance.randint(1, most) if it < dimensions else 1 for it in range(3)]
    return group, [size + chance.randint(0, size) if it < dimensions else 1 for it, size in enumerate(group)]


class Made:
    """The kernel of a seed, with its packet and what lies in memory before."""

    def __init__(self, seed):
        chance = random.Random(seed)
        maker, dimensions, spends = Maker(chance), chance.choice((1, 1, 1, 2, 3)), seed % 50 == 10
        group, grid = sizes(chance, dimensions, 1 if spends else 6 if dimensions == 1 else 2)
        first, last = maker.begin(dimensions), maker.end()
        self.seed, self.text = seed, maker.text(first + (maker.spending(len(first + last)) if spends else maker.body()) + last)
        self.front = struct.pack("<HHHHHHIII", 0x1402, dimensions, *group, 0, *grid)
        self.groups = prod(-(-whole // size) for size, whole in zip(group, grid))
        kernel = read_kernels(self.text)[0]
        self.group_segment = kernel.group_bytes + chance.choice((0, 0, 0, 1, 8))
        self.block, self.memory = self.argument_block(kernel, chance), chance.randbytes(1024)

    def argument_block(self, kernel, chance):
        """The kernel's arguments: the addresses, and any bytes elsewhere."""
        found = bytearray(chance.randbytes(kernel.argument_bytes))
        for name, address in POINTERS.items():
            place = kernel.arguments[f"%{name}"].place
            found[place : place + 8] = address.to_bytes(8, "little")
        return found

    def packet(self, number):
        return self.front + struct.pack("<IIQQQQ", 0, self.group_segment, number, ARGUMENTS, 0, 0)

    def launch(self, number):
        """The lines that launch the kernel of this number on a queue of its own, run its groups, and read what they left."""
        before = ((POINTERS["words"], self.memory), (NEAR, self.memory[:64]), (ARGUMENTS, self.block))
        found = [f"write nora {address:016x} {data.hex()}" for address, data in before]
        found += ["queue nora mixer 2 1", f"submit {number} 1 {self.packet(number).hex()}", f"serve {number}"]
        found += [f"run {number} 0"] * (self.groups + 1) + [f"finish {number} 0"]
        return found + [f"read nora {WORDS:016x} 2048", f"read nora {NEAR:016x} 64"]


def policy(kernels):
    """A policy of one client, an agent, the regions, and the kernels, that allows all of it."""
    tables = ['[[client]]\nname = "nora"', '[[agent]]\nname = "mixer"\ntakes = ["kernel"]']
    tables += [f'[[region]]\nname = "r{number}"\nlength = {length}' for number, length in enumerate(LENGTHS, 1)]
    tables += [f"[[kernel]]\nname = \"k{it.seed}\"\nentry = \"&k\"\ntext = '''\n{it.text}'''" for it in kernels]
    kinds = (("agent", '"USE"'), ("region", '"READ", "WRITE"'), ("kernel", '"LAUNCH"'))
    tables += [f'[[allow]]\nclient = "nora"\nkind = "{kind}"\nobject = "*"\nrights = [{rights}]' for kind, rights in kinds]
    return "\n".join(tables) + "\n"


def rights(kernels):
    """The grants before all kernels: of two regions one right, and of the last none."""
    found = ["grant nora agent mixer USE", *(f"grant nora region r{number} READ,WRITE" for number in range(1, 6))]
    found += [f"write nora {READABLE:016x} {bytes(range(64)).hex()}", "revoke nora region r3 WRITE", "revoke nora region r4 READ"]
    return found + [f"grant nora kernel k{it.seed} LAUNCH" for it in kernels]
