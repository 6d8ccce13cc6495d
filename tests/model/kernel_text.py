"""Kernel texts without a fault of their syntax: what their kernels declare, and their instructions."""
import functools
import re
from dataclasses import dataclass, field

TOKEN = re.compile(
    r"(?P<blank>\s+|//[^\n]*|/\*.*?\*/)|(?P<token>\$[a-z]+\d*|[&%@][A-Za-z_]\w*|0x[0-9a-fA-F]+|\d+|[A-Za-z_]\w*(?:\([^()]*\)\w*)*|[(){}\[\],;:+-])",
    re.DOTALL | re.ASCII,
)
MODIFIER = re.compile(r"_?(?:align|width)\([^()]*\)")


class KernelFault(Exception):
    """A module with a fault, told by its text."""


@dataclass(frozen=True)
class Type:
    """A type of values: unsigned, signed or bits, and how wide."""

    letter: str
    bits: int

    @property
    def bytes(self):
        return self.bits // 8

    @property
    def register(self):
        """How wide the register is that keeps its values."""
        return 32 if 1 < self.bits < 32 else self.bits

    def number(self, raw):
        """The number that the low bits of a register are."""
        low = raw % 2**self.bits
        return low - 2**self.bits if self.letter == "s" and low >= 2 ** (self.bits - 1) else low

    def kept(self, number):
        """What a register keeps of a number: its low bits, extended as the type says."""
        return self.number(number) % 2**self.register


def type_of(name):
    return Type(name[0], int(name[1:]))


@dataclass
class Variable:
    """An argument or a group variable: where it lies."""

    place: int
    type: Type


@dataclass
class Instruction:
    """An instruction: its word without modifiers, its operands and its line."""

    word: str
    operands: list
    line: int


@dataclass
class Kernel:
    """A kernel: the bytes of its arguments and group variables, and its instructions."""

    name: str
    arguments: dict = field(default_factory=dict)
    argument_bytes: int = 0
    variables: dict = field(default_factory=dict)
    group_bytes: int = 0
    labels: dict = field(default_factory=dict)
    instructions: list = field(default_factory=list)

    def wide_arguments(self):
        """The places of the arguments of 64 bits."""
        return [it.place for it in self.arguments.values() if it.type.bits == 64]


def laid(end, type, align):
    """Where a variable lies behind what ends there."""
    step = max(type.bytes, align)
    return -(-end // step) * step


class Reader:
    """The tokens of a text, each with its line, and how far they are read."""

    def __init__(self, text):
        self.tokens, self.at, line, place = [], 0, 1, 0
        while place < len(text):
            found = TOKEN.match(text, place)
            if not found:
                raise KernelFault("another lexeme than these cases have")
            if found["token"]:
                self.tokens.append((found["token"], line))
            line += found[0].count("\n")
            place = found.end()

    def ahead(self):
        return self.tokens[self.at][0] if self.at < len(self.tokens) else ""

    def take(self):
        self.at += 1
        return self.tokens[self.at - 1][0]

    def takes(self, token):
        """Whether a token stands here, which is then read."""
        found = self.ahead() == token
        self.at += found
        return found

    def align(self):
        """The number of an `align(n)` that stands here, or 1."""
        found = re.fullmatch(r"align\((.*)\)", self.ahead())
        return int(self.take() and found[1], 0) if found else 1

    def kernels(self):
        """The kernels of a module."""
        found = []
        while self.take() != ";":
            pass
        while self.ahead():
            self.takes("prog")
            self.take()
            found.append(self.kernel(Kernel(self.take())))
            self.takes(";")
        return found

    def kernel(self, kernel):
        self.take()
        while not self.takes(")"):
            align = self.align()
            type = type_of(self.take().split("_")[1])
            place = laid(kernel.argument_bytes, type, align)
            kernel.arguments[self.take()] = Variable(place, type)
            kernel.argument_bytes = place + type.bytes
            self.takes(",")
        self.take()
        while not self.takes("}"):
            self.item(kernel)
        return kernel

    def item(self, kernel):
        align, (word, line) = self.align(), self.tokens[self.at]
        self.take()
        if word.startswith("@"):
            kernel.labels[word] = len(kernel.instructions)
            self.take()
        elif re.fullmatch(r"group_[usb]\d+", word):
            self.variable(kernel, type_of(word.split("_")[1]), align)
        else:
            kernel.instructions.append(Instruction(MODIFIER.sub("", word), self.operands(), line))

    def variable(self, kernel, type, align):
        name, count = self.take(), 1
        if self.takes("["):
            count = int(self.take(), 0)
            self.take()
        self.take()
        place = laid(kernel.group_bytes, type, align)
        kernel.variables[name] = Variable(place, type)
        kernel.group_bytes = place + count * type.bytes

    def operands(self):
        """The operands of an instruction up to its semicolon, each a list of tokens; those in brackets stand as one."""
        operands = [[]]
        while not self.takes(";"):
            if self.takes(","):
                operands.append([])
            else:
                operands[-1].append(self.take())
        return operands


@functools.lru_cache(maxsize=None)
def read_kernels(text):
    """The kernels of a text; a branch to a label that isn't there is the one fault of a check that these cases have."""
    kernels = Reader(text).kernels()
    for kernel in kernels:
        for it in kernel.instructions:
            if it.word in ("br", "cbr_b1") and it.operands[-1][0] not in kernel.labels:
                raise KernelFault(f"check 1 line {it.line}")
    return kernels
