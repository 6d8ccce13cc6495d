#!/usr/bin/env python3
"""Writes the cases of packets of which one bit is turned over: turned_bits.py KIND > cases/turned_KIND.case

KIND is fill, kernel, barrier_and or barrier_or. What is wanted of each of the 512 packets is reckoned here from the
layout of packets, the launch rules and the effects of packets (docs/aql_packets.md, docs/kernels.md,
docs/barriers.md), and from no code of the broker. Each case stands behind cases/prelude.script: Alice has
USE on `gpu`, READ and WRITE on `buf` (64 bytes from 2^32) and `args` (16 bytes from 2 * 2^32), WAIT and CHANGE on
`done` (1) and `go` (2), both 1 at first, and LAUNCH on `inc` (1), but not on `spin` (2).
"""
import struct
import sys

BUF, ARGS = 1 << 32, 2 << 32
LENGTHS = {BUF: 64, ARGS: 16}
REFUSED = "refused 8 NotInFlight"


class Denied(Exception):
    pass


def want(holds, rule):
    if not holds:
        raise Denied(rule)


def number(packet, begin, end):
    return int.from_bytes(packet[begin:end], "little")


def is_whole(address, length):
    """Whether a range lies in one region as a whole."""
    return any(begin <= address and address + length <= begin + LENGTHS[begin] for begin in LENGTHS)


class Broker:
    """What a packet may change: the memory and the signals."""

    def __init__(self):
        self.memory = {begin: bytearray(length) for begin, length in LENGTHS.items()}
        self.signals = {1: 1, 2: 1}

    def place(self, address):
        begin = BUF if address < ARGS else ARGS
        return self.memory[begin], address - begin

    def write(self, address, bytes):
        if bytes:
            memory, at = self.place(address)
            memory[at : at + len(bytes)] = bytes

    def read(self, address, length):
        memory, at = self.place(address)
        return bytes(memory[at : at + length])

    def finish(self, signal):
        if signal:
            self.signals[signal] -= 1


def header_is_well(packet):
    """The rules L1 and L2: the type, the reserved bits and the scopes of the header."""
    kind, header = packet[0], number(packet, 0, 2)
    want(kind in (2, 3, 4, 5), "L1")
    want(header >> 13 == 0 and header >> 9 & 3 != 3 and header >> 11 & 3 != 3, "L2")
    return kind


def reserved_is_zero(packet, kind):
    """The rule L3."""
    reserved = {2: [(10, 12), (48, 56)], 4: [(4, 8), (48, 56)], 3: [(2, 8), (48, 56)], 5: [(2, 8), (48, 56)]}
    want(all(number(packet, *part) == 0 for part in reserved[kind]), "L3")
    want(kind != 2 or number(packet, 2, 4) >> 2 == 0, "L3")


def completion(packet):
    """The rule L10."""
    signal = number(packet, 56, 64)
    want(signal in (0, 1, 2), "L10")
    return signal


def agent(broker, packet):
    """An agent dispatch: the replies to `run 1 0` and `finish 1 0`."""
    function, result_at = number(packet, 2, 4), number(packet, 8, 16)
    a0, a1, a2, _ = (number(packet, at, at + 8) for at in (16, 24, 32, 40))
    want(function in (0x8000, 0x8001, 0x8002), "L5")
    ranges = {0x8000: [(a0, a1)], 0x8001: [(a0, a2), (a1, a2)], 0x8002: [(a0, 8)]}[function]
    ranges += [(result_at, 8)] if result_at else []
    want(all(length == 0 or is_whole(address, length) for address, length in ranges), "L8")
    signal = completion(packet)
    result = 0
    if function == 0x8000:
        broker.write(a0, bytes([a2 & 255]) * a1)
    elif function == 0x8001:
        broker.write(a1, broker.read(a0, a2) if a2 else b"")
    else:
        result = number(broker.read(a0, 8), 0, 8)
        broker.write(a0, struct.pack("<Q", (result + a1) % 2**64))
    if result_at:
        broker.write(result_at, struct.pack("<Q", result))
    broker.finish(signal)
    return ["launched 0", "ran 0 left 0", "ok"]


def kernel(broker, packet, runs):
    """A dispatch of `inc`: each work-item adds 1 to a number of 32 bits. The replies to so many `run 1 0` and `finish 1 0`."""
    dimensions = number(packet, 2, 4) & 3
    sizes = [number(packet, at, at + 2) for at in (4, 6, 8)]
    grids = [number(packet, at, at + 4) for at in (12, 16, 20)]
    groups = 1
    for size, grid in zip(sizes, grids):
        groups *= -(-grid // size) if size else 0
    want(1 <= dimensions <= 3 and 0 not in sizes + grids, "L5")
    want(all(it == 1 for it in sizes[dimensions:] + grids[dimensions:]), "L5")
    want(all(grid >= size for size, grid in zip(sizes, grids)), "L5")
    want(sizes[0] * sizes[1] * sizes[2] <= 1024 and groups <= 2**32 - 1, "L5")
    want(number(packet, 32, 40) == 1, "L6")
    want(number(packet, 28, 32) <= 65536 and number(packet, 24, 28) <= 65536, "L7")
    block_at = number(packet, 40, 48)
    want(is_whole(block_at, 8), "L8")
    signal = completion(packet)
    target = number(broker.read(block_at, 8), 0, 8)
    # (the argument's region alone is held)
    held = next((begin for begin in LENGTHS if begin <= target < begin + LENGTHS[begin]), None)
    replies = ["launched 0"]
    for group in range(runs):
        if group >= groups:
            replies.append("done")
            continue
        items = range(group * sizes[0], min((group + 1) * sizes[0], grids[0]))
        writes = {}
        for item in items:
            address = target + 4 * item
            rule = ""
            if held is None or not held <= address < held + LENGTHS[held]:
                rule = "A1"
            elif address + 4 > held + LENGTHS[held]:
                rule = "A3"
            if rule:
                fault = f"faulted queue 1 packet 0 rule {rule} group {group} item {item - items[0]} line 9"
                return replies + [fault] + [REFUSED] * (runs - group)
            writes[address] = (number(broker.read(address, 4), 0, 4) + 1) % 2**32
        for address, value in writes.items():
            broker.write(address, struct.pack("<I", value))
        replies.append(f"ran {group} left {groups - 1 - group}")
    if groups > runs:
        return replies + ["refused 9 NotFinished"]
    broker.finish(signal)
    return replies + ["ok"]


def barrier(broker, packet, kind):
    """A barrier packet: the replies to three polls with `done` and then `go` stored as 0 between, and to `finish 1 0`."""
    dependencies = [number(packet, at, at + 8) for at in range(8, 48, 8)]
    want(all(it in (0, 1, 2) for it in dependencies), "L9")
    signal = completion(packet)
    wanted = {at for at, it in enumerate(dependencies) if it}
    seen, replies = set(), ["launched 0"]

    def is_ready():
        return wanted <= seen if kind == 3 else bool(wanted & seen)

    for poll in range(3):
        if not is_ready():
            seen |= {at for at in wanted if broker.signals[dependencies[at]] == 0}
        replies.append("ready" if is_ready() else "pending")
        if poll < 2:
            broker.signals[poll + 1] = 0
            replies.append("ok")
    if not is_ready():
        return replies + ["refused 9 NotFinished"]
    broker.finish(signal)
    return replies + ["ok"]


def replies_to(packet, about, broker):
    """What comes of the packet: all replies to the frame."""
    runs = 9
    steps = {"fill": 2, "kernel": runs + 1, "barrier_and": 6, "barrier_or": 6}[about]
    if packet[0] == 1:
        return ["not publishable 0", "empty"], steps
    try:
        kind = header_is_well(packet)
        reserved_is_zero(packet, kind)
        if kind == 2:
            told = kernel(broker, packet, runs)
        elif kind == 4:
            told = agent(broker, packet)
        else:
            told = barrier(broker, packet, kind)
        return ["published 0", *told], 0
    except Denied as denied:
        return ["published 0", f"denied queue 1 packet 0 rule {denied}"], steps


def refused(about, broker, steps):
    """The replies where no packet is in flight."""
    if about in ("barrier_and", "barrier_or") and steps:
        broker.signals.update({1: 0, 2: 0})
        return [REFUSED, "ok", REFUSED, "ok", REFUSED, REFUSED]
    return [REFUSED] * steps


PACKETS = {
    # FILL of 4 bytes 5a at the begin of `buf`
    "fill": struct.pack("<HHIQQQQQQQ", 0x1404, 0x8000, 0, 0, BUF, 4, 0x5A, 0, 0, 1),
    # `inc` over 4 work-items in groups of 2
    "kernel": struct.pack("<HHHHHHIIIIIQQQQ", 0x1402, 1, 2, 1, 1, 0, 4, 1, 1, 0, 0, 1, ARGS, 0, 1),
    # a barrier on `done` and `go`
    "barrier_and": struct.pack("<HHI7Q", 0x1403, 0, 0, 1, 2, 0, 0, 0, 0, 1),
    "barrier_or": struct.pack("<HHI7Q", 0x1405, 0, 0, 1, 2, 0, 0, 0, 0, 1),
}


def main(about):
    print(f"# Each bit of a packet turned over alone, and all that comes of it: written by tests/turned_bits.py {about}.")
    frame = "barrier" if about.startswith("barrier") else about
    print(f"scripts over sample.toml after prelude.script in turned_{frame}.script names turned.names text inc.hsail text spin.hsail\n")
    for bit in range(512):
        packet = bytearray(PACKETS[about])
        packet[bit // 8] ^= 1 << bit % 8
        broker = Broker()
        told = []
        if about == "kernel":
            broker.write(BUF, bytes.fromhex("010000000200000003000000ffffffff"))
            broker.write(ARGS, struct.pack("<Q", BUF))
            told = ["ok", "ok"]
        replies, steps = replies_to(bytes(packet), about, broker)
        told += replies + refused(about, broker, steps)
        told += [f"bytes {broker.read(BUF, 64).hex()}", f"bytes {broker.read(ARGS, 16).hex()}"]
        told += [f"value {broker.signals[1]}", f"value {broker.signals[2]}"]
        row = "\\n".join(told).replace(REFUSED, "{NONE}")
        for length in (128, 120, 112, 96, 64, 32):
            row = row.replace("0" * length, "{ZEROS_%d}" % (length // 2))
        print(f"bit_{bit} | {packet.hex()} | {row}")


if __name__ == "__main__":
    main(*sys.argv[1:])
