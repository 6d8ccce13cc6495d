#!/usr/bin/env python3
"""What `decode` tells of packets: each field by its place, its name and its value, as docs/aql_packets.md lays packets out,
and the first of L1 to L3 that fails: decode.py PROGRAM"""
import os
import random
import re
import sys
import tempfile

from trial import BARRIER, FILL, KERNEL, SAMPLE, TOP, Ended, Trials, run

KINDS = {2: "Kernel dispatch", 4: "Agent dispatch", 3: "Barrier-AND and barrier-OR", 5: "Barrier-AND and barrier-OR"}
NAMES = {"setup: bits 1:0 dimensions": "dimensions", "setup: bits 15:2": "reserved"}
HEADER = {"type": "type", "barrier": "barrier", "acquire fence scope": "acquire_fence_scope", "release fence scope": "release_fence_scope", "reserved": "reserved"}
LINE = re.compile(r"bytes (\d+)-(\d+)(?:, bits? (\d+)(?::(\d+))?)? +(\S.*?)  +([0-9a-f]+)(, .+)?")


def section(title):
    """The rows of the first table below a title of the page."""
    with open(f"{TOP}/docs/aql_packets.md", encoding="utf-8") as it:
        table = it.read().split(f"\n## {title}", 1)[1].split("\n\n", 2)[1]
    return [[cell.strip() for cell in line.strip("|").split("|")] for line in table.splitlines()[2:]]


def header_fields():
    """Place, size, lowest and highest bit, name, and whether it has to be zero."""
    found = []
    for bits, name, *_ in section("The header"):
        high, _, low = bits.partition(":")
        found.append((0, 2, int(low or high), int(high), HEADER[name], name == "reserved"))
    return found


def body_fields(kind):
    found, place = [], None
    for ranges, name, said in section(KINDS[kind]):
        if name == "header":
            continue
        several = re.match(r"(?:four|five) (?:64-bit (argument)s|signals that)", name)
        for count, span in enumerate(ranges.split(", ")):
            if span:
                first, _, last = span.partition("-")
                place = (int(first), int(last) - int(first) + 1)
            bits = re.search(r"bits (\d+):(\d+)", name)
            high, low = (int(bits[1]), int(bits[2])) if bits else (8 * place[1] - 1, 0)
            called = NAMES.get(name, name.split(" (")[0])
            if several:
                called = f"argument {count}" if several[1] else f"dependency {count + 1}"
            found.append((*place, low, high, called, said == "must be zero"))
    return found


LAYOUTS = {kind: header_fields() + body_fields(kind) for kind in KINDS}
WORDS = header_fields() + [(8 * it, 8, 0, 63, f"word {it}", False) for it in range(8)]


def value(packet, place, size, low, high):
    return int.from_bytes(packet[place : place + size], "little") >> low & (1 << high - low + 1) - 1


def broken(packet):
    """The first rule that a packet breaks."""
    if packet[0] not in LAYOUTS:
        return "L1"
    fields = [(value(packet, *it[:4]), it[4], it[5]) for it in LAYOUTS[packet[0]]]
    if fields[4][0] or any(number == 3 for number, name, _ in fields if name.endswith("_scope")):
        return "L2"
    return "L3" if any(number and is_reserved for number, _, is_reserved in fields) else None


def told(lines):
    """The fields that some lines tell, and the lines that tell of none."""
    fields, others = [], []
    for line in lines:
        found = LINE.fullmatch(line)
        if not found:
            others.append(line)
            continue
        first, last, high, low, name, number, _ = found.groups()
        size = int(last) - int(first) + 1
        low, high = (int(low or high), int(high)) if high else (0, 8 * size - 1)
        fields.append((int(first), size, low, high, name, int(number, 16 if len(number) == 16 and name.endswith("_address") else 10)))
    return fields, others


def is_told(packet, lines):
    """What is wrong with what is told of a packet."""
    fields, others = told(lines)
    wanted = [(*it[:5], value(packet, *it[:4])) for it in LAYOUTS.get(packet[0], WORDS)]
    if fields != wanted:
        return f"the fields are {[it for it in fields if it not in wanted]}, and not {[it for it in wanted if it not in fields]}"
    rule = broken(packet)
    verdict = others[-1] if others else ""
    if not (verdict.startswith(f"breaks {rule}: ") if rule else verdict == "L1 to L3 hold"):
        return f"the verdict is {verdict!r}, and {rule} is broken"
    is_agent = packet[0] == 4 and not rule
    return None if len(others) == 1 + is_agent else f"it tells {others}"


def packets(count):
    """Packets of each kind with random fields, whole ones and such with a bit turned, and bytes at random."""
    chance = random.Random(7)
    found = [bytes.fromhex(it) for it in (FILL, KERNEL, BARRIER)] + [bytes(64), b"\xff" * 64]
    for _ in range(count):
        packet = bytearray(64)
        packet[0] = chance.choice([2, 3, 4, 5])
        packet[1] = chance.choice([0, 1]) | chance.choice([0, 2, 4]) | chance.choice([0, 8, 16])
        for place, size, low, high, name, is_reserved in LAYOUTS[packet[0]][5:]:
            if not is_reserved:
                number = int.from_bytes(packet[place : place + size], "little") | chance.getrandbits(high - low + 1) << low
                packet[place : place + size] = number.to_bytes(size, "little")
        found.append(bytes(packet))
        place = chance.randrange(512)
        packet[place // 8] ^= 1 << place % 8
        found.append(bytes(packet))
        found.append(chance.randbytes(64))
    return found


def main(program):
    trials = Trials("decode")

    def digits(packet):
        ended = run([program, "decode", packet.hex()])
        if ended.status != (1 if broken(packet) else 0) or ended.err:
            return f"it ended otherwise: {ended}"
        return is_told(packet, ended.out.decode().splitlines())

    many = packets(60)
    trials.every("each field of a packet, and the first rule that it breaks", digits, many)
    fill = bytes.fromhex(FILL)
    turned = [bytes(byte ^ (1 << bit % 8) * (at == bit // 8) for at, byte in enumerate(fill)) for bit in range(512)]

    def verdicts(wanted):
        """That so many of them break L1, L2, L3 and none of these; of the others the fields that are told make up the packet."""
        found = {"L1": 0, "L2": 0, "L3": 0, "hold": 0}
        for packet in turned:
            lines = run([program, "decode", packet.hex()]).out.decode().splitlines()
            verdict = re.search(r"^breaks (L[123]): |^L1 to L3 (hold)$", lines[-1])
            found[verdict[1] or verdict[2]] += 1
            spelled = sum(number << 8 * first + low for first, _, low, _, _, number in told(lines)[0])
            if verdict[2] and spelled.to_bytes(64, "little") != packet:
                return f"{packet.hex()} is told as {spelled.to_bytes(64, 'little').hex()}"
        return None if found == wanted else f"{found}"

    trials.every("each bit turned over alone, and the first rule that it breaks", digits, turned)
    trials.every("so many break each rule, and the others' fields make them up", verdicts, [{"L1": 7, "L2": 5, "L3": 97, "hold": 403}])
    forms = [[FILL.upper()], [FILL[it : it + 16] for it in range(0, 128, 16)], [" ".join(FILL[it : it + 2] for it in range(0, 128, 2))], [FILL[it : it + 2] for it in range(0, 128, 2)]]
    plain = run([program, "decode", FILL])
    trials.every("digits of either case, with blanks and without", lambda it: None if run([program, "decode", *it]) == plain else "it is told otherwise", forms)
    work = [(FILL, "FILL: 4 bytes from 0000000100000000 become 5a"), (FILL.replace("0080", "0180", 1), "COPY: 90 bytes from 0000000100000000 go to 0000000000000004"),
            (FILL.replace("0080", "0280", 1), "ADD64: the number of 8 bytes at 0000000100000000 gains 4"), (FILL.replace("0080", "0380", 1), "agents have no function of this number")]
    trials.every("what an agent dispatch does", lambda it: None if it[1] in run([program, "decode", it[0]]).out.decode().splitlines() else "it isn't told", work)
    wrong = [[], [FILL[1:]], [FILL + "0"], [FILL + "00"], ["x" + FILL[1:]], ["", ""]]
    refused = lambda it: None if (ended := run([program, "decode", *it])).status == 2 and not ended.out and b"128 hexadecimal digits" in ended.err else f"{ended}"
    address = lambda packet, at, number: packet[: 2 * at] + number.to_bytes(8, "little").hex() + packet[2 * at + 16 :]

    def named(it):
        """That a policy's names come behind the fields, and all else is as without."""
        packet, names = it
        plain, ended = run([program, "decode", packet]), run([program, "decode", packet, "--policy", SAMPLE])
        lines = ended.out.decode().splitlines()
        at = sum(line.startswith("bytes ") for line in lines)
        well = ended.status == plain.status and lines[at : at + len(names)] == names and lines[:at] + lines[at + len(names) :] == plain.out.decode().splitlines()
        return None if well and not ended.err else f"{ended}"

    trials.every("what the numbers of a packet stand for in a policy", named, [
        (KERNEL, ["kernel_object: kernel inc", "kernarg_address: region args", "completion_signal: signal done"]),
        (FILL, ["target: region buf", "completion_signal: signal done"]), (BARRIER, ["dependency: signal done", "dependency: signal go"]),
        (address(FILL, 16, 0x100000010), ["target: region buf+16", "completion_signal: signal done"]),
        (address(FILL, 16, 0x100000040), ["target: region buf+64, past its end", "completion_signal: signal done"]),
        (address(address(FILL, 16, 0x300000000), 56, 0), ["target: in no region of the policy"]),
        (address(KERNEL, 32, 3), ["kernel_object: the policy declares no such kernel", "kernarg_address: region args", "completion_signal: signal done"]),
        (address(FILL, 56, 3), ["target: region buf", "completion_signal: the policy declares no such signal"]), ("00" * 64, []),
    ])
    trials.every("a policy for names that can't be read", lambda it: None if run([program, "decode", FILL, "--policy", it]) == Ended(3, b"", b"read fault\n") else "it is told otherwise", [f"{TOP}/nothing"])
    trials.every("what is no packet ends with 2", refused, wrong)

    with tempfile.TemporaryDirectory(prefix="decode-") as room:

        def dumped(slots, rest=b""):
            with open(f"{room}/{len(slots)}-{len(rest)}", "wb") as it:
                it.write(b"".join(slots) + rest)
            return it.name

        def slots_told(words, slots, given=b""):
            ended = run([program, "decode", "--slots", *words], given)
            parts = re.split(r"^slot (\d+)(.*)\n", ended.out.decode(), flags=re.MULTILINE)[1:]
            if [int(it) for it in parts[::3]] != list(range(len(slots))):
                return f"it tells other slots: {ended}"
            for slot, said, lines in zip(slots, parts[1::3], parts[2::3]):
                is_empty = slot[0] == 1
                why = (said != ": INVALID, no packet" or bool(lines)) if is_empty else said or is_told(slot, lines.splitlines())
                if why:
                    return f"{slot.hex()}: {why}"
            is_broken = any(slot[0] != 1 and broken(slot) for slot in slots)
            return None if ended.status == is_broken and not ended.err else f"it ended otherwise: {ended.status}, {ended.err}"

        invalid = b"\x01" + bytes(63)
        whole = [it for it in many if not broken(it)]
        dumps = [[], [invalid] * 2, whole[:3] + [invalid], [*many, invalid], [invalid] * 4096]
        trials.every("the slots of a dump", lambda it: slots_told([dumped(it)], it), dumps)
        trials.every("a dump on standard input", lambda it: slots_told(["-"], it, b"".join(it)), dumps)
        refused = lambda it: None if (ended := run([program, "decode", "--slots", dumped(*it[0])])).status == it[1] and it[2] in ended.err else f"{ended}"
        trials.every("a dump that ends within a slot, or is longer than a ring", refused,
                     [(([whole[0]], b"\0" * 63), 1, b"63 are left"), (([invalid] * 4097,), 1, b"4096 slots")])
        absent = lambda it: None if run([program, "decode", "--slots", it]) == Ended(3, b"", b"read fault\n") else "it ended otherwise"
        trials.every("a dump that can't be read", absent, [f"{room}/nothing", room])
    trials.end()


if __name__ == "__main__":
    main(os.path.abspath(sys.argv[1]))
