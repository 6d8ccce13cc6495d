#!/usr/bin/env python3
"""Counts machine instructions of proved programs by valgrind's callgrind, against ceilings: instructions.py BROKERD

What is counted doesn't depend on the machine's load. Each row runs a command twice, once with more work, and divides the
difference by the further work, so that starting and ending don't count. The ceilings stand in tests/instructions.toml;
`docs/performance.md` tells the figures. Without valgrind nothing is counted, and the script says so. Of a program that says
that it is unproved the counts are told, and a ceiling fails nothing; the rows of lanes want the proved bench, those of the library
for C its proved archive, and both are left out, as are rows that take long and say nothing of an unproved program.
"""
import os
import re
import shutil
import subprocess
import sys
import tempfile
import threading
import tomllib
from concurrent.futures import ThreadPoolExecutor
from itertools import count as numbers

from c import INCLUDE, library_of_c
from counted_kernels import ARGUMENTS, COUNTING, FAMILIES, IN_TURN, INC, MEETING, RETURNING, STORING, WORDS, family, in_turn, storing
from trial import FILL, HERE, PRELUDE, SAMPLE, TOP, is_unproved, program_given, text

BENCH = f"{TOP}/crates/bench/out/bench"
# rows that say little of an unproved program, which takes long for them: each kind of step, memory far apart, and long histories
FOR_PROVED = {
    *FAMILIES, *IN_TURN, "4 bytes written at the start of 16 MB", "4 bytes written 64 KB before the end of 16 MB",
    "those before the end, in hundredths of those at the start", "item that stores 1 KB behind the last", "opening of 64 MiB of regions",
    "refused line with --explain, 15,000 entries before it", "run of refused lines with --explain, in hundredths of it without",
    "scripted packet, 441 others in flight, in hundredths of one alone",
    "grant and revocation without a queue", "grant and revocation, 63 idle queues of another client, in hundredths of those without a queue",
    "grant and revocation, 504 in flight of another client, in hundredths of those without a queue",
    "grant and revocation, 504 in flight of the client itself",
}
ARCHIVE = f"{TOP}/crates/hobbydresser_c/out/libhobbydresser_c.a"
# counts only what lies in the settling of a broker that has run, and in letting it go
SETTLING = "--toggle-collect=bench::lane_speed::is_settled*"
# a figure that is wanted stands behind a ceiling that is above it
WANTED = re.compile(r'^"(.+)" = [\d_.]+ # ([\d_.]+)$', re.M)
# how many rows are counted side by side
AT_ONCE = 2


def policy(regions, body, header=WORDS, length=8192):
    """A policy of one client, one agent, so many regions, the last of some length, and one kernel, that allows the client all of it."""
    rows = ['[[client]]\nname = "nora"', '[[agent]]\nname = "mixer"\ntakes = ["kernel", "agent"]']
    rows += [f'[[region]]\nname = "r{number}"\nlength = {length if number == regions else 8192}' for number in range(1, regions + 1)]
    rows.append(f'[[kernel]]\nname = "k"\nentry = "&k"\ntext = """\nmodule &m:1:0:$full:$large:$default;\nprog kernel &k({header})\n{{{body}}};\n"""')
    kinds = (("agent", '"USE"'), ("region", '"READ", "WRITE"'), ("kernel", '"LAUNCH"'))
    rows += [f'[[allow]]\nclient = "nora"\nkind = "{kind}"\nobject = "*"\nrights = [{rights}]' for kind, rights in kinds]
    return "\n".join(rows) + "\n"


def dispatch(items, groups):
    """A kernel dispatch of so many items a work-group and so many groups, with its argument block at the first region's begin."""
    words = [0x1402 | 1 << 16 | items << 32 | 1 << 48, 1 | items * groups << 32, 1 | 1 << 32, 8 << 32, 1, 1 << 32, 0, 0]
    return "".join(word.to_bytes(8, "little").hex() for word in words)


def rights(regions):
    given = ["grant nora agent mixer USE", "grant nora kernel k LAUNCH"]
    return given + [f"grant nora region r{number} READ,WRITE" for number in range(1, regions + 1)]


def through(queue, count):
    """So many packets of a queue, one after the other: published, served, run and finished."""
    lines = []
    for number in range(count):
        lines += [f"submit {queue} 1 {FILL}", f"serve {queue}", f"run {queue} {number}", f"finish {queue} {number}"]
    return lines


def packets(count):
    """So many packets of the sample, one after the other."""
    return PRELUDE + through(1, count)


# a policy whose two clients are allowed all of an agent, two regions and a signal
PAIR = (
    '[[client]]\nname = "c1"\n[[client]]\nname = "c2"\n[[agent]]\nname = "a"\ntakes = ["agent"]\n[[region]]\nname = "r1"\nlength = 64\n'
    '[[region]]\nname = "r2"\nlength = 64\n[[signal]]\nname = "s"\ninitial = 1\n'
) + "".join(
    f'[[allow]]\nclient = "*"\nkind = "{kind}"\nobject = "*"\nrights = [{rights}]\n'
    for kind, rights in (("agent", '"USE"'), ("region", '"READ", "WRITE"'), ("signal", '"WAIT", "CHANGE"'))
)


def crowd(queues, flying):
    """So many queues of the pair's first client, and so many packets in flight in each of the first 63. They hold the first region."""
    lines = [f"grant {client} {item}" for client in ("c1", "c2") for item in ("agent a USE", "region r1 READ,WRITE", "signal s WAIT,CHANGE")]
    lines += ["queue c1 a 16 1"] * queues
    for queue in range(1, 64):
        lines += [f"submit {queue} 1 {FILL}", f"serve {queue}"] * flying
    return lines


def sized(count):
    """A policy with so many regions of 16 MiB."""
    return '[[client]]\nname = "c"\n' + "".join(f'[[region]]\nname = "r{number}"\nlength = 16777216\n' for number in range(count))


def queues(count):
    """So many queues of the sample, one after the other: opened, and closed with a packet in flight."""
    lines = list(PRELUDE)
    for number in range(2, count + 2):
        lines += ["queue alice gpu 2 1", f"submit {number} 1 {FILL}", f"serve {number}", f"close {number}"]
    return lines


def refused(count, lines):
    """So many packets of the sample, a rotation that hands their entries out, and so many lines that are refused after it."""
    return packets(count) + ["rotate"] + ["finish 1 0", "read bob 0000000100000000 8"] * (lines // 2)


def group(items, groups=1, runs=1):
    """Work-groups of so many items, of which so many run; their kernel's argument is the second region."""
    lines = rights(2) + ["write nora 0000000100000000 0000000002000000", "queue nora mixer 8 1"]
    return lines + [f"submit 1 1 {dispatch(items, groups)}", "serve 1"] + ["run 1 0"] * runs


def run_lines(regions, queues, count):
    """So many `run` lines of a packet with work-groups of one item, where each queue has eight packets in flight that hold a region."""
    lines = rights(regions) + [f"write nora 0000000100000000 00000000{regions:02x}000000"] + ["queue nora mixer 8 1"] * queues
    for queue in range(1, queues + 1):
        lines += [f"submit {queue} 1 {dispatch(1, 4096)}", f"serve {queue}"] * 8
    return lines + ["run 1 0"] * count


def broad(signals, rows):
    """A policy of 64 clients, 16 agents, 64 regions and so many signals, with these rows on rights."""
    named = lambda kind, count, more="": "".join(f'[[{kind}]]\nname = "{kind[0]}{number}"\n{more}' for number in range(count))
    return named("client", 64) + named("agent", 16, 'takes = ["kernel"]\n') + named("region", 64, "length = 64\n") + named("signal", signals, "initial = 1\n") + rows


def allow(client, kind, item, right):
    return f'[[allow]]\nclient = "{client}"\nkind = "{kind}"\nobject = "{item}"\nrights = ["{right}"]\n'


def single(count):
    """So many allow rows, each of one client on one region, and a last one of all on all."""
    return "".join(allow(f"c{i % 64}", "region", f"r{i // 64 % 64}", "READ") for i in range(count - 1)) + allow("*", "region", "*", "READ")


def hundredths(much, alone):
    return 100 * much / max(alone, 1)


class Counter:
    """Runs commands under callgrind, their files in a folder. Rows may be counted side by side."""

    def __init__(self, brokerd, room):
        self.brokerd, self.room, self.wrong, self.is_unproved = brokerd, room, [], is_unproved(brokerd)
        self.has_library = os.path.exists(ARCHIVE) and not self.is_unproved
        self.counted, self.numbers, self.alone = {}, numbers(), threading.Lock()

    def path(self, ending):
        """A file of the folder that nothing else has."""
        return f"{self.room}/{next(self.numbers)}.{ending}"

    def policy(self, written):
        path = self.path("toml")
        with open(path, "w", encoding="utf-8") as it:
            it.write(written)
        return path

    def instructions(self, words, given=b"", options=()):
        out = self.path("counted")
        ran = subprocess.run(["valgrind", "--tool=callgrind", f"--callgrind-out-file={out}", *options, *words], input=given, capture_output=True)
        found = re.search(rb"Collected : (\d+)", ran.stderr)
        if ran.returncode or not found:
            self.wrong.append(f"{' '.join(words)[:120]}: status {ran.returncode}, {ran.stdout[-120:]!r} {ran.stderr[-200:]!r}")
            return 0
        return int(found[1])

    def script(self, written, less, more, units, further=()):
        """Instructions a unit, where the second script does so many units more than the first."""
        words = [self.brokerd, "run", self.policy(written), "--audit", "1048576", *further]
        few, many = (self.instructions(words, text(lines)) for lines in (less, more))
        return (many - few) / units

    def kernel(self, kernel, header=WORDS, length=8192):
        body, steps = kernel
        return self.script(policy(2, body, header, length), group(8), group(24), 16 * steps)

    def item(self, body):
        """A further item of a work-group."""
        return self.script(policy(2, body), group(64), group(256), 192)

    def groups(self, body, items, length=8192):
        """A further work-group of so many items."""
        return self.script(policy(2, body, length=length), group(items, 12, 2), group(items, 12, 10), 8)

    def far(self, offset):
        """A work-group of one item that writes four bytes so far behind the begin of 16 MB."""
        with self.alone:
            if offset not in self.counted:
                self.counted[offset] = self.groups(storing(0, offset), 1, 1 << 24)
            return self.counted[offset]

    def explained(self, written):
        """A run of 100,000 entries, a rotation and 10,000 refused lines with `--explain`, in hundredths of the run without it."""
        words, lines = [self.brokerd, "run", self.policy(written), "--audit", "1048576"], text(refused(33_333, 10_000))
        plain, told = (self.instructions([*words, *option], lines) for option in ([], ["--explain"]))
        return hundredths(told, plain)

    def replay(self, written):
        """An entry of a journal of packets: its line is read and held against its digest, its call made and compared."""
        words, journals = [self.policy(written)], []
        for count in (500, 1500):
            file = self.path("journal")
            subprocess.run([self.brokerd, "run", *words, "--journal", file], input=text(packets(count)), capture_output=True)
            with open(file, "rb") as it:
                journals.append(it.read())
        few, many = (self.instructions([self.brokerd, "replay", *words], it) for it in journals)
        return (many - few) / 3000

    def check(self):
        words = [self.brokerd, "check"]
        body = lambda count: "\n" + "  add_u32 $s0, $s1, 7;\n" * count + "  ret;\n"
        few, many = (self.instructions([*words, self.policy(policy(1, body(count)))]) for count in (500, 2000))
        return (many - few) / 1500

    def granted(self, rows):
        """A grant and its revocation, by a policy with so many rows."""
        lines = ["grant c63 region r63 READ", "revoke c63 region r63 READ"]
        return self.script(broad(64, single(rows)), lines * 100, lines * 300, 200)

    def reload(self, rows):
        """A reload of a policy of 64 clients and 1,024 signals with these rows."""
        path = self.policy(broad(1024, rows))
        more, less = (self.instructions([self.brokerd, "run", path, path], text(lines)) for lines in (["reload 1"], []))
        return more - less

    def passed(self, queue, before):
        """A packet of a queue of the pair, behind these lines."""
        return self.script(PAIR, before + through(queue, 100), before + through(queue, 300), 200)

    def granted_beside(self, client, before):
        """A grant and its revocation on the pair's second region, behind these lines."""
        lines = [f"grant {client} region r2 WRITE", f"revoke {client} region r2 WRITE"]
        return self.script(PAIR, before + lines * 100, before + lines * 300, 200)

    def opening(self):
        """What 64 MiB of regions take at the opening, with their end."""
        many, few = (self.instructions([self.brokerd, "run", self.policy(sized(count))]) for count in (4, 0))
        return many - few

    def driver(self, name):
        """The driver in C of this name, built; none if it can't be."""
        driver = f"{self.room}/{name}"
        with self.alone:
            if not os.path.exists(driver):
                words = ["gcc", "-std=c11", "-O2", "-Wall", "-Wextra", "-Wpedantic", "-Werror", INCLUDE, "-o", driver, f"{HERE}/{name}.c", ARCHIVE, library_of_c()]
                built = subprocess.run(words, capture_output=True, text=True)
                if built.returncode:
                    self.wrong.append(f"{HERE}/{name}.c: {built.stderr[-300:]}")
                    return None
        return driver

    def through_library(self, others, told="no"):
        """A packet through the library for C, with so many others in flight, its changes told in this way."""
        driver = self.driver("c_counted")
        if driver is None:
            return 0
        few, many = (self.instructions([driver, str(count), str(others), told]) for count in (500, 1500))
        return (many - few) / 1000

    def emptied(self, mebibytes):
        """4 KB written, and the audit emptied, over 64 KB and so many MiB of regions, through the library for C."""
        driver = self.driver("c_emptied")
        if driver is None:
            return 0
        few, many = (self.instructions([driver, str(mebibytes), str(count)]) for count in (50, 150))
        return (many - few) / 100

    def told_beside(self, told):
        """What it takes to tell the changes of a packet in this way."""
        return self.through_library(0, told) - self.through_library(0)

    def rows(self):
        with open(SAMPLE, encoding="utf-8") as it:
            sample = it.read()
        yield "scripted packet", lambda: self.script(sample, packets(500), packets(1500), 1000)
        yield "queue with a packet, from its opening to its close", lambda: self.script(sample, queues(100), queues(300), 200)
        yield "step in registers", lambda: self.kernel(COUNTING)
        yield "step with a load and a store in twelve", lambda: self.kernel(STORING)
        yield "step with atomics and barriers", lambda: self.kernel(MEETING)
        for name, lines in FAMILIES.items():
            yield name, lambda lines=lines: self.kernel(family(lines), ARGUMENTS)
        for name, lines in IN_TURN.items():
            yield name, lambda lines=lines: self.kernel(in_turn(lines), length=1 << 15)
        yield "further item of a group that loads an argument and returns", lambda: self.item(RETURNING)
        yield "further item of a group that runs inc", lambda: self.item(INC)
        yield "empty group of one item", lambda: self.groups(RETURNING, 1)
        yield "4 bytes written at the start of 16 MB", lambda: self.far(0)
        yield "4 bytes written 64 KB before the end of 16 MB", lambda: self.far((1 << 24) - 65536)
        yield "those before the end, in hundredths of those at the start", lambda: 100 * self.far((1 << 24) - 65536) / max(self.far(0), 1)
        yield "item that stores 1 KB behind the last", lambda: self.groups(storing(1024), 64, 1 << 20) / 64
        yield "run line, 2 regions, 8 in flight", lambda: self.script(policy(2, "\n  ret;\n"), run_lines(2, 1, 100), run_lines(2, 1, 300), 200)
        yield "run line, 64 regions, 512 in flight", lambda: self.script(policy(64, "\n  ret;\n"), run_lines(64, 64, 10), run_lines(64, 64, 30), 20)
        yield "checked instruction", self.check
        yield "scripted packet with a journal", lambda: self.script(sample, packets(500), packets(1500), 1000, ["--journal", "/dev/null"])
        yield "replayed entry", lambda: self.replay(sample)
        yield "refused line with --explain, 15,000 entries before it", lambda: self.script(sample, refused(5_000, 100), refused(5_000, 300), 200, ["--explain"])
        yield "run of refused lines with --explain, in hundredths of it without", lambda: self.explained(sample)
        yield "grant and revocation, 64 rows", lambda: self.granted(64)
        yield "grant and revocation, 4,090 rows, in hundredths of those with 64", lambda: hundredths(self.granted(4090), self.granted(64))
        yield "reload, 4,090 rows of one client on one region", lambda: self.reload(single(4090))
        yield "reload, 4,096 rows of all on all signals", lambda: self.reload(allow("*", "signal", "*", "WAIT") * 4096)
        yield "scripted packet, 441 others in flight, in hundredths of one alone", lambda: hundredths(self.passed(64, crowd(64, 7)), self.passed(1, crowd(1, 0)))
        without = lambda: self.granted_beside("c2", crowd(0, 0))
        yield "grant and revocation without a queue", without
        yield "grant and revocation, 63 idle queues of another client, in hundredths of those without a queue", lambda: hundredths(self.granted_beside("c2", crowd(63, 0)), without())
        yield "grant and revocation, 504 in flight of another client, in hundredths of those without a queue", lambda: hundredths(self.granted_beside("c2", crowd(63, 8)), without())
        yield "grant and revocation, 504 in flight of the client itself", lambda: self.granted_beside("c1", crowd(63, 8))
        yield "opening of 64 MiB of regions", self.opening
        if self.has_library:
            yield "packet through the library for C", lambda: self.through_library(0)
            yield "packet through the library for C, 441 others in flight, in hundredths of one alone", lambda: hundredths(self.through_library(441), self.through_library(0))
            yield "changes of a packet told by hd_effects, through the library for C", lambda: self.told_beside("once")
            yield "the same told by hd_effect_count, hd_effect_at and hd_effect_bytes, through the library for C", lambda: self.told_beside("singly")
            yield "audit emptied through the library for C of which 4 KB was written, over 64 KB", lambda: self.emptied(0)
            yield "audit emptied through the library for C of which 4 KB was written, over 64 MiB, in hundredths of one over 64 KB", lambda: hundredths(self.emptied(64), self.emptied(0))
        if os.path.exists(BENCH) and not self.is_unproved:
            yield "packet of a lane", self.lanes
            yield "packet of a lane, from its ring to its finish", lambda: self.lanes() - self.lanes([SETTLING])

    def lanes(self, options=()):
        """A packet of runs that have 1, 2 and 4 lanes with 1, 4 and 16 producers a lane.

        Threads take turns in the order in which they ask for them, whatever machine they run on. They look in vain now more
        and now less often all the same, so that of three runs the least counts."""
        options = ["--fair-sched=yes", *options]
        count = lambda packets: min(self.instructions([BENCH, "lanes", str(packets), "--runs", "1"], options=options) for _ in range(3))
        return (count(300) - count(100)) / (200 * (1 + 2 + 4) * (1 + 4 + 16))


def main():
    brokerd = program_given()
    with open(f"{HERE}/instructions.toml", encoding="utf-8") as it:
        text_of_ceilings = it.read()
    ceilings, wanted = tomllib.loads(text_of_ceilings), dict(WANTED.findall(text_of_ceilings))
    if not shutil.which("valgrind"):
        print("skipped: there is no valgrind to count with")
        print("0 passed, 0 failed")
        return 0
    told, passed, failed = ceilings.pop("told"), 0, 0
    with tempfile.TemporaryDirectory() as room, ThreadPoolExecutor(AT_ONCE) as pool:
        counter = Counter(brokerd, room)
        rows = [row for row in counter.rows() if not counter.is_unproved or row[0] not in FOR_PROVED]
        for (name, count), found in zip(rows, pool.map(lambda row: row[1](), rows)):
            most = ceilings.pop(name, 0)
            if found > most and name.startswith("packet of a lane"):
                found = min(found, count())
            is_within = 0 < found <= most
            well = is_within or found > 0 and (counter.is_unproved or name in told)
            passed, failed = passed + well, failed + (not well)
            bound = "at most" if is_within or not well else "above what a proved program may take,"
            beside = f", wanted {wanted[name]}" if name in wanted else ""
            print(f"{'ok' if well else 'FAILED'} {name}: {found:,.1f}, {'told alone' if name in told else f'{bound} {most:,}'}{beside}", flush=True)
        for why in counter.wrong:
            print(f"    {why}")
    for name in ceilings:
        is_left_out = counter.is_unproved and ("of a lane" in name or name in FOR_PROVED) or not counter.has_library and "library for C" in name
        print(f"{'left out' if is_left_out else 'FAILED'} {name}: no such row was counted")
        failed += not is_left_out
    print(f"{passed} passed, {failed} failed")
    return 1 if failed else 0


if __name__ == "__main__":
    sys.exit(main())
