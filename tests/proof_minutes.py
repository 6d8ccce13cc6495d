"""How much processor time the proof, the tests and the must-fail edits of each crate take, watched while the gate runs.

Proofs are kept for people in tools/minutes.toml, which the gate writes and `make prove` reads.
"""
import os
import re
import threading
import time
import tomllib

from trial import TOP

TABLE = f"{TOP}/tools/minutes.toml"
TICKS = os.sysconf("SC_CLK_TCK")
KINDS = ("proofs", "tests", "edits")
# where `rt` puts the copy of a crate whose edits it tries; the number is that of its process
ROOM = re.compile(r"/rt-edit-(\d+)-[^/]*$")


def words_of(process):
    """The words that a process was begun with."""
    with open(f"/proc/{process}/cmdline", "rb") as it:
        return it.read().decode(errors="replace").split("\0")


def fields_of(process):
    """What the system tells of a process behind its name: its state, its parent, and so on."""
    with open(f"/proc/{process}/stat", encoding="ascii", errors="replace") as it:
        return it.read().rpartition(")")[2].split()


def seconds(process):
    """The processor time that a process has taken itself."""
    fields = fields_of(process)
    return (int(fields[11]) + int(fields[12])) / TICKS


def checking(process):
    """The crate that a process of the prover looks at in this checkout, and for which kind of work, or none."""
    words, folder = words_of(process), os.readlink(f"/proc/{process}/cwd")
    if os.path.basename(words[0]) != "rattle" or words[1] not in ("check", "build"):
        return None
    crate = words[words.index("--crate-name") + 1]
    if room := ROOM.search(folder):
        return (crate, "edits") if os.readlink(f"/proc/{room[1]}/cwd") == TOP else None
    if folder != f"{TOP}/crates/{crate}":
        return None
    return crate, "tests" if "--test" in words or "--crate-checked" in words else "proofs"


def working(process):
    """The crate that a process works for in this checkout, and the kind of the work, or none: the prover itself, what it begins, and a crate's own program."""
    if found := checking(process):
        return found
    if own := re.match(rf"{re.escape(TOP)}/crates/(\w+)/out/", os.readlink(f"/proc/{process}/exe")):
        return own[1], "tests"
    parent = fields_of(process)[1]
    return checking(parent) if parent not in ("0", "1") else None


def stands_on():
    """The crates that each crate names, by crates.txt."""
    with open(f"{TOP}/crates.txt", encoding="utf-8") as it:
        rows = (line.partition(":") for line in it if ":" in line and not line.startswith("#"))
        return {named.split()[0]: below.split() for named, _, below in rows}


class Watch(threading.Thread):
    """Looks each second which crates are worked on; each process counts with what it had taken when it was last seen."""

    def __init__(self):
        super().__init__(daemon=True)
        self.taken, self.spans, self.over, self.begun = {}, {}, threading.Event(), time.monotonic()

    def look(self):
        now = time.monotonic() - self.begun
        for process in filter(str.isdigit, os.listdir("/proc")):
            try:
                if work := working(process):
                    self.taken[work, process] = seconds(process)
                    self.spans[work] = self.spans.get(work, (now,))[0], now
            except (OSError, ValueError, IndexError):
                continue

    def run(self):
        while not self.over.wait(1.0):
            self.look()

    def minutes(self, kind):
        """The minutes of processor time of one kind of work, of each crate that had it."""
        found = {}
        for ((crate, it), _), taken in self.taken.items():
            if it == kind:
                found[crate] = found.get(crate, 0) + taken / 60
        return found

    def chain(self):
        """The proofs that decided the clock, the last one first seen backwards: each with the minutes of the clock that it took."""
        spans, below, links = {crate: span for (crate, kind), span in self.spans.items() if kind == "proofs"}, stands_on(), []
        ready = list(spans)
        while ready:
            last = max(ready, key=lambda crate: spans[crate][1])
            links.append((last, (spans[last][1] - spans[last][0]) / 60))
            ready = [crate for crate in below.get(last, ()) if crate in spans]
        return links[::-1]

    def table(self):
        """The lines of a table of all that was seen: a row a crate, its minutes by kind, and their sums."""
        by_kind = [self.minutes(kind) for kind in KINDS]
        crates = sorted(set().union(*by_kind), key=lambda crate: -sum(column.get(crate, 0) for column in by_kind))
        cells = lambda numbers: " | ".join(f"{it:.1f}" if it >= 0.05 else "" for it in numbers)
        rows = [f"| `{crate}` | {cells(column.get(crate, 0) for column in by_kind)} |" for crate in crates]
        return ["| Crate | Proofs | Tests | Edits |", "|---|---|---|---|", *rows, f"| all | {cells(sum(column.values()) for column in by_kind)} |"]

    def __enter__(self):
        self.start()
        return self

    def __exit__(self, *_):
        """Writes what was proved into the table; the others keep what they had."""
        self.over.set()
        self.join()
        with open(TABLE, encoding="utf-8") as it:
            text = it.read()
        remarks = [line for line in text.splitlines() if line.startswith("#")]
        known = {**tomllib.loads(text), **{crate: round(it, 1) for crate, it in self.minutes("proofs").items()}}
        crates = [crate for crate in known if os.path.isdir(f"{TOP}/crates/{crate}")]
        with open(TABLE, "w", encoding="utf-8") as it:
            it.write("\n".join([*remarks, *(f"{crate} = {known[crate]}" for crate in crates)]) + "\n")
