#!/usr/bin/env python3
"""Runs `rt ci`, and behind it the trials of this folder on the programs that it has proved and built.

The last line is `N passed, M failed` over all, and the status is 0 only where nothing failed; what failed is told once more
above it. `rt ci` leaves each program that it has proved as crates/NAME/out/NAME. The trials are those of `make quick`, here on
the proved program, and those that it leaves out. `make` builds the program unproved besides, and the versions of both are held. With a path, gate.py PROGRAM,
the trials alone are run, on that one in place of brokerd.

tests/leaks.py runs behind the others, on as many processes as there are processors, and takes at most 10 minutes of processor.
"""
import importlib.machinery
import importlib.util
import os
import re
import resource
import shutil
import subprocess
import sys
import time

from proof_minutes import Watch
from trial import HERE, TOP, is_unproved, version

BUILD = f"{TOP}/build"
BENCH = f"{TOP}/crates/bench/out/bench"
ARCHIVE = f"{TOP}/crates/hobbydresser_c/out/libhobbydresser_c.a"
# the memory that a check takes at the most, in GB: the largest of a whole gate took 5.9
MOST = 6
PROVED = re.compile(r"brokerd [\d.]+ \(rattle-kit-\w+ logic [0-9a-f]{16}\)\n")
# the lines that tell what failed, and how many of them are told once more
WRONG = re.compile(r"NOT PROVED|FAILED|BAD EDIT|NOT TRIED|no verdict|not in the layout|^rt: .*(?:killed|signal)")
WRONG_LINES = 40
# the lines of counts that stand beside a figure which is wanted; they are told once more, too
BESIDE = re.compile(r"^(?:ok|FAILED) .*, wanted [\d_.]+$")
# the seconds after which what failed isn't run once more
LATE = 6000


def told(words, wrong, beside=None):
    """Runs a command and passes on what it prints: how many passed and failed, by its last line and its status. The lines that tell
    what failed are kept, and counts beside what is wanted."""
    last = ""
    with subprocess.Popen(words, cwd=TOP, stdout=subprocess.PIPE, text=True, errors="replace") as command:
        for line in command.stdout:
            print(line, end="", flush=True)
            last = line if line.strip() else last
            wrong += [line.rstrip()] if WRONG.search(line) else []
            if beside is not None and BESIDE.match(line):
                beside.append(line.rstrip())
    found = re.match(r"(\d+) passed, (\d+) failed", last)
    passed, failed = (int(found[1]), int(found[2])) if found else (0, 1)
    return passed, max(failed, 1) if command.returncode else failed


def checks_at_once():
    """How many checks `rt ci` may have side by side: one a processor, where there is memory for the largest on each but one.

    Its own estimate expects more than twice of what they take, and leaves a third of four processors without work."""
    with open("/proc/meminfo", encoding="ascii") as it:
        free = int(re.search(r"MemAvailable:\s+(\d+)", it.read())[1]) / 2**20
    return max(1, min(len(os.sched_getaffinity(0)), int(free // MOST) + 1))


def prove_all(wrong, since):
    """Runs `rt ci`. Where something failed it is run once more with two checks at a time, over what the first run kept: a check that
    was ended since others beside it had all the memory passes then, and what the prover refuses it refuses again."""
    counts = told(["rt", "ci"], first := [])
    if counts[1] and time.monotonic() - since < LATE:
        print("== rt ci once more, two checks at a time, since there failed:", *first[:WRONG_LINES], sep="\n", flush=True)
        os.environ["RT_JOBS"] = "2"
        counts = told(["rt", "ci"], first := [])
    wrong += first
    return counts


def know_proved_libraries():
    """Has `rt lib` know the libraries that `rt ci` has just proved.

    The gate leaves each without the sum of the texts that it was made of, so the archive for C would have all below it proved
    once more. The sums are reckoned here by the toolchain's own code, of the very texts that the gate has read."""
    path = f"{os.path.dirname(os.path.realpath(shutil.which('rt')))}/rtlib.py"
    loader = importlib.machinery.SourceFileLoader("rtlib", path)
    rtlib = importlib.util.module_from_spec(importlib.util.spec_from_loader("rtlib", loader))
    sys.modules["rtlib"] = rtlib
    loader.exec_module(rtlib)
    for crate in rtlib.crates_below(TOP):
        kept = f"{crate.folder}/out/rlib"
        if os.path.isdir(kept) and not os.path.exists(f"{kept}/stamp"):
            with open(f"{kept}/stamp", "w", encoding="utf-8") as it:
                it.write(crate.stamp())


def build_archive():
    """Builds the archive for C anew; without it tests/c.py tries that once more, and fails."""
    try:
        know_proved_libraries()
    except (AttributeError, ImportError, OSError, SystemExit) as error:
        print(f"the libraries for the archive are proved once more: {error}", flush=True)
    if os.path.exists(ARCHIVE):
        os.remove(ARCHIVE)
    subprocess.run(["rt", "lib"], cwd=os.path.dirname(os.path.dirname(ARCHIVE)), stdin=subprocess.DEVNULL)


def try_versions(proved):
    """Has `make` build the program unproved, and holds the versions: that one says that it is unproved, the proved one doesn't."""
    built = subprocess.run(["make", "-C", TOP], stdin=subprocess.DEVNULL).returncode == 0
    counts = [0, 0]
    for name, well in (
        ("make builds the program unproved", built),
        ("its version says so", built and is_unproved(f"{BUILD}/brokerd")),
        ("the version of the proved program tells what it is proved with", PROVED.fullmatch(version(proved)) is not None),
    ):
        counts[0 if well else 1] += 1
        print(f"{'ok' if well else 'FAILED'} {name}", flush=True)
    return counts


def tell_cost(watch, since):
    """Says what the proofs, tests and edits of each crate took, which proofs decided the clock, and what all of this took."""
    print("minutes of processor:", *watch.table(), sep="\n")
    print("the proofs that decided the clock, with their minutes: " + ", ".join(f"{crate} {taken:.1f}" for crate, taken in watch.chain()))
    used, clock = resource.getrusage(resource.RUSAGE_CHILDREN), (time.monotonic() - since) / 60
    processor, memory = (used.ru_utime + used.ru_stime) / 60, used.ru_maxrss / 2**20
    print(f"the gate took {clock:.0f} minutes of the clock and {processor:.0f} of processor on {len(os.sched_getaffinity(0))} cores; one process took {memory:.1f} GB at the most")


def main(program=None):
    counts, watch, since, wrong, beside = [], None, time.monotonic(), [], []
    if not program:
        os.environ.setdefault("RT_JOBS", str(checks_at_once()))
        with Watch() as watch:
            counts.append(prove_all(wrong, since))
        build_archive()
        program = f"{TOP}/crates/brokerd/out/brokerd"
        counts.append(try_versions(program))
    counts.append(told([sys.executable, "-B", f"{HERE}/quick.py", os.path.abspath(program), ARCHIVE], wrong, beside))
    for script, tried in ("joins.py", BENCH), ("wants.py", BENCH), ("leaks.py", os.path.abspath(program)):
        print(f"== {script}", flush=True)
        counts.append(told([sys.executable, "-B", f"{HERE}/{script}", tried], wrong))
    if watch:
        tell_cost(watch, since)
    passed, failed = (sum(column) for column in zip(*counts))
    if beside:
        print("what was counted beside what is wanted:", *beside, sep="\n")
    if wrong:
        print("what failed:", *wrong[:WRONG_LINES], sep="\n")
    print(f"{passed} passed, {failed} failed")
    sys.exit(1 if failed else 0)


if __name__ == "__main__":
    main(*sys.argv[1:])
