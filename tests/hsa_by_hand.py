#!/usr/bin/env python3
"""What the gate hasn't the time for: the programs of tests/hsa and the examples under valgrind, ThreadSanitizer and the sanitizer of
undefined behaviour, and many more damaged modules.

    tests/hsa_by_hand.py ARCHIVE [valgrind|thread|undefined|damaged ..]

The sanitizer of addresses can't run with regions mapped where its shadow is; valgrind stands in for it, and the reader of BRIG, which knows
no region, is built with it. The last line is `N passed, M failed`."""
import glob
import os
import shutil
import subprocess
import sys
import tempfile

from hsa import HSA, SANITIZED, STRICT, Bench, Counts, assembled, built, library_of_c
from trial import TOP

ROUNDS = 750
# program, arguments, whether over the small policy
RUNS = [("functions", [], True), ("rules", [], True), ("producers", ["4", "100", "16"], True), ("producers", ["16", "50", "8"], False), ("queues", ["66"], False),
        ("scribbler", ["100000"], False), ("vector_copy", ["512"], False), ("reduction", ["4"], False), ("pipeline", ["8"], False)]


def source_of(name):
    if name == "functions":
        return glob.glob(f"{HSA}/functions*.c")
    return [f"{HSA}/{name}.c"] if os.path.exists(f"{HSA}/{name}.c") else [f"{TOP}/examples/hsa/{name}.c"]


def reports(counts, told, ran, marks):
    wrong = ran.returncode or any(mark in ran.stderr for mark in marks)
    counts.add(told, f"status {ran.returncode}\n{ran.stdout[-500:]}{ran.stderr[-3000:]}" if wrong else None)


def by_valgrind(bench):
    wrong = bench.build_library()
    for name in {name for name, _, _ in RUNS}:
        wrong = wrong or built(["cc", *STRICT, "-o", f"{bench.work}/{name}", *source_of(name), f"-L{bench.work}", "-lhsa-runtime64", "-lpthread"])
    bench.counts.add("built for valgrind", wrong)
    for name, arguments, is_small in () if wrong else RUNS:
        words = ["valgrind", "-q", "--error-exitcode=9", "--leak-check=full", "--errors-for-leak-kinds=none", f"{bench.work}/{name}", *arguments]
        ran = subprocess.run(words, env=bench.small if is_small else bench.plain, capture_output=True, text=True)
        reports(bench.counts, f"valgrind {name} {' '.join(arguments)}", ran, ("definitely lost in", "Invalid read", "Invalid write"))


def by_sanitizer(bench, kind):
    """The library's sources are compiled for it once, and linked into each program."""
    flags = [*STRICT, f"-fsanitize={kind}", f"-I{TOP}/runtime/src", f"-I{TOP}/include"]
    objects = []
    for source in glob.glob(f"{TOP}/runtime/src/*.c"):
        objects.append(f"{bench.work}/{kind}_{os.path.basename(source)}.o")
        wrong = built(["cc", *flags, "-c", "-o", objects[-1], source])
        if wrong:
            bench.counts.add(f"{kind} {source}", wrong)
            return
    for name, arguments, is_small in RUNS:
        program = f"{bench.work}/{kind}_{name}"
        wrong = None if os.path.exists(program) else built(["cc", *flags, "-o", program, *source_of(name), *objects, bench.archive, library_of_c(), "-lpthread"])
        if wrong:
            bench.counts.add(f"{kind} {name}", wrong)
            continue
        ran = subprocess.run(["setarch", "-R", program, *arguments], env=bench.small if is_small else bench.plain, capture_output=True, text=True)
        reports(bench.counts, f"{kind} {name} {' '.join(arguments)}", ran, ("WARNING: ThreadSanitizer", "runtime error"))


def by_damage(bench):
    readers = glob.glob(f"{TOP}/runtime/src/brig*.c")
    wrong = built(["cc", *STRICT, *SANITIZED, f"-I{TOP}/runtime/src", "-o", f"{bench.work}/damaged", f"{HSA}/damaged.c", *readers])
    bench.counts.add("built for damage", wrong)
    if not wrong and shutil.which("HSAILasm"):
        modules = assembled(bench.work)
        ran = bench.run("damaged", str(ROUNDS), *modules)
        print(f"of {ROUNDS * len(modules)} damaged modules: {ran.stdout.strip()}")
        reports(bench.counts, "damaged modules", ran, ("ERROR: ",))


WAYS = {"valgrind": by_valgrind, "thread": lambda bench: by_sanitizer(bench, "thread"), "undefined": lambda bench: by_sanitizer(bench, "undefined"), "damaged": by_damage}


def main(archive, *ways):
    counts = Counts()
    with tempfile.TemporaryDirectory() as work:
        for way in ways or WAYS:
            WAYS[way](Bench(work, os.path.abspath(archive), None, counts))
    print(f"{counts.passed} passed, {counts.failed} failed")
    sys.exit(1 if counts.failed else 0)


if __name__ == "__main__":
    main(*sys.argv[1:])
