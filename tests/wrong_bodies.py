#!/usr/bin/env python3
"""Wrong bodies that the gate doesn't try: wrong_bodies.py [CRATE..]

The gate has the prover refuse the edits in crates/*/must-fail, and each crate that has one is proved once more for them. The
folder wrong_bodies beside this script has more, by crate: those that a clause refuses as plainly as another, and those of
crates that take long to prove for what they show. With names of crates `rt ci` tries theirs, in a copy of the repository,
over what it has proved before: some minutes a crate. Without one it is looked whether each can still be made: its old text
stands just once in the file that it names.
"""
import os
import shutil
import subprocess
import sys
import tempfile

from trial import HERE, TOP, Trials

BODIES = f"{HERE}/wrong_bodies"


def bodies_of(crate):
    return sorted(it for it in os.listdir(f"{BODIES}/{crate}") if it.endswith(".edit"))


def pairs_of(path):
    """The file that an edit names, and its old texts, each with the new one."""
    with open(path, encoding="utf-8") as it:
        rows = it.read().split("\n")
    file = next(row.removeprefix("file: ") for row in rows if row.startswith("file: "))
    olds = [row.removeprefix("old: ") for row in rows if row.startswith("old: ")]
    news = [row.removeprefix("new:").removeprefix(" ") for row in rows if row.startswith("new:")]
    return file, list(zip(olds, news, strict=True))


def can_be_made(it):
    """What is wrong with an edit; nothing where each old text stands once, and the new one says something else."""
    crate, name = it
    file, pairs = pairs_of(f"{BODIES}/{crate}/{name}")
    with open(f"{TOP}/crates/{crate}/{file}", encoding="utf-8") as it:
        text = it.read()
    wrong = [old for old, new in pairs if text.count(old) != 1 or old == new]
    return f"this doesn't stand there once: {wrong}" if wrong or not pairs else None


def try_all(crates):
    """Has `rt ci` try the wrong bodies of crates in place of the gate's edits, and answers how that ended."""
    with tempfile.TemporaryDirectory(prefix="wrong-bodies-") as room:
        for name in ("crates", "crates.txt", "HANDLES"):
            if os.path.isdir(f"{TOP}/{name}"):
                shutil.copytree(f"{TOP}/{name}", f"{room}/{name}", ignore=shutil.ignore_patterns("out", "must-fail"))
            else:
                shutil.copy(f"{TOP}/{name}", room)
        for crate in crates:
            shutil.copytree(f"{BODIES}/{crate}", f"{room}/crates/{crate}/must-fail")
        return subprocess.run(["rt", "ci", *crates], cwd=room, stdin=subprocess.DEVNULL).returncode


def main(crates):
    known = sorted(os.listdir(BODIES))
    if strange := [it for it in crates if it not in known]:
        print(f"usage: wrong_bodies.py [CRATE..], of {', '.join(known)}, and {strange[0]} is none", file=sys.stderr)
        sys.exit(2)
    if crates:
        sys.exit(try_all(crates))
    trials = Trials("wrong bodies")
    trials.every("each wrong body that is tried by hand can be made", can_be_made, [(crate, it) for crate in known for it in bodies_of(crate)])
    trials.end()


if __name__ == "__main__":
    main(sys.argv[1:])
