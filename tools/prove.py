#!/usr/bin/env python3
"""Proves a crate and what it stands on, and says before what that is and how long it may take: tools/prove.py CRATE

The minutes stand in tools/minutes.toml, which the gate writes. They are for people: what is proved doesn't depend on them.
"""
import os
import subprocess
import sys
import tomllib

import unproved

TOP = unproved.TOP


def minutes():
    """The minutes of processor time that the proofs of each crate took, as the gate measured them."""
    with open(f"{unproved.HERE}/minutes.toml", "rb") as it:
        return tomllib.load(it)


def is_program(crate):
    return os.path.exists(f"{TOP}/crates/{crate}/src/main.rt")


def command(crate):
    """The command that proves a crate: one with a C interface becomes an archive, and a program is built."""
    if is_program(crate):
        return ["rt", "run", "--", "--version"]
    with open(f"{TOP}/crates.txt", encoding="utf-8") as it:
        return ["rt", "lib" if any(line.startswith(f"{crate} staticlib:") for line in it) else "check"]


def is_kept(crate):
    """Whether an earlier run here has left the crate as a proved library."""
    return os.path.isdir(f"{TOP}/crates/{crate}/out/rlib")


def told(crate, below):
    """What is said before it starts."""
    taken = minutes()
    proofs = sum(taken.get(it, 0) for it in [crate, *below])
    there = sum(taken.get(it, 0) for it in below if is_kept(it))
    unknown = [it for it in [crate, *below] if it not in taken]
    lines = [f"{crate} stands on {len(below)} crates: {' '.join(below)}" if below else f"{crate} stands on no other crate here"]
    lines.append(f"their proofs take some {proofs:.0f} minutes of processor time from nothing, those of {crate} alone {taken.get(crate, 0):.1f}")
    if there:
        lines.append(f"those of {there:.0f} minutes were proved here before, and are taken up where nothing below them changed")
    if unknown:
        lines.append(f"nobody has measured {' '.join(unknown)}")
    return lines


def main(crate):
    if not os.path.isdir(f"{TOP}/crates/{crate}/src") or not crate:
        print("usage: make prove CRATE=NAME, with a name of crates/", file=sys.stderr)
        return 2
    below = [it for it in unproved.crates_below(crate) if it != crate]
    print("\n".join(told(crate, below)), flush=True)
    words = command(crate)
    print(f"(cd crates/{crate} && {' '.join(words)})", flush=True)
    return subprocess.run(words, cwd=f"{TOP}/crates/{crate}", stdin=subprocess.DEVNULL).returncode


if __name__ == "__main__":
    sys.exit(main(sys.argv[1] if len(sys.argv) == 2 else ""))
