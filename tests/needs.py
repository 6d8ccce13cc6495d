#!/usr/bin/env python3
"""What `make` needs, and what it needn't do: needs.py

A tool that isn't there is told by its name and its package, and nothing is built: each in turn is left out of a path that has all
others. What is as it was isn't built anew.
"""
import os
import shutil
import subprocess
import sys
import tempfile

from trial import TOP, Trials

sys.path.insert(0, f"{TOP}/tools")
import unproved  # of tools/

# the tools, and the package of each, as a part of what is told
NEEDED = {"rt": "toolchain", "python3": "Debian package python3", "gcc": "Debian package gcc", "g++": "Debian package g++"}


class Pieces:
    """A program that comes in these pieces, each a text of LLVM's language."""

    def __init__(self, texts):
        self.texts = texts

    def pieces(self, _):
        return [[it] for it in self.texts]


def looked(without):
    """What tools/needs.sh says where some tools are missing, and what `make` does then."""
    with tempfile.TemporaryDirectory(prefix="needs-") as room:
        for name in {*NEEDED, "sh", "make"} - without:
            os.symlink(shutil.which(name), f"{room}/{name}")
        how = {"stdin": subprocess.DEVNULL, "capture_output": True, "text": True, "env": {**os.environ, "PATH": room, "LC_ALL": "C"}}
        script = subprocess.run(["/bin/sh", f"{TOP}/tools/needs.sh"], **how)
        made = subprocess.run([shutil.which("make"), "-C", TOP, f"OUT={room}/brokerd"], **how) if without else None
        return script, made, os.path.exists(f"{room}/brokerd")


def is_told(without):
    """What is wrong where some tools are missing; nothing where each is told, all at once, and nothing is built."""
    script, made, is_built = looked(without)
    wanted = [f"missing: {name} (" for name in without] + [NEEDED[name] for name in without]
    if script.returncode != 1 or script.stdout or not all(it in script.stderr for it in wanted):
        return f"it said {script.stderr!r}, with status {script.returncode}"
    if len(script.stderr.splitlines()) != len(without):
        return f"it said more: {script.stderr!r}"
    return "make went on" if is_built or not made.returncode or script.stderr not in made.stderr else None


def only_changed_is_compiled(_):
    """What is wrong where one of two pieces of a program changes; nothing where that one alone is compiled anew."""
    target = f'target triple = "{unproved.TARGET}"\n'
    texts = [f"{target}define i32 @f{number}() {{\n  ret i32 {number}\n}}\n" for number in range(3)]
    with tempfile.TemporaryDirectory(prefix="pieces-") as room:
        first = unproved.compiled(Pieces(texts[:2]), f"{room}/kept", False, "-fPIE")
        made = os.stat(first[0]).st_mtime_ns
        second = unproved.compiled(Pieces(texts[::2]), f"{room}/kept", False, "-fPIE")
        if second[0] != first[0] or os.stat(second[0]).st_mtime_ns != made:
            return "the piece that is as it was is compiled anew"
        if second[1] == first[1] or not os.path.exists(second[1]):
            return "the piece that changed isn't compiled"
        return "a piece that nothing uses is kept" if os.path.exists(first[1]) else None


def nothing_is_built_twice(_):
    """What is wrong where a program was made of these very texts; nothing where it stays as it is."""
    with tempfile.TemporaryDirectory(prefix="built-") as room:
        out = f"{room}/brokerd"
        for path, text in (out, "made"), (f"{out}.stamp", unproved.digest_of("brokerd", False)):
            with open(path, "w", encoding="utf-8") as it:
                it.write(text)
        script = [sys.executable, "-B", f"{TOP}/tools/unproved.py", "brokerd", out]
        ran = subprocess.run(script, stdin=subprocess.DEVNULL, capture_output=True, text=True)
        with open(out, encoding="utf-8") as it:
            return None if "is as the sources are" in ran.stdout and it.read() == "made" else f"it said {ran.stdout!r}"


def is_quiet(_):
    script, _, _ = looked(set())
    return None if (script.returncode, script.stdout, script.stderr) == (0, "", "") else f"it said {script.stderr!r}"


def main():
    trials = Trials("tools that make needs")
    trials.every("each that is missing is told, and nothing is built", is_told, [{it} for it in NEEDED] + [set(NEEDED), {"gcc", "g++"}])
    trials.every("where none is missing nothing is told", is_quiet, [None])
    trials.every("a piece of a program that is as it was isn't compiled anew", only_changed_is_compiled, [None])
    trials.every("what was made of these very texts isn't built once more", nothing_is_built_twice, [None])
    trials.end()


if __name__ == "__main__":
    main()
