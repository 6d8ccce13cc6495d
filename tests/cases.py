#!/usr/bin/env python3
"""Holds brokerd's commands against all files of cases, each case a run of the program: cases.py PROGRAM

cases/files lists the files, and how many cases each has; cases/differs.told says how the one that is wrong on purpose is told.
"""
import contextlib
import glob
import io
import os
import subprocess
import sys

from against import NoCases, counts, held, hold, text_in
from trial import DEADLINE, HERE, TOP, program_given

CASES = f"{TOP}/cases"
USAGE = "the command line takes 1 to 1048576 entries, and ends with its usage on any other number"
# the cases that brokerd can't be handed by its command line, by the title of their file, and why
LEFT = {"lines": {"an audit has a place at least": USAGE, "an audit has 1,048,576 places at most": USAGE}}
# the file that is wrong on purpose
WRONG = "differs.case"


def commands(program):
    return {
        "scripts": [program, "run", "{POLICY}", "{NEXT}..", "--audit", "{AUDIT}"],
        "strict": [program, "run", "{POLICY}", "{NEXT}..", "--audit", "{AUDIT}", "--strict"],
        "assembled": [program, "assemble", "{POLICY}"],
        "policies": [program, "check", "--explain=never", "{POLICY}"],
        "listings": [program, "kernel", "{TEXT}"],
        "kernels": [program, "kernel", "--steps", "{TEXT}"],
        "words": [program, "explain", "{WORD}"],
    }


# the files that a script here writes: its words, what it is given, and the file
WRITTEN = [(["turned_bits.py", it], None, f"turned_{it}.case") for it in ("fill", "kernel", "barrier_and", "barrier_or")]
WRITTEN.append((["beginnings.py"], "inc.hsail", "beginnings.case"))


def is_written_anew(words, given, name):
    """Whether a file that a script here writes is what it writes."""
    with open(f"{CASES}/{given}" if given else os.devnull, "rb") as it:
        made = subprocess.run([sys.executable, "-B", f"{HERE}/{words[0]}", *words[1:]], stdin=it, capture_output=True)
    with open(f"{CASES}/{name}", "rb") as it:
        return made.returncode == 0 and made.stdout == it.read()


def listed():
    """The files in the list, each with how many cases it has."""
    return {name: int(number) for name, number in (line.split() for line in text_in(f"{CASES}/files").splitlines())}


def miscounted(files, numbers):
    """The files that hold another count of cases than stands in the list."""
    return [it.title for it, number in zip(files, numbers) if sum(case.texts() for case in it.cases) != number]


def missing():
    """The entries of the list above that name no case."""
    texts = {title: text_in(f"{CASES}/{title}.case") for title in LEFT}
    return [name for title, names in LEFT.items() for name in names if f"== {name}\n" not in texts[title]]


def reports_differences(program):
    """Whether each difference of the file that is wrong on purpose is told, as it is wanted."""
    told = io.StringIO()
    with contextlib.redirect_stdout(told):
        found = hold(commands(program), [f"{CASES}/{WRONG}"], DEADLINE)
    return found == (0, 4) and text_in(f"{CASES}/differs.told") == told.getvalue()


def is_ended():
    """Whether a program that doesn't end is ended in time, and differs."""
    told = io.StringIO()
    with contextlib.redirect_stdout(told):
        found = hold({"scripts": ["sleep", "60"]}, [f"{CASES}/first.case"], 0.2)
    return found == (0, 2) and "it did not end within 0.2 seconds" in told.getvalue()


def main():
    program = program_given()
    numbers = listed()
    try:
        files = held(commands(program), [f"{CASES}/{it}" for it in numbers], DEADLINE, LEFT)
        passed, failed = counts(files)
        further = [("each file has as many cases as the list says", not miscounted(files, numbers.values())), (f"each difference of {WRONG} is told", reports_differences(program))]
    except NoCases as error:
        print(error)
        passed, failed, further = 0, 1, []
    further += [(f"{name} is what {words[0]} writes", is_written_anew(words, given, name)) for words, given, name in WRITTEN]
    further.append(("each file of cases is tried", sorted([*numbers, WRONG]) == sorted(glob.glob("**/*.case", root_dir=CASES, recursive=True))))
    further.append(("each case that is left out stands in its file", not missing()))
    further.append(("a program that doesn't end is ended, and differs", is_ended()))
    for name, well in further:
        print(f"{'ok' if well else 'FAILED'} {name}")
        passed, failed = passed + bool(well), failed + (not well)
    print(f"{passed} passed, {failed} failed")
    sys.exit(1 if failed else 0)


if __name__ == "__main__":
    main()
