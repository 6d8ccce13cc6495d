#!/usr/bin/env python3
"""The pages that the program prints are those of docs/, byte for byte: pages.py PROGRAM

A program has no files of its own, so these pages stand in crates/pages once more; `pages.py --write` writes them there.
"""
import os
import sys

from trial import TOP, Ended, Trials, run
from words import COMMANDS

# the pages by the names that help knows them by, with their files and what they are about
PAGES = {"scripts": ("scripts", "on scripts"), "policy": ("policy", "on policies"), "kernels": ("kernels", "on how a kernel runs"), "readable": ("assemble", "on readable lines")}


def page(name):
    with open(f"{TOP}/docs/{PAGES[name][0]}.md", encoding="utf-8") as it:
        return it.read()


def source(name):
    """The source of a page's module."""
    text = page(name).replace("\\", "\\\\").replace('"', '\\"').replace("\t", "\\t")
    file, about = PAGES[name]
    return f'//! The page {about}: docs/{file}.md, which `tests/pages.py --write` puts here.\n\n/// The page\'s text.\npub const TEXT: &str = "{text}";\n'


def write():
    for name in PAGES:
        with open(f"{TOP}/crates/pages/src/{name}_page.rt", "w", encoding="utf-8") as it:
            it.write(source(name))


def first_rows(name):
    """The rows of the page's tables that begin with a word in back quotes: that word, and the rows' cells."""
    found = {}
    for line in page(name).splitlines():
        if line.startswith("| `"):
            head = line[3:].split("`")[0].split(" ")[0]
            found.setdefault(head, []).append(line.removeprefix("| ").removesuffix(" |").split(" | "))
    return found


def line_rows(name):
    """The rows of the page's tables of lines, by their first words: the cells of each, with those of other tables of scripts
    that begin with the same word."""
    found, is_inside = {}, False
    for line in page(name).splitlines():
        is_inside = line.startswith("| Line |") or is_inside and bool(line)
        if is_inside and line.startswith("| `"):
            found.setdefault(line[3:].split("`")[0].split(" ")[0], []).append([it.strip() for it in line.split("|") if it.strip()])
    if name == "scripts":
        return {word: [[it.strip() for cells in row for it in cells.split("|") if it.strip()] for row in first_rows(name)[word]] for word in found}
    return found


def main(program):
    trials = Trials("pages")
    printed = lambda name: None if (it := run([program, "help", name])) == Ended(0, page(name).encode(), b"") else f"it ended otherwise: {it}"
    trials.every("help of a page prints it", printed, PAGES)

    def tells(case):
        """That a command tells the rows of a first word of a line, of these pages."""
        command, word, names = case
        rows = [it for name in names for it in line_rows(name).get(word, [])]
        wanted = "".join(f"{cells[0]}\n" + "".join(f"  {it}\n" for it in cells[1:]) for cells in rows)
        it = run([program, command, word])
        return None if wanted and it == Ended(0, wanted.encode(), b"") else f"it ended otherwise: {it}"

    both = ("scripts", "readable")
    trials.every("help of a first word of a line tells it", tells, [("help", it, both) for name in both for it in line_rows(name) if it not in COMMANDS])
    trials.every("explain of a first word of a readable line tells it", tells, [("explain", it, ("readable",)) for it in line_rows("readable")])
    helped = lambda words: None if (it := run([program, *words])).status == 0 and b"Usage: brokerd" in it.out and not it.err else f"{it}"
    trials.every("help of a command is as ever", helped, [["help"], ["help", "run"], ["help", "check"]])
    unknown = lambda words: None if (it := run([program, *words])).status == 2 and not it.out and it.err else f"{it}"
    trials.every("help of something else ends with 2", unknown, [["help", "nothing"], ["help", "scripts", "policy"], ["help", "drain", "1"], ["help", "publishes"], ["help", ""]])
    trials.end()


if __name__ == "__main__":
    if sys.argv[1:] == ["--write"]:
        write()
    else:
        main(os.path.abspath(sys.argv[1]))
