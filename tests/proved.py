#!/usr/bin/env python3
"""docs/proved.md names what there is: proved.py

 - Each promise of README.md has its row, by its number.
 - Each name of a row stands in the crate that the row names: a public function, a type, a definition of its specs/, or a file.
 - The table of laws is made of the sources, each with its comment; `proved.py --write` makes it anew. Each public law is in it.
 - Each law that a page names is there.

`proved.py --contracts CRATE` prints the public contracts of a crate: each function that promises something, its comment and
its clauses.
"""
import functools
import glob
import os
import re
import sys

from trial import TOP, Trials, parts_between, write_between

PAGE = f"{TOP}/docs/proved.md"
BEGIN, END = "<!-- laws -->", "<!-- end of laws -->"
# the crates whose laws say most stand first, the others by their names
FIRST = ("world", "core_model")
# the promises of README that no contract carries: the check itself, and what is tested alone
NOT_BY_NAME = ("9", "10")
FUNCTION = re.compile(r'((?:^[ \t]*///.*\n)+)(?:^[ \t]*#\[.*\n)*^([ \t]*)pub (?:extern "C" )?fn (\w+)(.*\n(?:(?!^\2[{}]).*\n)*)', re.M)
CRATES = sorted(os.listdir(f"{TOP}/crates"))


def text_of(path):
    with open(path, encoding="utf-8") as it:
        return it.read()


@functools.cache
def texts_below(crate, folder, ending):
    """The texts of a crate's files in one of its folders."""
    return [text_of(path) for path in sorted(glob.glob(f"{TOP}/crates/{crate}/{folder}/**/*.{ending}", recursive=True))]


def comment_of(lines):
    """A comment's first paragraph, in one line."""
    words = "\n".join(line.strip().removeprefix("///").strip() for line in lines.splitlines()).split("\n\n")[0]
    return " ".join(words.split()).removesuffix("It does nothing.").strip()


def functions_of(crate):
    """The public functions of a crate that have a comment: the type that each is of, its name, its comment and its head."""
    for text in texts_below(crate, "src", "rt"):
        for found in FUNCTION.finditer(text):
            before = re.findall(r"^impl(?:<.*?>)? (?:[\w:]+ for )?(\w+)", text[: found.start()], re.M)
            yield (f"{before[-1]}::" if found[2] and before else ""), found[3], found[1], found[4]


def laws_of(crate):
    """The laws of a crate: public functions that do nothing, by their comment or their name."""
    return [(owner + name, comment_of(lines)) for owner, name, lines, _ in functions_of(crate) if name.startswith("law_") or "It does nothing." in lines]


def table_of_page():
    """The table that the page has to have."""
    rows = ["| Law | Crate | Says |", "|---|---|---|"]
    for crate in [*FIRST, *(it for it in CRATES if it not in FIRST)]:
        rows += [f"| `{name}` | `{crate}` | {says} |" for name, says in laws_of(crate)]
    return "\n".join(rows)


def parts_of_page():
    return parts_between(PAGE, BEGIN, END)


def write_page():
    write_between(PAGE, BEGIN, END, table_of_page())


def names_in(cell):
    """The names in a cell, each with the crate that stands in brackets after it: `Type::{a, b}` is two names."""
    found, waiting = [], []
    for bracket, quoted in re.findall(r"(\(?)`([^`]+)`", cell):
        if bracket and quoted in CRATES:
            found += [(quoted, it) for it in waiting]
            waiting = []
            continue
        owner, inside = re.fullmatch(r"(?:(\w+)::)?\{?([\w, /.]+)\}?", quoted).groups()
        waiting += [f"{owner}::{it.strip()}" if owner else it.strip() for it in inside.split(",")]
    return found + [(None, it) for it in waiting]


def rows_of_promises():
    """The rows of the tables of promises: the first cell, and the names of the second."""
    rows = re.findall(r"^\| (.*?) \| (.*) \|$", text_of(PAGE).split(BEGIN)[0], re.M)
    return [(promise, names_in(cell)) for promise, cell in rows if promise != "Promise"]


@functools.cache
def methods_of(crate, owner):
    """The functions of a type in a crate."""
    blocks = [block for text in texts_below(crate, "src", "rt") for block in re.findall(rf"^impl(?:<.*?>)? (?:[\w:]+ for )?{owner}\b.*?^\}}", text, re.M | re.S)]
    return {name for block in blocks for name in re.findall(r"\bpub (?:const )?fn (\w+)", block)}


def is_there(crate, name):
    """Whether a crate has what a row names."""
    if name in CRATES or "/" in name:
        return os.path.exists(f"{TOP}/{name}") or name in CRATES
    if crate is None:
        return False
    if "::" in name:
        owner, method = name.split("::")
        return method in methods_of(crate, owner)
    sources = "\n".join(texts_below(crate, "src", "rt"))
    specs = "\n".join(texts_below(crate, "specs", "antt"))
    public = rf'\bpub (?:extern "C" )?(?:fn|struct|enum|trait|union) {name}\b'
    return re.search(public, sources) is not None or re.search(rf"^(?:\w+ )*pub (?:\w+ )*{name}\b", specs, re.M) is not None


def promises_of_readme():
    """The numbers of README's promises."""
    part = text_of(f"{TOP}/README.md").split("\n## What is proved\n")[1].split("\n## ")[0]
    return re.findall(r"^(\d+)\. ", part, re.M)


def tell_contracts(crate):
    """Prints the public contracts of a crate."""
    for owner, name, lines, head in functions_of(crate):
        clauses = [line.strip() for line in head.splitlines() if line.strip().startswith(("requires", "ensures"))]
        if clauses:
            print(f"{owner}{name}: {comment_of(lines)}", *clauses, sep="\n    ", end="\n\n")


def main():
    trials = Trials("what is proved")
    before = text_of(PAGE).split(BEGIN)[0]
    promised = promises_of_readme()
    numbered = re.findall(r"^\| (\d+): ", before, re.M)
    trials.every("each promise of README has its row", lambda it: None if it in numbered else "no row", promised)
    trials.every("each row of a number is a promise of README", lambda it: None if it in promised else "no promise", numbered)
    named = [(promise, *it) for promise, names in rows_of_promises() for it in names]
    trials.every("each name of a row is there", lambda it: None if is_there(*it[1:]) else "it isn't", named)
    trials.every("each row names something", lambda it: None if it[1] or it[0].split(":")[0] in NOT_BY_NAME else "it doesn't", rows_of_promises())
    trials.every("the page has the table of laws", lambda it: None if it[1] == table_of_page() else "tests/proved.py --write makes it anew", [parts_of_page()])
    laws = {name.split("::")[-1] for crate in CRATES for name, says in laws_of(crate) if says}
    public = [name for crate in CRATES for text in texts_below(crate, "src", "rt") for name in re.findall(r"^\s*pub fn (law_\w+)", text, re.M)]
    trials.every("each public law is told, with its comment", lambda it: None if it in laws else "it isn't", public)
    pages = [f"{TOP}/README.md", *glob.glob(f"{TOP}/docs/*.md")]
    cited = [(os.path.basename(page), name) for page in pages for name in sorted(set(re.findall(r"`(?:\w+::)?(law_\w+)`", text_of(page))))]
    trials.every("each law that a page names is there", lambda it: None if it[1] in laws else "it isn't", cited)
    trials.end()


if __name__ == "__main__":
    if sys.argv[1:] == ["--write"]:
        write_page()
    elif sys.argv[1:2] == ["--contracts"] and len(sys.argv) == 3:
        tell_contracts(sys.argv[2])
    elif sys.argv[1:]:
        sys.exit("usage: proved.py [--write | --contracts CRATE]")
    else:
        main()
