#!/usr/bin/env python3
"""Runs what the pages show, README.md and docs/*.md, with a built brokerd, and looks for the files that they name and link:

    tests/docs.py BROKERD

Each crate has a README of its own: what it is, what it stands on, where its definitions begin. They are looked through too.

docs/CONTRIBUTING.md says how a block is marked. The last line is `N passed, M failed`, as those of the other trials here,
and the exit status is 0 where none failed."""

import os
import pathlib
import re
import subprocess
import sys
import tempfile

from trial import DEADLINE

TOP = pathlib.Path(__file__).resolve().parent.parent
FENCE = re.compile(r"^(`{3,})(.*)$")
NAMED = re.compile(r"`([\w./-]+\.(?:antt|c|case|edit|hsail|md|names|py|rt|script|sh|svg|toml))`")
LINK = re.compile(r"\]\(([^)\s]+)\)")

# how many words README and all pages have at the most, without the recipes for the prover and the tables that a script makes
MOST_README, MOST_WORDS = 900, 50_000

# What `make` is for a page's commands: the program is built already.
MAKE = '#!/bin/sh\n[ $# = 0 ] || { echo "make $1: not here" >&2; exit 2; }\necho build/brokerd is there\n'


class Wrong(Exception):
    """A block that isn't as the page has it."""


class Block:
    """A fenced block: the line of its fence, the words of its fence, and its lines."""

    def __init__(self, line, words, lines):
        self.line, self.lines = line, lines
        self.kind = words[0] if words and "=" not in words[0] else ""
        self.marks = dict(word.split("=", 1) for word in words if "=" in word)
        unknown = set(self.marks) - {"over", "behind", "names", "file", "shows"}
        if unknown:
            raise Wrong(f"unknown mark {', '.join(sorted(unknown))}")

    def is_marked(self):
        return bool(self.kind in ("script", "console") or self.marks)

    def asks(self):
        return any(line.startswith(("> ", "$ ")) for line in self.lines)


def blocks_of(text):
    """The fenced blocks of a page, in order."""
    fence, blocks = None, []
    for number, line in enumerate(text.split("\n"), 1):
        found = FENCE.match(line)
        if fence is None:
            if found:
                fence, words, begin, lines = found[1], found[2].split(), number, []
        elif found and found[1] == fence and not found[2]:
            blocks.append(Block(begin, words, lines))
            fence = None
        else:
            lines.append(line)
    if fence is not None:
        raise Wrong("a block has no end")
    return blocks


def differs(wanted, came):
    """The first difference, or none; a wanted line `...` stands for any lines."""
    if "..." not in wanted:
        for at in range(max(len(wanted), len(came))):
            pair = [lines[at] if at < len(lines) else None for lines in (wanted, came)]
            if pair[0] != pair[1]:
                told = ["nothing" if it is None else it for it in pair]
                return f"line {at + 1} of the block\n  page: {told[0]}\n  came: {told[1]}"
        return None
    at = wanted.index("...")
    head, tail = wanted[:at], wanted[at + 1 :]
    wrong = differs(head, came[:at])
    if wrong or not tail:
        return wrong
    starts = range(at, len(came) + 1)
    if any(differs(tail, came[start:]) is None for start in starts):
        return None
    return f"behind `...` nothing that came is as from this line on\n  page: {tail[0]}\n  came: " + "\n        ".join(came[at:])


def program(words, room, given="", shell=False):
    """What a program wrote to standard output, and to standard error."""
    ran = subprocess.run(
        words, cwd=room, input=given, shell=shell, capture_output=True, text=True, timeout=DEADLINE,
        env={"PATH": f"{room}/bin:/usr/local/bin:/usr/bin:/bin", "LANG": "C.UTF-8"},
    )
    return ran.stdout.splitlines(), ran.stderr.splitlines()


def requests_of(path, count):
    """The first lines of a script that have a reply, so many of them or all."""
    lines = [it for it in path.read_text().splitlines() if it.split() and not it.startswith("#")]
    return lines[: int(count)] if count else lines


def reply_length(line):
    """How many lines a reply has that begins with this one."""
    found = re.fullmatch(r"(audit|rotated|errors|list|state) (\d+)", line)
    return 1 + int(found[2]) if found else 1


class Page:
    """The blocks of one page, run in turn in a folder of their own."""

    def __init__(self, path, room):
        self.path, self.room = path, room
        self.asked = None

    def spelled(self, block):
        """The block's lines, with the texts that names stand for."""
        names = {}
        if "names" in block.marks:
            for line in (TOP / block.marks["names"]).read_text().splitlines():
                name, found, text = line.partition(" = ")
                if found:
                    names["{" + name + "}"] = text
        lines = block.lines
        for name, text in names.items():
            lines = [line.replace(name, text) for line in lines]
        return lines

    def before(self, block):
        """What is asked before a block's own requests."""
        behind = block.marks.get("behind")
        if behind is None:
            return []
        if behind == "above":
            if self.asked is None:
                raise Wrong("no script stands above")
            return self.asked
        path, _, count = behind.partition(":")
        return requests_of(self.room / path, count)

    def script(self, block):
        """A dialogue: what is asked behind `> `, and the replies."""
        lines = self.spelled(block)
        before = self.before(block)
        asked = [line[2:] for line in lines if line.startswith("> ")]
        if not asked:
            raise Wrong("nothing is asked")
        self.asked = before + asked
        out, err = program(
            ["brokerd", "run", block.marks["over"]], self.room, "".join(f"{it}\n" for it in self.asked)
        )
        came = []
        for place, line in enumerate(self.asked):
            own = place >= len(before)
            if own:
                came.append(f"> {line}")
            if line.split() and not line.startswith("#") and out:
                count = reply_length(out[0])
                came += out[:count] if own else []
                out = out[count:]
        return differs(lines, came + out + err)

    def console(self, block):
        """Commands behind `$ `, and what they write."""
        came, at = [], 0
        for line in block.lines:
            if line.startswith("$ "):
                out, err = program(line[2:], self.room, shell=True)
                came += [line, *out, *err]
                at += 1
        if not at:
            raise Wrong("nothing is typed")
        return differs(block.lines, came)

    def shown(self, block):
        """A part of a file of the repository."""
        path = block.marks["shows"]
        held = (TOP / path).read_text().split("\n")
        count = len(block.lines)
        if any(held[at : at + count] == block.lines for at in range(len(held) - count + 1)):
            return None
        missing = [line for line in block.lines if line not in held]
        return f"{path} has no such lines" + (f"\n  page: {missing[0]}" if missing else " in this order")

    def run(self, block):
        """Why a block is not as the page has it, or none."""
        if "file" in block.marks:
            (self.room / block.marks["file"]).write_text("".join(f"{it}\n" for it in block.lines))
        if "shows" in block.marks:
            return self.shown(block)
        if block.kind == "script":
            return self.script(block)
        if block.kind == "console":
            return self.console(block)
        return None


def outside_blocks(text):
    """The lines of a page that stand in none of its blocks."""
    fence = None
    for line in text.split("\n"):
        found = FENCE.match(line)
        if fence is None and not found:
            yield line
        elif fence is None:
            fence = found[1]
        elif line == fence:
            fence = None


def paths():
    """The paths of the files of the repository, as one text, a line each."""
    found = []
    for folder, folders, files in os.walk(TOP):
        folders[:] = [it for it in folders if it not in ("out", "build", ".git")]
        found += [f"{folder}/{it}\n" for it in files]
    return "".join(found)


def missing_files(text, held):
    """The files that a page names and that no path ends with."""
    made = {block.marks.get("file") for block in blocks_of(text)}
    named = {name for line in outside_blocks(text) for name in NAMED.findall(line)}
    return sorted(name for name in named - made if f"/{name}\n" not in held)


def anchors_of(path):
    """The anchors of a page: its headings, as sites of repositories spell them."""
    heads = [line.lstrip("#").strip() for line in outside_blocks(path.read_text()) if re.match(r"#+ ", line)]
    return {re.sub(r"[^\w\- ]", "", head.lower()).replace(" ", "-") for head in heads}


def dead_links(path):
    """The links of a page that lead to no file of the repository, or to no heading of it."""
    dead = []
    for link in (it for line in outside_blocks(path.read_text()) for it in LINK.findall(line)):
        target, _, anchor = link.partition("#")
        file = (path.parent / target) if target else path
        if "://" not in link and (not file.exists() or anchor and anchor not in anchors_of(file)):
            dead.append(link)
    return dead


def try_names(path, held):
    """Looks for the files that a page names, and for what it links: one trial each a page."""
    counts = [0, 0]
    for what, missing in (("names files that aren't there", missing_files(path.read_text(), held)), ("has dead links", dead_links(path))):
        counts[1 if missing else 0] += 1
        if missing:
            print(f"{path.relative_to(TOP)} {what}: {', '.join(missing)}")
    return counts


def crates_listed():
    """The crates of crates.txt, each with those that it stands on."""
    rows = [line.partition(":") for line in (TOP / "crates.txt").read_text().splitlines() if not line.startswith("#")]
    return {name.split()[0]: below.split() for name, colon, below in rows if colon}


def try_crate(name, below, picture):
    """Whether a crate's README says three things, of which two are looked at, and the page on architecture has it in its picture."""
    path = TOP / "crates" / name / "README.md"
    parts = path.read_text().split("\n\n") if path.exists() else []
    if len(parts) != 3 or not parts[1].startswith("It stands on ") or not parts[2].startswith("Definitions"):
        return "it has no README of three parts: what it is, `It stands on`, `Definitions`"
    if strange := set(re.findall(r"`(\w+)`", parts[1])) - set(below):
        return f"crates.txt has it stand on no {', '.join(sorted(strange))}"
    if missing := [it for it in re.findall(r"`((?:specs|src)/[\w./]+)`", parts[2]) if not (path.parent / it).exists()]:
        return f"it has no {', '.join(missing)}"
    return None if re.search(rf"\b{name}\b", picture) else "docs/architecture.md has it not in its picture"


def try_crates():
    """One trial a crate."""
    counts, picture = [0, 0], (TOP / "docs" / "architecture.md").read_text().split("```")[1]
    for name, below in crates_listed().items():
        wrong = try_crate(name, below, picture)
        counts[1 if wrong else 0] += 1
        if wrong:
            print(f"crates/{name}: {wrong}")
    return counts


def try_page(path, brokerd):
    """Runs a page's blocks, and tells how many passed and failed."""
    passed = failed = 0
    name = path.relative_to(TOP)
    with tempfile.TemporaryDirectory(prefix="docs-") as folder:
        room = pathlib.Path(folder)
        (room / "bin").mkdir()
        (room / "bin" / "brokerd").symlink_to(brokerd)
        (room / "bin" / "make").write_text(MAKE)
        (room / "bin" / "make").chmod(0o755)
        for it in ("cases", "crates", "docs", "examples", "tests", "README.md"):
            (room / it).symlink_to(TOP / it)
        page = Page(path, room)
        for block in blocks_of(path.read_text()):
            if not block.is_marked() and not block.asks():
                continue
            try:
                wrong = page.run(block) if block.is_marked() else "asks something, and isn't marked"
            except (Wrong, OSError, KeyError, UnicodeDecodeError, subprocess.TimeoutExpired) as error:
                wrong = f"{type(error).__name__}: {error}"
            if wrong:
                failed += 1
                print(f"{name}, block of line {block.line}: {wrong}")
            else:
                passed += 1
    return passed, failed


def words_of(path):
    """How many words a page has, but for the tables that a script makes."""
    text = re.sub(r"<!-- (functions|laws) -->.*?<!-- end of \1 -->", "", path.read_text(encoding="utf-8"), flags=re.DOTALL)
    return len(text.split())


def try_words():
    """README and all pages are short enough to be read, and to be kept true. The recipes for the prover are looked up, not read."""
    crates = [TOP / "crates" / name / "README.md" for name in crates_listed()]
    pages = [it for it in (TOP / "docs").glob("*.md") if it.name != "prover.md"]
    failed = 0
    for what, paths_of, most in (("README has", [TOP / "README.md"], MOST_README), ("all pages have", [TOP / "README.md", *pages, *crates], MOST_WORDS)):
        count = sum(words_of(it) for it in paths_of)
        print(f"{'ok' if count <= most else 'FAILED'} {what} {count:,} words, at most {most:,}")
        failed += count > most
    return 2 - failed, failed


def main(words):
    if len(words) != 2 or not os.access(words[1], os.X_OK):
        print("usage: tests/docs.py BROKERD", file=sys.stderr)
        return 2
    brokerd = pathlib.Path(words[1]).resolve()
    passed = failed = 0
    held = paths()
    for path in [TOP / "README.md", *sorted((TOP / "docs").glob("*.md"))]:
        try:
            counts = [try_page(path, brokerd), try_names(path, held)]
        except Wrong as error:
            print(f"{path.relative_to(TOP)}: {error}")
            counts = [(0, 1)]
        passed, failed = passed + sum(it[0] for it in counts), failed + sum(it[1] for it in counts)
    for count in (try_crates(), try_words()):
        passed, failed = passed + count[0], failed + count[1]
    print(f"docs: {passed} passed, {failed} failed")
    print(f"{passed} passed, {failed} failed")
    return 1 if failed or not passed else 0


if __name__ == "__main__":
    sys.exit(main(sys.argv))
