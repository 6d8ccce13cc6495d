"""The functions of hsa.h: runtime/functions.tsv has a row for each, from which docs/hsa.md has its table.

    tests/hsa_functions.py --write

writes the table of docs/hsa.md anew. tests/hsa.py holds table, page, symbols and tests against each other, and puts a function that
answers success at once in the place of each."""
import os
import re
import subprocess
import sys
from collections import Counter, namedtuple
from concurrent.futures import ThreadPoolExecutor

from trial import TOP, parts_between, write_between

TABLE = f"{TOP}/runtime/functions.tsv"
PAGE = f"{TOP}/docs/hsa.md"
BEGIN, END = "<!-- functions -->", "<!-- end of functions -->"
KINDS = {"hsa.h": "", "hsa.h_deprecated": "deprecated", "extension": "extension"}

Row = namedtuple("Row", "function kind state note test")


def rows():
    with open(TABLE, encoding="utf-8") as it:
        return [Row(*line.rstrip("\n").split("\t")) for line in it if not line.startswith("#")]


def table_of_page():
    """The table that the page has to have."""
    count = Counter("works" if row.state == "works" else "lacks" for row in rows())
    lines = [f"{count['works']} functions do what their header says. {count['lacks']} answer an error, since the agent lacks what they are for.",
             "", "| Function | | Answers | |", "|---|---|---|---|"]
    for row in rows():
        state = row.state if row.state == "works" else "an error" if row.state == "refuses" else f"`{row.state}`"
        lines.append(f"| `{row.function}` | {KINDS[row.kind]} | {state} | {row.note} |")
    return "\n".join(lines)


def parts_of_page():
    return parts_between(PAGE, BEGIN, END)


def write_page():
    write_between(PAGE, BEGIN, END, table_of_page())


def symbols_of(library):
    """The functions that a library exports, with their version."""
    told = subprocess.run(["nm", "-D", "--defined-only", library], capture_output=True, text=True).stdout
    return {line.split()[2] for line in told.splitlines() if re.match(r"\S+ [TW] hsa_", line)}


def symbols_of_map():
    with open(f"{TOP}/runtime/hsa.map", encoding="utf-8") as it:
        return set(re.findall(r"^    (hsa_\w+);$", it.read(), re.M))


def differences(name, some, others):
    """What is wrong where two sets differ, or none."""
    return f"{name}: {' '.join(sorted(some ^ others))}" if some != others else None


def check_table(counts, library, functions):
    """Holds the table against the library's symbols, its map, its page, the tests by name, and Debian's library where it is there."""
    table = rows()
    names = {row.function for row in table}
    counts.add("each function has one row", None if len(names) == len(table) == 224 else f"{len(table)} rows, {len(names)} names")
    counts.add("the library exports what the table has", differences("symbols", symbols_of(library), {f"{name}@@ROCR_1" for name in names}))
    counts.add("the map has what the table has", differences("map", symbols_of_map(), names))
    tested = set(subprocess.run([functions, "--list"], capture_output=True, text=True).stdout.split())
    counts.add("each function that works has a test", differences("tests", tested, {row.function for row in table if not row.state.startswith("HSA_")}))
    counts.add("docs/hsa.md has the table", None if parts_of_page()[1] == table_of_page() else "tests/hsa_functions.py --write makes it anew")
    theirs = "/usr/lib/x86_64-linux-gnu/libhsa-runtime64.so.1"
    if os.path.exists(theirs):
        counts.add("Debian's library exports the same", differences("symbols", symbols_of(theirs), {f"{name}@@ROCR_1" for name in names}))


def check_tests_find(counts, work, functions, setting):
    """Each test fails where its function answers success, or 0, at once: that is put before it by a library of its own."""
    with open(f"{work}/nothing.c", "w", encoding="utf-8") as it:
        it.write("long nothing(void)\n{\n    return 0;\n}\n")
    subprocess.run(["cc", "-c", "-fPIC", "-o", f"{work}/nothing.o", f"{work}/nothing.c"], check=True)

    def passes(row):
        stub = f"{work}/{row.function}.so"
        subprocess.run(["ld", "-shared", f"--defsym={row.function}=nothing", "-o", stub, f"{work}/nothing.o"], check=True)
        return subprocess.run([functions, row.function], env={**setting, "LD_PRELOAD": stub}, capture_output=True).returncode == 0

    tested = [row for row in rows() if not row.state.startswith("HSA_")]
    with ThreadPoolExecutor(2) as pool:
        for row, still_passes in zip(tested, pool.map(passes, tested)):
            counts.add(f"the test of {row.function} finds one that does nothing", "it passes" if still_passes else None)


if __name__ == "__main__":
    if sys.argv[1:] == ["--write"]:
        write_page()
    else:
        sys.exit(__doc__)
