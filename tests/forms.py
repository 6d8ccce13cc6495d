#!/usr/bin/env python3
"""The tables of scripts are told as they stand, on the page on scripts, in the help and in JSON: forms.py PROGRAM

 - The forms of lines: `FORMS` of crates/script/src/forms.rt, by which lines are read, and of which the help is made. Each row
   is shown as `stop Q`; the two forms of `signal` share a row of the page, whose text names the second one's word.
- The refusals: `REFUSALS` of crates/script/src/refusals.rt, by which replies name them.
- The rules: `RULES` of crates/script/src/rules.rt.
"""
import json
import re

from trial import FILL, PRELUDE, SAMPLE, TOP, Trials, program_given, run, text

ROW = re.compile(r'^    [A-Z]\w* "(\w+)"((?: "[^"]+" \w+,?)*) ?;$', re.M)


def table():
    """The forms, each as its words."""
    with open(f"{TOP}/crates/script/src/forms.rt", encoding="utf-8") as it:
        text = it.read()
    begin = text.index("const FORMS")
    rows = text[begin : text.index("};", begin)]
    found = [[name, *re.findall(r'"([^"]+)"', operands)] for name, operands in ROW.findall(rows)]
    assert len(found) == int(re.search(r"\[LineForm; (\d+)\]", text)[1]), "a row of the table isn't understood"
    return found


def meant(name, row):
    """The rows of a table whose last column is a meaning: what the pattern finds of each."""
    with open(f"{TOP}/crates/script/src/{name}.rt", encoding="utf-8") as it:
        text = it.read()
    found = re.findall(row, text[text.index("macro_rules!") :], re.M)
    assert len(found) == int(re.search(r"\[\w+Row; (\d+)\]", text)[1]), "a row of the table isn't understood"
    return found


def refusals():
    """The refusals, each as its number, its name and its meaning."""
    return meant("refusals", r'^    (\d+) "(\w+)" "(.*)";$')


def rules():
    """The rules, each as its variant, its name and its meaning."""
    return meant("rules", r'^    (\w+) \w+ "(\w+)" "(.*)";$')


def page():
    """The page on scripts."""
    with open(f"{TOP}/docs/scripts.md", encoding="utf-8") as it:
        return it.read()


def ranges(names):
    """Names in order, as `L1 to L3, B1`."""
    groups = {}
    for name in names:
        groups.setdefault(name[0], []).append(name)
    return ", ".join(it[0] if len(it) == 1 else f"{it[0]} to {it[-1]}" for it in groups.values())


# Scripts over the sample policy, of which the last line is refused with this number, with further options.
FLYING = [*PRELUDE, f"submit 1 1 {FILL}", "serve 1"]
OPENED = ["grant alice agent gpu USE", "queue alice gpu 2 1"]
REFUSED = [
    (["list carol"], 1),
    (["stop 1"], 2),
    ([*OPENED, "close 1", "close 1"], 2),
    (["read bob 0000000100000000 8"], 3),
    (["grant bob region buf WRITE"], 5),
    ([*OPENED, "stop 1", "stop 1"], 7),
    ([*OPENED, "run 1 0"], 8),
    (["read bob 0000000100000000 0"], 11),
    (["grant alice agent other USE"], 13),
    ([*OPENED, "clear 1"], 14),
    ([*FLYING, "revoke alice region buf WRITE"], 4),
    ([*FLYING, "finish 1 0"], 9),
    ([OPENED[0], *["queue alice gpu 2 1"] * 65], 12),
    (OPENED, 10, ["--audit", "1"]),
    (["reload 1"], 16, [f"{TOP}/cases/access.toml"]),
]


def named_in_json(program, row):
    """Whether a line that is refused is named in JSON as in the table."""
    lines, number, *options = row
    told = json.loads(run([program, "run", SAMPLE, "--json", *sum(options, [])], text(lines)).out.splitlines()[-1])
    return None if (told.get("number"), told.get("name")) == (number, refusals()[number][1]) else f"{told}"


def tell_refusals(trials, program, help_text):
    """Holds the page, the help, the explanations and JSON against the table of refusals."""
    table = refusals()
    trials.every("each refusal stands at the place of its number", lambda at: None if int(table[at][0]) == at else table[at], range(len(table)))
    on_page = re.findall(r"^\| `refused (\d+) (\w+)", page(), re.M)
    trials.every("the page has the refusals, in their order", lambda at: None if on_page[at : at + 1] == [table[at][:2]] else "another row", range(len(table)))
    trials.every("each refusal of the page is in the table", lambda row: None if row in [it[:2] for it in table] else "no row", on_page)
    shown = " ".join(f"{number} {name}" for number, name, _ in table)
    trials.every("the help has the refusals", lambda text: None if text in help_text else "not there", [f"refusals {shown} "])
    for key in (0, 1):
        told = lambda row: None if f"refused {row[0]} {row[1]}: {row[2]}\n" in run([program, "explain", row[key]]).out.decode() else "not told"
        trials.every("explain tells each refusal by its " + ("number", "name")[key], told, table)
    trials.every("JSON names refusals so", lambda row: named_in_json(program, row), REFUSED)


def tell_rules(trials, program, help_text):
    """Holds the page, the help and the explanations against the table of rules."""
    table = rules()
    names = [name for _, name, _ in table]
    on_page = re.findall(r"^\| ([LAB]\d+) \|", page(), re.M)
    trials.every("the page has the rules, in their order", lambda at: None if on_page[at : at + 1] == [names[at]] else "another row", range(len(names)))
    trials.every("each rule of the page is in the table", lambda name: None if name in names else "no row", on_page)
    trials.every("the help has the rules", lambda text: None if text in help_text else "not there", [f"rules {ranges(names)} "])
    told = lambda row: None if f"rule {row[1]}: {row[2]}\n" in run([program, "explain", row[1]]).out.decode() else "not told"
    trials.every("explain tells each rule", told, table)


def page_rows():
    """The rows of the page's table of lines: their words, and the whole row."""
    text = page()
    rows = text[text.index("| Line | Does | Reply |") :].split("\n\n")[0].splitlines()[2:]
    return {row.split("`")[1]: row for row in rows}


def main(program):
    trials = Trials("forms")
    forms, rows = table(), page_rows()
    shown = {" ".join(it): it for it in forms}
    told = lambda form: None if form in rows or (shown[form][0] == "signal" and f"`{shown[form][3]}`" in rows["signal CLIENT NAME OP V"]) else "no row"
    trials.every("each form has its row on the page", told, shown)
    trials.every("each row of the page is a form", lambda row: None if row in shown else "no form", rows)
    begin, end = "Lines of a script (docs/scripts.md):\n", "Q is the number of a queue"
    wanted = [" ".join(it) for it in forms]

    def lists(words):
        ended = run([program, *words])
        listed = ended.out.decode().split(begin)[-1].split(end)[0]
        found = [it for line in listed.splitlines() for it in re.split(r" {2,}", line.strip())]
        return None if ended.status == 0 and found == wanted else f"{found}"

    trials.every("the help lists the forms in the order of the table", lists, [["--help"], ["-h"], ["help"]])
    untold = lambda words: None if (it := run([program, *words])).status == 0 and begin.encode() not in it.out else "it lists them"
    trials.every("the help of a command doesn't", untold, [["help", "run"], ["check", "--help"]])
    help_text = re.sub(r"\s+", " ", run([program, "--help"]).out.decode())
    tell_refusals(trials, program, help_text)
    tell_rules(trials, program, help_text)
    trials.end()


if __name__ == "__main__":
    main(program_given())
