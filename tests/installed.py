#!/usr/bin/env python3
"""The man pages and the completions of shells, held against the help and the header that they are made of: installed.py PROGRAM

Pages are laid out by groff, and what the shells would complete is asked of them, each where it is there.
"""
import os
import re
import shutil
import subprocess
import sys
import tempfile

from trial import TOP, Trials, program_given, run

sys.path.insert(0, f"{TOP}/tools")
import man  # noqa: E402

SHELLS = ("bash", "zsh", "fish")


def commands(program):
    """The commands by name, each with its options, as the help has them."""
    return {name: re.findall(r"^ +(?:-[a-z], )?(--[a-z]+)", run([program, name, "--help"]).out.decode(), re.MULTILINE) for name, _ in man.rows(man.blocks(run([program, "--help"]).out.decode())["Commands"]) if name != "help"}


def laid_out(path):
    """Why groff complains of a page, if it does."""
    told = subprocess.run(["groff", "-man", "-ww", "-z", "-Tutf8", path], capture_output=True, text=True).stderr
    return told.splitlines()[0] if told else None


def completed(program, words):
    """What bash completes at the last of these words."""
    script = f"{run([program, 'completions', 'bash']).out.decode()}\nCOMP_WORDS=(\"$@\")\nCOMP_CWORD=$(($# - 1))\n_brokerd\nprintf '%s\\n' \"${{COMPREPLY[@]}}\"\n"
    return subprocess.run(["bash", "-c", script, "bash", *words], capture_output=True, text=True).stdout.split()


def try_pages(trials, program, known):
    with tempfile.TemporaryDirectory() as folder:
        man.main(program, folder)
        texts = {name: open(f"{folder}/{name}", encoding="utf-8").read() for part in ("man1", "man3") for name in (f"{part}/{it}" for it in sorted(os.listdir(f"{folder}/{part}")))}
        said = lambda it: None if all(option.replace("-", "\\-") in texts.get(f"man1/brokerd-{it[0]}.1", "") for option in it[1]) else "an option is missing"
        trials.every("each command has a page, with each of its options", said, known.items())
        with open(man.HEADER, encoding="utf-8") as it:
            calls = set(re.findall(r"\b(hd_\w+)\(", re.sub(r"/\*.*?\*/", "", it.read(), flags=re.DOTALL))) - {"hd_broker"}
        family = lambda it: texts.get((re.match(r"\.so (.*)\n", texts.get(f"man3/{it}.3", "")) or [None, ""])[1], texts.get(f"man3/{it}.3", ""))
        trials.every("each call of C has a page that declares it", lambda it: None if re.search(rf"\.SH DESCRIPTION\n(.*\n)*.*\b{it}\(", family(it)) else "it isn't there", sorted(calls))
        if shutil.which("groff"):
            trials.every("groff lays out each page without a complaint", lambda it: laid_out(f"{folder}/{it}"), [it for it, text in texts.items() if not text.startswith(".so")])
        else:
            print("skipped: groff is not installed")


def try_completions(trials, program, known):
    given = {it: run([program, "completions", it]) for it in SHELLS}
    trials.every("each shell has its text", lambda it: None if given[it].status == 0 and given[it].out.startswith(b"#") and not given[it].err else f"{given[it]}", SHELLS)
    named = lambda it: None if all(re.search(rb"\b" + word.lstrip("-").encode() + rb"\b", given[it[0]].out) for word in [it[1], *known[it[1]]]) else "a word is missing"
    trials.every("it has each command and option", named, [(shell, name) for shell in SHELLS for name in known])
    trials.every("another shell is refused", lambda it: None if run([program, "completions", *it]).status == 2 else "it isn't", [["tcsh"], ["Bash"], [], ["bash", "zsh"]])
    blocks = re.findall(r"^  (\S+)\) _arguments(.*?);;$", given["zsh"].out.decode(), re.M | re.S)
    once = lambda it: None if all(len(re.findall(rf"^    '{place}:", it[1], re.M)) < 2 for place in ("1", r"\*")) else "a place is described twice"
    trials.every("zsh is told of each place of a command once", once, blocks)
    if shutil.which("bash"):
        at_once = lambda it: None if sorted(completed(program, it[0])) == sorted(it[1]) else f"{completed(program, it[0])}"
        rows = [(["brokerd", name, "--"], [*known[name]]) for name in known if name != "completions"]
        rows += [(["brokerd", ""], [*known, "help", "--help", "--version"]), (["brokerd", "re"], ["replay"]), (["brokerd", "run", ""], []), (["brokerd", "run", "a.toml", "--st"], ["--strict"])]
        rows += [(["brokerd", "completions", ""], [*SHELLS]), (["brokerd", "help", "th"], ["threads"])]
        trials.every("bash completes it", at_once, rows)
    for shell in ("zsh", "fish"):
        if shutil.which(shell):
            trials.every(f"{shell} reads its text", lambda it: None if run([it, "-n", "/dev/stdin"], given[it].out).status == 0 else "it doesn't", [shell])
        else:
            print(f"skipped: {shell} is not installed")


def main():
    program = program_given()
    trials = Trials("installed")
    known = commands(program)
    try_pages(trials, program, known)
    try_completions(trials, program, known)
    trials.end()


if __name__ == "__main__":
    main()
