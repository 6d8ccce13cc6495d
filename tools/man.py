#!/usr/bin/env python3
"""Writes man pages into a folder: tools/man.py PROGRAM FOLDER

Those of the program are made of its own help: one of it (section 1), and one of each command. Those of the library for C are made of
include/hobbydresser.h: one of the header's beginning and its types (section 3), one of each family of calls, and for each call one
that leads to its family's. Nothing of them is written by hand but the words between.
"""
import os
import re
import subprocess
import sys

HERE = os.path.dirname(os.path.abspath(__file__))
HEADER = f"{os.path.dirname(HERE)}/include/hobbydresser.h"
WHAT = {  # how a family's page is called, by the first words of its title in the header
    "opening": "hd_opening",
    "what the policy": "hd_declared",
    "the administrator": "hd_rights_in_force",
    "queues and packets": "hd_queues",
    "memory and signals": "hd_memory",
    "what the last call that": "hd_last_entry",
    "what the last call left": "hd_last_call",
    "the audit": "hd_audit",
}


def escaped(text):
    """A text as roff has it: backslashes and dashes as they are, and no line that begins with a request."""
    lines = text.replace("\\", "\\e").replace("-", "\\-").splitlines()
    return "\n".join("\\&" + line if line[:1] in (".", "'") else line for line in lines)


def plain(text):
    """A text whose lines stay as they are."""
    return f".nf\n{escaped(text)}\n.fi"


def bold(word):
    return f"\\fB{escaped(word)}\\fR"


def page(name, section, source, manual, parts):
    """A page of parts, each a title and its text in roff."""
    head = f'.TH {escaped(name.upper())} {section} "" "{source}" "{manual}"'
    return "\n".join([head, *(f".SH {title}\n{text}" for title, text in parts if text)]) + "\n"


# ---- the program


def told(program, *words):
    return subprocess.run([program, *words], stdin=subprocess.DEVNULL, stdout=subprocess.PIPE, check=True, text=True).stdout


def rows(block):
    """The rows of a block of the help: a word with what it takes, and what is said of it."""
    lines = re.sub(r"\n\s{8,}(?!-)", " ", block).splitlines()
    return [re.match(r"\s+(\S.*?)(?:\s{2,}(.*))?$", line).groups("") for line in lines]


def tagged(block):
    return "\n".join(f".TP\n{bold(word)}\n{escaped(said)}" for word, said in rows(block))


def blocks(text):
    """The blocks of a help by their titles; what stands before the first one, by none."""
    found, title = {"": []}, ""
    for line in text.splitlines():
        begins = re.fullmatch(r"(Commands|Arguments|Options|Lines of a script .*|Lines that assemble .*|Pages that help .*|Names that explain tells):(.*)|(Usage|Example|Exit status): (.*)", line)
        if begins or line.startswith("Pages that help"):
            title = (begins[1] or begins[3]) if begins else "Pages"
            found[title] = [begins[4] if begins and begins[4] else "" if begins else line]
        else:
            found[title].append(line)
    return {title: "\n".join(lines).strip("\n") for title, lines in found.items()}


def of_command(program, version, name):
    told_of = blocks(told(program, name, "--help"))
    about = told_of[""].strip()
    parts = [
        ("NAME", f"brokerd\\-{name} \\- {escaped(about[0].lower() + about[1:])}"),
        ("SYNOPSIS", bold(told_of["Usage"])),
        ("DESCRIPTION", escaped(about) + "."),
        ("ARGUMENTS", tagged(told_of.get("Arguments", ""))),
        ("OPTIONS", tagged(told_of["Options"])),
        ("EXAMPLE", plain(told_of["Example"])),
        ("EXIT STATUS", escaped(told_of["Exit status"].replace("\n", " "))),
        ("SEE ALSO", ".BR brokerd (1)"),
    ]
    return page(f"brokerd-{name}", 1, version, "User Commands", parts)


def of_program(program):
    """The program's pages by their names."""
    version = told(program, "--version").split("(")[0].strip()
    whole = blocks(told(program, "--help"))
    commands = [(name, about) for name, about in rows(whole["Commands"]) if name != "help"]
    status = whole["Exit status"].replace("\n", " ")
    lists = [(title, text) for title, text in whole.items() if title.startswith(("Lines", "Pages", "Names"))]
    parts = [
        ("NAME", f"brokerd \\- {escaped(whole[''].strip()[0].lower() + whole[''].strip()[1:])}"),
        ("SYNOPSIS", bold(whole["Usage"])),
        ("COMMANDS", "\n".join(f".TP\n.BR brokerd\\-{name} (1)\n{escaped(about)}" for name, about in commands)),
        ("OPTIONS", tagged(whole["Options"])),
        *((escaped(re.sub(r" \(docs/.*\)", "", title).upper()), plain(text)) for title, text in lists),
        ("EXIT STATUS", escaped(status)),
        ("SEE ALSO", ",\n".join([f".BR brokerd\\-{name} (1)" for name, _ in commands] + [".BR hobbydresser (3)"]).replace(",\n", " ,\n")),
    ]
    found = {f"man1/brokerd-{name}.1": of_command(program, version, name) for name, _ in commands}
    return {"man1/brokerd.1": page("brokerd", 1, version, "User Commands", parts), **found}


# ---- the library for C


def families(header):
    """The header's families of calls: of each its title and its text."""
    pieces = re.split(r"^/\* ---- (.*) \*/$", header, flags=re.MULTILINE)
    return pieces[0], list(zip(pieces[1::2], pieces[2::2]))


def calls(text):
    """The calls of a text, as they are declared or defined."""
    return re.findall(r"^(?:static inline )?(?:hd_status|size_t) (hd_\w+)\(", text, flags=re.MULTILINE)


def unwrapped(comment):
    """A comment's text, with its lines joined to paragraphs."""
    lines = [re.sub(r"^   ", "", line) for line in comment.splitlines()]
    paragraphs = re.split(r"\n\s*\n|\n(?=- )", "\n".join(lines))
    return "\n.PP\n".join(escaped(" ".join(it.split())) for it in paragraphs)


def described(text):
    """A family's calls, each with its comment: what is declared, and below it what is said."""
    out = []
    for comment, declared in re.findall(r"^/\* (.*?) ?\*/\n(.*?)(?=^/\* |\Z)", text, flags=re.MULTILINE | re.DOTALL):
        shown = [re.sub(r"\n\{$", ";", it).strip() for it in re.findall(r"^(?:static inline )?(?:hd_status|size_t) hd_\w+\(.*?\)(?:;|\n\{)", declared, flags=re.MULTILINE | re.DOTALL)]
        if shown:
            out.append(".PP\n" + "\n.br\n".join(bold(it) for it in shown) + f"\n.RS 4\n{unwrapped(comment)}\n.RE")
    return "\n".join(out)


def named(title):
    return next(name for begin, name in WHAT.items() if title.startswith(begin))


def of_library():
    """The library's pages by their names."""
    with open(HEADER, encoding="utf-8") as it:
        header = it.read()
    beginning, found = families(header)
    about = re.match(r"/\* (.*?) ?\*/", beginning, flags=re.DOTALL)[1]
    types = beginning[beginning.index("/* A broker."):]
    source, manual = "hobbydresser", "Library Functions"
    use = plain("#include <hobbydresser.h>\n\ncc PROGRAM.c $(pkg-config --cflags --libs hobbydresser)")
    overview = [
        ("NAME", "hobbydresser \\- a broker for user\\-mode queues, as a library"),
        ("SYNOPSIS", use),
        ("DESCRIPTION", unwrapped(about)),
        ("CALLS", "\n".join(f".TP\n.BR {named(title)} (3)\n{escaped(title)}: {escaped(', '.join(calls(text)))}" for title, text in found)),
        ("TYPES AND NUMBERS", plain(types.strip())),
        ("SEE ALSO", " ,\n".join([f".BR {named(title)} (3)" for title, _ in found] + [".BR brokerd (1)"])),
    ]
    pages = {"man3/hobbydresser.3": page("hobbydresser", 3, source, manual, overview)}
    for title, text in found:
        name = named(title)
        parts = [("NAME", f"{escaped(', '.join(calls(text)))} \\- {escaped(title)}"), ("SYNOPSIS", use), ("DESCRIPTION", described(text)), ("SEE ALSO", ".BR hobbydresser (3)")]
        pages[f"man3/{name}.3"] = page(name, 3, source, manual, parts)
        pages.update({f"man3/{it}.3": f".so man3/{name}.3\n" for it in calls(text) if it != name})
    return pages


def main(program, folder):
    for name, text in {**of_program(program), **of_library()}.items():
        path = os.path.join(folder, name)
        os.makedirs(os.path.dirname(path), exist_ok=True)
        with open(path, "w", encoding="utf-8") as it:
            it.write(text)


if __name__ == "__main__":
    if len(sys.argv) != 3:
        sys.exit("usage: tools/man.py PROGRAM FOLDER")
    main(*sys.argv[1:])
