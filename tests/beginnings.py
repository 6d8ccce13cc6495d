#!/usr/bin/env python3
"""Writes the cases of each beginning of a kernel's text: beginnings.py < KERNEL > cases/beginnings.case

Where a text ends too early is reckoned here from the lexemes and the grammar (docs/kernel_text.md), for the words that
`inc.hsail` has, and from no code of the broker. A beginning ends at a fault, or behind a whole kernel.
"""
import re
import sys

LEXEMES = re.compile(
    r"(?P<blank>[ \n]+)|(?P<name>[&%@][A-Za-z_]\w*)|(?P<register>\$[csd]\d+)|(?P<header>\$(?:base|full|large|default|zero|near))"
    r"|(?P<number>0|[1-9]\d*)|(?P<word>[A-Za-z_]\w*)|(?P<sign>[(){}\[\],;:+-])"
)
LEXEME, SYNTAX, NOT_IN_PROFILE = 1, 2, 3


def place(text, at):
    line = text.count("\n", 0, at) + 1
    return f"line {line} column {at - (text.rfind(chr(10), 0, at) + 1) + 1}"


def tokens(text):
    """The tokens with their places, and the place of the first byte that begins none."""
    found, at = [], 0
    while at < len(text):
        match = LEXEMES.match(text, at)
        if not match:
            return found, at
        if match.lastgroup != "blank":
            found.append((at, match[0]))
        at = match.end()
    return found, None


def told(text, whole):
    """What is told of a text that is a beginning of a whole one."""
    found, bad = tokens(text)
    if bad is not None:
        return f"read {LEXEME} {place(text, bad)}"
    wanted = tokens(whole)[0]
    closing = next(at for at, (_, token) in enumerate(wanted) if token == "}") + 1
    header = next(at for at, (_, token) in enumerate(wanted) if token == ";") + 1
    for number, (at, token) in enumerate(found):
        if token == wanted[number][1] or token[0] == "&":
            continue
        # a word that ends too early: no row has it. It begins a declaration, an argument or an item, or stands where
        # no word can
        before = wanted[number - 1][1] if number else ""
        begins = before in (";", "{", "(") and token not in ("module", "kernel", "prog")
        return f"read {NOT_IN_PROFILE if begins and number else SYNTAX} {place(text, at)}"
    if len(found) in (header, closing) or len(found) > closing:
        return "ok"
    return f"read {SYNTAX} {place(text, len(text))}"


def spelled(text):
    if not text:
        return ""
    last = text[-1]
    return text[:-1].replace("\n", "\\n") + {"\n": "\\n", " ": "\\s"}.get(last, last)


def main():
    whole = sys.stdin.read()
    print("# Each beginning of the text of `inc.hsail`, and where it ends too early: written by tests/beginnings.py.")
    print("kernels\n")
    for length in range(len(whole) + 1):
        print(f"beginning_{length} | {spelled(whole[:length])} | {told(whole[:length], whole)}")


if __name__ == "__main__":
    main()
