"""A broker of the tests' own, written from the rules alone: it keeps sets and dictionaries, and is as slow as that.

It stands on Python's standard library, and on nothing of the program. tests/by_rules.py runs it as a command; tests/leaks.py
makes it wrong by one small thing at a time."""
