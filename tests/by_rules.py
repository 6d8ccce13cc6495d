#!/usr/bin/env python3
"""A broker by the rules alone, as a command: by_rules.py POLICY [NEXT..] [--audit N] < SCRIPT"""
import argparse
import sys

from model.script import run_script


def main():
    parser = argparse.ArgumentParser(description="A broker by the rules alone.")
    parser.add_argument("policies", metavar="POLICY", nargs="+")
    parser.add_argument("--audit", type=int, default=65536)
    given = parser.parse_args()
    texts = []
    for path in given.policies:
        with open(path, "rb") as file:
            texts.append(file.read())
    replies, fault, status = run_script(texts, sys.stdin.buffer.read(), given.audit)
    sys.stdout.write("".join(f"{it}\n" for it in replies))
    sys.stderr.write(f"{fault}\n" * bool(fault))
    return status


if __name__ == "__main__":
    sys.exit(main())
