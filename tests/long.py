#!/usr/bin/env python3
"""Runs a program for long: 100,000 queues opened and closed, one after another, with an audit that is rotated: long.py PROGRAM

Each queue gets a packet that is in flight when it is closed. 63 others are open all along, so that each queue is the 64th. The
program is asked over a pipe that stays open, and its replies are read as they come. They have to be those of the page on scripts,
numbers of queues and of entries go on, and the program holds its memory from the 10,000th queue on.
The last line is `N passed, M failed`.
"""
import os
import subprocess
import sys
import tempfile
import threading

from trial import DEADLINE, FILL, PRELUDE, SAMPLE, program_given

QUEUES, EARLY = 100_000, 10_000
# how many queues are asked for at once (that lines and replies fit into a pipe), and how many between two rotations
AT_ONCE, TURN = 100, 1_000
KEPT = 63
# By how much the program's memory may grow from the early queue to the last. Eight bytes that were kept of each would be 703.
MOST_KILOBYTES = 300

RIGHTS = [line for line in PRELUDE if not line.startswith("queue ")]
OPENING = "queue alice gpu 2 1"


class Session:
    """A run of the program that goes on, and what it replied otherwise than wanted."""

    def __init__(self, program):
        self.errors = tempfile.TemporaryFile()
        words = [program, "run", SAMPLE, "--audit", str(4 * TURN)]
        self.process = subprocess.Popen(words, stdin=subprocess.PIPE, stdout=subprocess.PIPE, stderr=self.errors)
        self.wrong, self.entries = [], 0
        # (a run that doesn't go on in time is ended, and replies no more)
        self.watch = threading.Timer(DEADLINE, self.process.kill)
        self.watch.start()

    def ask(self, lines):
        try:
            self.process.stdin.write("".join(f"{line}\n" for line in lines).encode())
            self.process.stdin.flush()
        except BrokenPipeError:
            self.wrong.append("the program ended")

    def reply(self):
        return self.process.stdout.readline().decode(errors="replace").removesuffix("\n")

    def hold(self, asked):
        """Asks some lines, each with the reply that is wanted."""
        self.ask([line for line, _ in asked])
        for line, wanted in asked:
            came = self.reply()
            if came != wanted:
                self.wrong.append(f"{line[:60]}: {came!r}, not {wanted!r}")

    def rotate(self, count):
        """Has so many entries handed out, whose numbers go on."""
        self.ask(["rotate"])
        came = self.reply()
        if came != f"rotated {count}":
            self.wrong.append(f"rotate: {came!r}, not 'rotated {count}'")
            return
        for _ in range(count):
            self.entries += 1
            came = self.reply()
            if not came.startswith(f"{self.entries} "):
                self.wrong.append(f"an entry: {came!r}, not number {self.entries}")

    def kilobytes(self):
        """The memory that the program has, and the most that it had."""
        with open(f"/proc/{self.process.pid}/status", encoding="utf-8") as it:
            told = dict(line.split(":", 1) for line in it)
        return tuple(int(told[name].split()[0]) for name in ("VmRSS", "VmHWM"))

    def end(self):
        """The program's status, and its processor time."""
        self.watch.cancel()
        try:
            self.process.stdin.close()
        except BrokenPipeError:
            pass
        left = self.process.stdout.read()
        _, status, used = os.wait4(self.process.pid, 0)
        self.process.returncode = os.waitstatus_to_exitcode(status)
        self.errors.seek(0)
        return self.process.returncode, left + self.errors.read(), used.ru_utime + used.ru_stime


def life(queue):
    """A queue from its opening to its close, by the number that it is to have."""
    return [
        (OPENING, f"queue {queue}"),
        (f"submit {queue} 1 {FILL}", "published 0"),
        (f"serve {queue}", "launched 0"),
        (f"close {queue}", "ok"),
    ]


def live(session):
    """Opens and closes all queues; the memory after the early one and after the last."""
    session.hold([(line, "ok") for line in RIGHTS])
    session.hold([(OPENING, f"queue {number}") for number in range(1, KEPT + 1)])
    session.rotate(len(RIGHTS) + KEPT)
    found, since = {}, 0
    for first in range(KEPT + 1, QUEUES + 1, AT_ONCE):
        some = range(first, min(first + AT_ONCE, QUEUES + 1))
        session.hold([asked for queue in some for asked in life(queue)])
        since += len(some)
        if since >= TURN or some[-1] == QUEUES:
            session.rotate(3 * since)
            since = 0
            found["last"] = session.kilobytes()
        if session.wrong:
            return None
        if some[-1] >= EARLY:
            found.setdefault("early", session.kilobytes())
    return found["early"], found["last"]


def tried(program):
    """What was tried, each with what is wrong, or nothing."""
    session = Session(program)
    try:
        found = live(session)
        yield f"{QUEUES:,} queues opened and closed, with a rotation each {TURN:,}: replies and numbers", session.wrong
        if not found:
            return
        (early, most_early), (last, most_last) = found
        grown = max(last - early, most_last - most_early)
        print(f"memory after {EARLY:,} queues {early:,} KB (at most {most_early:,}), after {QUEUES:,} {last:,} KB (at most {most_last:,})")
        yield f"memory grows by at most {MOST_KILOBYTES} KB", [f"by {grown:,} KB"] if grown > MOST_KILOBYTES else []
        session.hold([(OPENING, f"queue {QUEUES + 1}"), (OPENING, "refused 12 TooMany"), (f"close {QUEUES + 1}", "ok"), (OPENING, f"queue {QUEUES + 2}")])
        session.hold([(f"serve {QUEUES}", "refused 2 UnknownQueue"), ("close 1", "ok"), (OPENING, f"queue {QUEUES + 3}")])
        yield "a 65th open queue is refused, and one in the place of a closed one isn't", session.wrong
    finally:
        status, left, seconds = session.end()
    yield "the run ends with status 0 and nothing more", [f"status {status}, {left[-200:]!r}"] if status or left else []
    print(f"{seconds:.1f} seconds of the program's processor time")


def main(program):
    passed, failed = 0, 0
    for name, wrong in tried(program):
        passed, failed = passed + (not wrong), failed + bool(wrong)
        print(f"{'FAILED' if wrong else 'ok'} {name}", flush=True)
        for why in wrong[:5]:
            print(f"    {why}")
    print(f"{passed} passed, {failed} failed")
    sys.exit(1 if failed else 0)


if __name__ == "__main__":
    main(program_given())
