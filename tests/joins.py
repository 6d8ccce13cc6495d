#!/usr/bin/env python3
"""Has each request for memory of the command that joins parts refused in turn, once, and from then on: joins.py PROGRAM

PROGRAM is that of crates/bench. `bench joins` joins two parts of a history, and where it is refused memory for that, it says
so and joins the parts that came back once more. With one request refused it writes what it writes with memory, and before
`joined` the line `refused 0 OutOfMemory`: so both parts came back whole. Or the request wasn't the joining's, and it ends
with status 3 and `no memory` behind a beginning of its output. With all requests refused from one of the joining's on, it
says so once and ends. What it writes with memory is known from its calls, and stands in crates/bench/stdout, since
`bench all` joins them too.
"""
import os
import tempfile

from memory import NO_MEMORY, WANT, Memory, starves
from trial import TOP, Ended, Trials, library_of, program_given

# what joining these parts takes: room for all entries; of the call that writes, its bytes, and those of its change, which
# are more than lie in place; of the packet's run, the list of its two changes; of the policy, its allow and its deny rows
JOINING = 6


class Joins:
    """Runs the program with requests refused, and keeps which of them were the joining's."""

    def __init__(self, memory):
        self.memory, self.joining = memory, set()
        self.found = {"as ever": 0, "ended": 0}
        with open(f"{TOP}/crates/bench/stdout", "rb") as it:
            all_told = it.read()
        self.whole = Ended(0, all_told[all_told.index(b"entries ") : all_told.index(b"replay ")], b"")
        place = self.whole.out.index(b"joined ")
        self.before, self.behind = self.whole.out[:place], self.whole.out[place:]
        self.told = self.before + f"{WANT}\n".encode()
        self.ended, self.requests = memory.count(["joins"], b"")

    def once(self, at):
        ended = self.memory.run(["joins"], b"", at)
        if ended == Ended(0, self.told + self.behind, b""):
            self.joining.add(at)
            return None
        if ended == self.whole:
            self.found["as ever"] += 1
            return None
        self.found["ended"] += 1
        # (between these two lines nothing but the joining asks for memory)
        return f"it ended while it joined: {ended}" if ended.out == self.before else starves(ended, self.whole)

    def from_then_on(self, at):
        ended = self.memory.run(["joins"], b"", at, True)
        if at not in self.joining:
            return starves(ended, self.whole)
        return None if ended == Ended(3, self.told, NO_MEMORY) else f"it ended otherwise: {ended}"

    def is_whole(self, count):
        """What is wrong with the requests that were the joining's."""
        some = sorted(self.joining)
        return None if some and some == list(range(some[0], some[0] + count)) else f"they are {some}"

    def note(self):
        return f" ({len(self.joining)} joined once more, {self.found['ended']} ended, {self.found['as ever']} as ever)"


def main():
    program = program_given()
    trials = Trials("parts that are joined")
    if not os.path.exists(program):
        trials.every("the program that joins is built", lambda _: "it isn't: `rt run` in crates/bench builds it", [program])
        trials.end()
    with tempfile.TemporaryDirectory() as room:
        joins = Joins(Memory(program, library_of("refuse.c", room), room))
        trials.every("parts are joined with memory", lambda it: None if it == joins.whole else f"{it}", [joins.ended])
        numbers = range(1, joins.requests + 1)
        trials.every("each request refused", joins.once, numbers, joins.note)
        trials.every("each request of the joining was refused", joins.is_whole, [JOINING])
        trials.every("all requests refused from one on", joins.from_then_on, numbers)
    trials.end()


if __name__ == "__main__":
    main()
