#!/usr/bin/env python3
"""Has each request for memory of the command that wants memory refused in turn, once, and from then on: wants.py PROGRAM

PROGRAM is that of crates/bench. `bench wants` replays steps of a ring, opens a ring and settles it, opens two queues of a
broker, has a lane serve and run two packets, and settles their broker: a line each. Where one of these calls is refused memory,
it says `NAME refused 0 OutOfMemory`, and makes the call once more with what came back; a lane serves the packet that was
refused next. With one request refused it writes that line before the call's own, and all else as ever. Or the request wasn't of
such a call, and it ends with status 3 and `no memory` behind a beginning of its output, or nobody needed the memory.
With all requests refused from one of a call's on, it says so once and ends; but a lane may serve the packet that it was refused
with the memory of one that has left flight by then, and the next call is refused. What it writes with memory is known
from its calls, and stands in crates/bench/stdout, since `bench all` makes them too.
"""
import os
import tempfile

from memory import NO_MEMORY, WANT, Memory, starves
from trial import TOP, Ended, Trials, library_of, program_given


class Wants:
    """Runs the program with requests refused, and keeps which of them were of which call."""

    def __init__(self, memory):
        self.memory = memory
        self.found = {"as ever": 0, "ended": 0}
        with open(f"{TOP}/crates/bench/stdout", "rb") as it:
            all_told = it.read()
        self.whole = Ended(0, all_told[all_told.index(b"replay ") :], b"")
        self.lines = self.whole.out.splitlines(True)
        # the output where the call of a line was refused memory once, by the line
        self.refused = [b"".join([*self.lines[:at], self.want_of(at), *self.lines[at:]]) for at in range(len(self.lines))]
        # where it was refused memory from there on
        self.starved = [Ended(3, b"".join([*self.lines[:at], self.want_of(at)]), NO_MEMORY) for at in range(len(self.lines))]
        lane = next(at for at in range(len(self.lines)) if self.name_of(at) == "serve")
        self.reused = {lane: Ended(3, b"".join([*self.lines[:lane], self.want_of(lane), self.lines[lane], self.want_of(lane + 1)]), NO_MEMORY)}
        self.wanted = [set() for _ in self.lines]
        self.ended, self.requests = memory.count(["wants"], b"")

    def name_of(self, at):
        return self.lines[at].decode().split(" ")[0]

    def want_of(self, at):
        return f"{self.name_of(at)} {WANT}\n".encode()

    def once(self, number):
        ended = self.memory.run(["wants"], b"", number)
        if ended == self.whole:
            self.found["as ever"] += 1
            return None
        if ended.status == 0 and ended.err == b"" and ended.out in self.refused:
            self.wanted[self.refused.index(ended.out)].add(number)
            return None
        self.found["ended"] += 1
        return starves(ended, self.whole)

    def from_then_on(self, number):
        ended = self.memory.run(["wants"], b"", number, True)
        at = next((at for at, some in enumerate(self.wanted) if number in some), None)
        if at is not None:
            return None if ended in (self.starved[at], self.reused.get(at)) else f"it ended otherwise: {ended}"
        # (where nobody needed the memory, a thread for one, a later call may be the first that is refused)
        return None if ended == self.whole or ended in self.starved else starves(ended, self.whole)

    def is_whole(self, at):
        """What is wrong with the requests that were of the call of a line: they come one after the other."""
        some = sorted(self.wanted[at])
        return None if some and some == list(range(some[0], some[0] + len(some))) else f"they are {some}"

    def note(self):
        calls = ", ".join(f"{self.name_of(at)} {len(some)}" for at, some in enumerate(self.wanted))
        return f" (made once more: {calls}; {self.found['ended']} ended, {self.found['as ever']} as ever)"


def main():
    program = program_given()
    trials = Trials("calls that want memory")
    if not os.path.exists(program):
        trials.every("the program that wants memory is built", lambda _: "it isn't: `rt run` in crates/bench builds it", [program])
        trials.end()
    with tempfile.TemporaryDirectory() as room:
        wants = Wants(Memory(program, library_of("refuse.c", room), room))
        trials.every("all is called with memory", lambda it: None if it == wants.whole else f"{it}", [wants.ended])
        numbers = range(1, wants.requests + 1)
        trials.every("each request refused", wants.once, numbers, wants.note)
        trials.every("each request of a call was refused", wants.is_whole, range(len(wants.lines)))
        trials.every("all requests refused from one on", wants.from_then_on, numbers)
    trials.end()


if __name__ == "__main__":
    main()
