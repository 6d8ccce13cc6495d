#!/usr/bin/env python3
"""Scripts with a `rotate` between any two of their lines answer as without: rotation.py PROGRAM

All other replies are the same, each rotation hands out what there is, and what is handed out, in order, with the audit at
the end, is the audit of the run without rotations: no entry is lost, told twice or numbered anew.
"""
import glob

from trial import BARRIER, FILL, KERNEL, PRELUDE, SAMPLE, TOP, Trials, blocks, program_given, run, text

TRIED = {
    "fills in both slots": [*PRELUDE, f"submit 1 1 {FILL}", f"submit 1 2 {FILL}", "serve 1", "serve 1", "run 1 0", "finish 1 0", "run 1 1", "finish 1 1", "serve 1"],
    "a kernel of two groups": [*PRELUDE, "write alice 0000000200000000 0000000001000000", f"submit 1 1 {KERNEL}", "serve 1", "run 1 0", "run 1 0", "finish 1 0"],
    "a barrier that is seen in turns": [*PRELUDE, f"submit 1 1 {BARRIER}", "serve 1", "signal alice done store 0", "poll 1 0", "signal alice done store 5", "signal alice go store 0", "poll 1 0", "finish 1 0"],
    "a queue that is stopped": [*PRELUDE, f"submit 1 1 {FILL}", "serve 1", "stop 1", "finish 1 0", "run 1 0", f"submit 1 1 {FILL}", "serve 1"],
    "queues that are closed, and one opened behind": [*PRELUDE, f"submit 1 1 {FILL}", "serve 1", "queue alice gpu 2 1", "close 1", "errors 1", "queue alice gpu 4 1", f"submit 3 1 {FILL}", "serve 3", "close 2", "run 3 0", "close 3", "revoke alice region buf WRITE"],
    "rights that are held": [*PRELUDE, f"submit 1 1 {FILL}", "serve 1", "revoke alice region buf WRITE", "run 1 0", "finish 1 0", "revoke alice region buf WRITE", "list alice", "read alice 0000000100000000 8"],
    "two queues, the second of another client": [*PRELUDE, "grant bob agent gpu USE", "queue bob gpu 2 1", f"submit 1 1 {FILL}", f"submit 2 1 {FILL}", "serve 1", "serve 2", "errors 2", "run 1 0", "finish 1 0"],
    "a packet that is denied": [*PRELUDE, "revoke alice agent gpu USE", f"submit 1 1 {FILL}", "serve 1", "errors 1", "list alice"],
}


def replies(program, script):
    """The replies to a script's lines, one a line."""
    ended = run([program, "run", SAMPLE], text(script))
    return None if ended.status or ended.err else blocks(script, ended.out)


def entries(reply):
    return reply.split("\n")[1:]


def rotated(program, script, every):
    """Whether a script answers the same with a `rotate` behind each so many lines."""
    plain = replies(program, [*script, "audit"])
    turned = []
    for place, line in enumerate(script):
        turned += [line, "rotate"] if place % every == every - 1 else [line]
    turned.append("audit")
    told = replies(program, turned)
    if plain is None or told is None or len(told) != len(turned):
        return "it ended otherwise"
    if [reply for line, reply in zip(turned, told) if line != "rotate"][:-1] != plain[:-1]:
        return "another reply differs"
    refused = [reply for line, reply in zip(turned, told) if line == "rotate" and not reply.startswith("rotated ")]
    if refused:
        return f"a rotation is answered {refused[0]}"
    handed_out = [entry for line, reply in zip(turned, told) if line in ("rotate", "audit") for entry in entries(reply)]
    return None if handed_out == entries(plain[-1]) else f"the entries are {handed_out}"


def examples():
    """The examples' scripts over the sample policy, without what asks for the audit."""
    for path in sorted(glob.glob(f"{TOP}/examples/*.script")):
        with open(path) as lines:
            yield [line.strip() for line in lines if line.split() and not line.startswith("#") and line.split()[0] != "audit"]


def main():
    program = program_given()
    trials = Trials("rotations")
    scripts = [*TRIED.values(), *(script for script in examples() if replies(program, script))]
    for every in (1, 2, 3, 5):
        trials.every(f"a rotation behind each {every} lines", lambda script: rotated(program, script, every), scripts)
    trials.end()


if __name__ == "__main__":
    main()
