#!/usr/bin/env python3
"""Looks whether the cases find any leak: leaks.py PROGRAM [--scripts N] [--held N] [--seed S] [--only NAME..] [--keep]

A broker of the tests' own (tests/model), which passes every case of scripts, is made wrong by one small thing at a time:
each comparison, right, number, range, effect and order of its text is changed in each way that its kind has
(tests/leaks_changes.py). Each wrong broker has to be found by a case; those that found most are tried first. One that no
request can tell from the right one stands in tests/model/equal.txt with its reason, and is held against the right one on
scripts made at random (--held, 10,000). PROGRAM is held against the right one on some of them (--scripts, 200).

--only tries the changes alone whose names begin so; --keep writes the list of the cases that found most anew."""
import argparse
import ast
import contextlib
import gc
import multiprocessing
import os
import resource
import signal
import tempfile
import time
from collections import Counter
from dataclasses import dataclass

import leaks_scripts
from against import File, changed, difference, is_accepted
from leaks_changes import Model
from trial import HERE, TOP, Trials, run

CASES = f"{TOP}/cases"
MODEL = f"{HERE}/model"
# the modules of the broker that are made wrong, and those beneath them, each behind those that it stands on
MODULES = ("kernel_text", "policy", "packets", "ring", "work_group", "memory", "launch", "broker", "script")
# reading a kernel's text is held by the cases of kernels
UNCHANGED = ("kernel_text.",)
# the cases that found most, and the changes that no request can tell, each with its reason
FINDERS, EQUAL = f"{MODEL}/finders.txt", f"{MODEL}/equal.txt"
# how long a wrong broker may take for one case: so many seconds of processor, and so many times as long as the right one; and how much memory
SECONDS, TIMES, BYTES = 0.5, 10, 2 << 30
# how many scripts at random an equal broker is held on, and in how many of these the program is
HELD, TRIED = 10_000, 200
# how many of these one process takes at a time
PART = 1_000


class Late(BaseException):
    """A wrong broker that doesn't end."""


def late(*_):
    raise Late


class Other(Exception):
    """A wrong broker whose reply differs."""


@dataclass
class Try:
    """A case as it is handed to a broker, and what is wanted of it; and of the right broker its replies to each line, how it ended, the
    functions that it calls, and how long it takes."""

    name: str
    case: object
    wanted: list
    policies: list
    script: bytes
    places: int
    replies: list = None
    right: tuple = None
    calls: set = None
    seconds: float = 0.0

    def is_held(self, came):
        return is_accepted(self.case, came) or difference(self.case, self.wanted, came) is None

    def hold(self, broker, called):
        """Holds the right broker, which tells what it calls: what is wrong, or none."""
        called.clear()
        begun, self.replies = time.process_time(), []
        try:
            with replying(broker, self.replies.append):
                self.right = broker.run_script(self.policies, self.script, self.places)
        except Exception as error:
            return f"no reply: {error}"
        self.seconds, self.calls = time.process_time() - begun, frozenset(called)
        return None if self.is_held(told(*self.right)) else "it differs"

    def differs(self, broker, is_stopped):
        """Whether a broker answers otherwise than is wanted, or not at all. One that is stopped is so at the first reply that differs."""
        right = iter(self.replies)

        def look(reply):
            if reply != next(right, ""):
                raise Other

        # (a row may want no more than that a text is accepted)
        looks = is_stopped and not self.case.is_row
        try:
            with replying(broker, look) if looks else contextlib.nullcontext():
                came = in_time(SECONDS + TIMES * self.seconds, broker.run_script, self.policies, self.script, self.places)
        except (Exception, Late):
            return True
        return came != self.right and not self.is_held(told(*came))


def in_time(seconds, asked, *given):
    """What is asked of a wrong broker, which is given up after so many seconds of processor."""
    signal.setitimer(signal.ITIMER_PROF, seconds)
    try:
        return asked(*given)
    finally:
        signal.setitimer(signal.ITIMER_PROF, 0)


@contextlib.contextmanager
def replying(broker, look):
    """Has something look at each reply of a broker while it lasts."""
    reply_to = broker.reply_to

    def looked(run, line):
        reply = reply_to(run, line)
        look(reply)
        return reply

    broker.reply_to = looked
    try:
        yield
    finally:
        broker.reply_to = reply_to


def told(replies, fault, status):
    """The replies and the ending of a run, as cases spell them."""
    return "".join(f"{it}\n" for it in replies) + f"error: {fault}\n" * bool(fault) + f"status: {status}\n" * bool(status)


def tries_of(file):
    """The cases of a file, each text that stands for one by itself."""
    setting = file.setting
    is_kernel = setting.kind == "runs"
    for case in file.cases:
        for choice in range(case.texts()):
            settings, text = setting.settings(case), setting.asked(case, choice)
            if is_kernel:
                settings.policy = changed(settings.policy, "{KERNEL}", text)
            name = f"{file.title}: {case.name}" + (f" ({choice + 1})" if case.texts() > 1 else "")
            script = setting.after_front("" if is_kernel else text)
            yield Try(name, case, setting.wanted(case), [settings.policy.encode(), *settings.further], script, settings.places)


def all_tries():
    """All cases of scripts, but those that are wrong on purpose."""
    with open(f"{CASES}/files", encoding="utf-8") as file:
        names = [line.split()[0] for line in file]
    files = [File(f"{CASES}/{name}", {}) for name in names]
    return [it for file in files if file.setting.kind in ("scripts", "runs") for it in tries_of(file)]


def lines_in(path):
    """The lines of a list, without remarks."""
    with open(path, encoding="utf-8") as file:
        return [line.rstrip("\n") for line in file if line.strip() and not line.startswith("#")]


def equal_changes():
    """The names of the changes that no request can tell, with their reasons."""
    return dict(line.split(" => ") for line in lines_in(EQUAL))


class Hunt:
    """The right broker, the cases, and scripts made at random with its replies to them."""

    def __init__(self):
        self.model = Model(MODEL, MODULES)
        self.changes = [it for it in self.model.changes if not it.name.startswith(UNCHANGED)]
        self.tries = all_tries()
        first = {name: place for place, name in enumerate(lines_in(FINDERS))}
        self.missing = sorted(set(first) - {it.name for it in self.tries})
        self.tries.sort(key=lambda it: first.get(it.name, len(first)))
        self.scripts = []
        self.right, self.called = self.model.telling()

    def limit(self):
        """Limits this process, in which wrong brokers run."""
        signal.signal(signal.SIGPROF, late)
        resource.setrlimit(resource.RLIMIT_AS, (BYTES, BYTES))

    def fresh(self, script):
        """What makes a broker of some places over the policies of the scripts made at random."""
        policies = [script.read_policy(it) for it in leaks_scripts.policies()]
        kernels = script.entries_of(policies[0])
        return lambda places: script.Run(script.Broker(policies[0], kernels, places), policies[1:])

    def made_script(self, seed):
        """A script of a seed: its lines, the audit's places, the right broker's replies, the functions that it calls, and what each line's
        words stand for."""
        self.called.clear()
        made = leaks_scripts.made_script(seed, self.right, self.fresh(self.right))
        return *made, frozenset(self.called), [self.right.read_words(line.split(" ")) for line in made[0]]

    def groups(self, chosen):
        """Changes that are looked for one after another, each group with the cases that are tried: those that call what may show them are
        the first, and for a change of a function the only ones."""
        found = {}
        for number in chosen:
            change = self.changes[number]
            found.setdefault((change.module, change.path, id(change.statement)), []).append(number)
        for numbers in sorted(found.values(), key=len, reverse=True):
            change = self.changes[numbers[0]]
            reached = self.model.reached(change)
            tries = [place for place, it in enumerate(self.tries) if it.calls & reached]
            rest = [place for place, it in enumerate(self.tries) if not it.calls & reached]
            yield numbers, tries + rest if isinstance(change.whole, ast.Module) else tries

    def find(self, change, places):
        """The name of a case that finds a change, which is tried first from then on; or none."""
        is_stopped = change.path != "run_script"
        try:
            with self.model.broker(change) as broker:
                place = next((at for at, it in enumerate(places) if self.tries[it].differs(broker, is_stopped)), None)
        except Exception:  # (it can't even be loaded, so it is no broker)
            return ""
        if place is None:
            return None
        places.insert(0, places.pop(place))
        return self.tries[places[0]].name

    def shows_in(self, change):
        """The functions one of which is called wherever a change shows; none where that isn't known: of a class's own text, and of kernels'
        texts, which are read once for all."""
        is_known = change.whole is not self.model.trees[change.module] or isinstance(change.statement, ast.Assign)
        return self.model.reached(change) if is_known and change.module != "kernel_text" else None

    def differing_script(self, change, first, last):
        """The first script made at random, of some, to which a change replies otherwise; or none."""
        # (what a line's words stand for is read by these modules)
        shows_in, is_read = self.shows_in(change), change.module in ("policy", "script")
        with self.model.broker(change) as script:
            make = self.fresh(script)
            for number, (lines, places, replies, calls, asked) in enumerate(self.scripts[first:last], first):
                if shows_in is not None and not shows_in & calls:
                    continue
                broker = make(places)
                given = [script.reply_to, broker] if is_read else [reply_to_words, script, broker]
                place = next((at for at, it in enumerate(lines if is_read else asked) if reply_of(*given, it) != replies[at]), None)
                if place is not None:
                    return f"script {number}: `{lines[place]}`"
        return None


def reply_of(reply_to, *given):
    try:
        return reply_to(*given)
    except Exception as error:
        return f"no reply: {error}"


def reply_to_words(script, broker, asked):
    """The reply to a line whose words were read before, as the model's `reply_to` has it."""
    form, given = asked
    try:
        return getattr(broker, form)(*given)
    except script.Refused as refusal:
        return f"refused {refusal}"
    except script.NotAStep:
        return "refused 14 NotAStep"


HUNT = None


def made_script(seed):
    return HUNT.made_script(seed)


def find(group):
    numbers, places = group
    return [(it, HUNT.find(HUNT.changes[it], places)) for it in numbers]


def differing_script(part):
    number, first = part
    return number, HUNT.differing_script(HUNT.changes[number], first, first + PART)


def workers():
    """As many processes as there are processors, each a copy of this one."""
    gc.freeze()
    return multiprocessing.get_context("fork").Pool(len(os.sched_getaffinity(0)), HUNT.limit)


def hunted(chosen, equal):
    """Which case found each change; and what is wrong with the rest, by their names."""
    found, wrong = {}, {}
    same = [it for it in chosen if HUNT.changes[it].name in equal]
    groups = HUNT.groups([it for it in chosen if it not in same])
    with workers() as pool:
        for part in pool.imap_unordered(find, groups):
            found.update(part)
        for number, script in pool.imap_unordered(differing_script, [(it, first) for it in same for first in range(0, len(HUNT.scripts), PART)]):
            if script:
                wrong[HUNT.changes[number].name] = f"it stands among the equal ones, and differs in {script}"
    wrong |= {HUNT.changes[number].name: "no case finds it" for number, name in found.items() if name is None}
    return {it: name for it, name in found.items() if name != ""}, same, wrong


def hold_program(trials, program, count):
    """Holds the program against the right broker on scripts made at random."""
    with tempfile.TemporaryDirectory() as room:
        paths = []
        for number, text in enumerate(leaks_scripts.policies()):
            paths.append(f"{room}/{number}.toml")
            with open(paths[-1], "wb") as file:
                file.write(text)

        def held(number):
            lines, places, replies, *_ = HUNT.scripts[number]
            ended = run([program, "run", *paths, "--audit", str(places)], "".join(f"{it}\n" for it in lines).encode())
            wanted = "".join(f"{it}\n" for it in replies).encode()
            return None if (ended.status, ended.out, ended.err) == (0, wanted, b"") else f"{lines}: {ended}"

        trials.every("scripts made at random are answered as by the broker of the rules", held, range(count))


def asked_for():
    parser = argparse.ArgumentParser(description="Wrong brokers, and the cases that find them.")
    parser.add_argument("program", type=os.path.abspath)
    parser.add_argument("--scripts", type=int, default=TRIED)
    parser.add_argument("--seed", default="1")
    parser.add_argument("--held", type=int, default=HELD)
    parser.add_argument("--only", nargs="+", default=[""])
    parser.add_argument("--keep", action="store_true")
    return parser.parse_args()


def keep(found):
    """Writes the list of the cases that found most."""
    with open(FINDERS, "w", encoding="utf-8") as file:
        file.write("# The cases that find wrong brokers, those that found most first: tests/leaks.py --keep writes them.\n")
        file.writelines(f"{name}\n" for name, _ in Counter(found.values()).most_common())


def hold_right(trials):
    """Holds the right broker against the cases, and learns what it calls in each."""
    held = [(it.name, it.hold(HUNT.right, HUNT.called)) for it in HUNT.tries]
    trials.every("the broker of the rules passes each case of scripts", lambda it: it[1], held)


def make_scripts(seed, count):
    """Makes scripts at random, with the right broker's replies."""
    with workers() as pool:
        HUNT.scripts = pool.map(made_script, [f"{seed} {number}" for number in range(count)], PART // 10)


def main():
    global HUNT
    asked = asked_for()
    HUNT, equal, trials = Hunt(), equal_changes(), Trials("leaks")
    names = {it.name for it in HUNT.changes}
    wrong = {it: "no change has this name" for it in equal if it not in names} | {it: "no case has this name" for it in HUNT.missing}
    hold_right(trials)
    make_scripts(asked.seed, max(asked.scripts, asked.held))
    hold_program(trials, asked.program, asked.scripts)
    found, same, unfound = hunted([number for number, it in enumerate(HUNT.changes) if it.name.startswith(tuple(asked.only))], equal)
    wrong |= unfound
    for name, why in wrong.items():
        print(f"FAILED {name}: {why}")
    if asked.keep:
        keep(found)
    used = sum(sum(resource.getrusage(it)[:2]) for it in (resource.RUSAGE_SELF, resource.RUSAGE_CHILDREN))
    print(f"{len(found) - sum(it is None for it in found.values())} wrong brokers found, {len(same)} equal, in {used:.0f} seconds of processor")
    trials.passed, trials.failed = trials.passed + len(found) + len(same), trials.failed + len(wrong)
    trials.end()


if __name__ == "__main__":
    main()
