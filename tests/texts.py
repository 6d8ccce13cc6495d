#!/usr/bin/env python3
"""Texts made at random, from the grammar and with bytes turned, and an answer of the format to each.

texts.py PROGRAM [--seed S] [--count N]: N texts in all, made from the seed alone. No run may crash or hang. A policy has
to be told, and rights granted under it, just as tests/policy_model.py reckons, where this Python reads TOML; of a
kernel's text and of each line of a script the form of the answer is looked at, and that no line is refused but one with
a turned byte.
"""
import argparse
import os
import random
import re
import tempfile
import time

import policy_model
from trial import BARRIER, FILL, KERNEL, PRELUDE, SAMPLE, Trials, blocks, run, text

COUNTS = "clients \\d+\nagents \\d+\nregions \\d+\nsignals \\d+\nkernels \\d+\nallows \\d+\n(denies \\d+\n)?ok\n"
KERNEL_FAULT = re.compile(r"kernel \d+: (read [1-4] line \d+ column \d+|check [1-7] line \d+|no entry)\n")
POLICY_FAULT = re.compile(r"policy: (1 NotToml|[2-6] (MissingKey|BadValue|UnknownName|DoubleName|TooMany)( (client|agent|region|signal|kernel|allow|deny) \d+)?)\n")

NUMBER = r"(0|[1-9]\d*)"
RULE = r"(L[1-9]|L10|A[1-7]|B1)"
PLACE = f"group {NUMBER} item {NUMBER} line {NUMBER}"
ERROR = f"queue {NUMBER} packet {NUMBER} rule {RULE}( {PLACE})?"
RIGHTS = r"(-|(USE|READ|WRITE|WAIT|CHANGE|LAUNCH)(,(READ|WRITE|WAIT|CHANGE|LAUNCH))*)"
REFUSALS = {
    1: "UnknownClient", 2: "UnknownQueue", 3: "Denied (USE|READ|WRITE|WAIT|CHANGE|LAUNCH)", 4: "Busy queue \\d+ packet \\d+", 5: "NotAllowed",
    6: "OutOfStep \\d+", 7: "QueueDown", 8: "NotInFlight", 9: "NotFinished", 10: "AuditFull", 11: "BadSize", 12: "TooMany", 13: "UnknownObject",
    14: "NotAStep",
}
# which of them a line may meet: those of its requests, and no other (a completion is never refused for a full audit)
MEETS = {
    "grant": (1, 13, 5, 10), "revoke": (1, 13, 4, 10), "queue": (1, 3, 11, 12, 10), "stop": (2, 7, 10), "close": (2, 10), "reserve": (2, 14),
    "room": (2, 14),
    "word": (2, 14), "publish": (2, 14), "submit": (2, 14), "look": (2, 14), "part": (2, 14), "peek": (2, 14), "take": (2, 14, 7, 6, 10),
    "clear": (2, 14), "advance": (2, 14), "retire": (2, 14), "serve": (2, 14, 7, 6, 10), "run": (2, 8, 10), "poll": (2, 8, 10),
    "finish": (2, 8, 9), "write": (1, 11, 3, 10), "read": (1, 11, 3), "signal": (1, 3, 10), "load": (1, 3), "test": (1, 3), "list": (1,),
    "errors": (2,), "audit": (),
}
PUBLISHED = f"published {NUMBER}|busy ticket {NUMBER} read {NUMBER}|not publishable {NUMBER}"
TAKEN = f"launched {NUMBER}|denied {ERROR}|waiting {NUMBER} (Barrier|Active|Slots)"
EFFECTS = f"(; (write [0-9a-f]{{16}} ([0-9a-f]{{2}})+|signal {NUMBER} -?{NUMBER} -?{NUMBER}|release {NUMBER} {NUMBER}))*"
ENTRY = (
    f"{NUMBER} ((grant|revoke) (alice|bob) (agent|region|signal|kernel) {NUMBER} {RIGHTS}|queue {NUMBER} (alice|bob) agent {NUMBER} size {NUMBER}"
    f"|(stop|close) {NUMBER}|take {NUMBER} {NUMBER} (launched|denied {RULE})|run {NUMBER} {NUMBER} (group {NUMBER}|faulted {RULE} {PLACE})"
    f"|poll {NUMBER} {NUMBER} (seen [1-5](,[1-5])*|failed B1)|finish {NUMBER} {NUMBER}|write (alice|bob)"
    f"|signal (alice|bob) (store|add|subtract|and|or|xor|exchange|cas)){EFFECTS}"
)
REPLIES = {
    "grant": "ok", "revoke": "ok", "queue": f"queue {NUMBER}", "stop": "ok", "close": "ok", "reserve": f"ticket {NUMBER}",
    "room": f"read {NUMBER}",
    "word": "ok", "publish": PUBLISHED, "submit": PUBLISHED, "look": "word [0-9a-f]{16}", "part": "word [0-9a-f]{16}",
    "peek": f"shown {NUMBER} [0-9a-f]{{128}}|empty", "take": TAKEN, "clear": "ok", "advance": f"read {NUMBER}", "retire": f"read {NUMBER}",
    "serve": f"empty|{TAKEN}", "run": f"ran {NUMBER} left {NUMBER}|faulted {ERROR}|done", "poll": f"pending|ready|failed {ERROR}",
    "finish": "ok", "write": "ok", "read": "bytes ([0-9a-f]{2})+", "signal": f"ok|old -?{NUMBER}", "load": f"value -?{NUMBER}",
    "test": "true|false", "list": f"list {NUMBER}(\n(agent|region|signal|kernel) {NUMBER} [a-z]+ {RIGHTS})*",
    "errors": f"errors {NUMBER}(\n{ERROR})*", "audit": f"audit {NUMBER}(\n{ENTRY})*",
}
REFUSED = {form: "|".join(f"refused {it} {REFUSALS[it]}" for it in numbers) for form, numbers in MEETS.items()}
REPLIES = {form: re.compile("|".join(it for it in (reply, REFUSED[form]) if it), re.S) for form, reply in REPLIES.items()}


def turned(maker, bytes):
    """A text of which a few bytes are changed, taken away, put in or copied."""
    bytes = bytearray(bytes)
    for _ in range(maker.choice([1, 1, 1, 2, 4])):
        at = maker.randrange(len(bytes) + 1)
        how = maker.randrange(5) if at < len(bytes) else 3
        if how == 0:
            bytes[at] ^= 1 << maker.randrange(8)
        elif how == 1:
            bytes[at] = maker.randrange(256)
        elif how == 2:
            del bytes[at]
        elif how == 3:
            bytes[at:at] = bytes[:0] + maker.choice([b'"', b"\n", b"=", b"[", b"]", b"'", b"\\", b"\x00", b"\xff", b"$", b"%", b"0", b"e", b" "])
        else:
            begin = maker.randrange(len(bytes))
            bytes[at:at] = bytes[begin : begin + maker.randrange(1, 60)]
    return bytes


# Policies

NAMES = ["a", "b", "c-1", "D_2"]
STRANGE_NAMES = ["*", "", "a b", "n" * 64, "n" * 65]
KINDS = ["agent", "region", "signal", "kernel"]
DENY = b'[[deny]]\nclient = "bob"\nkind = "region"\nobject = "buf"\nrights = ["READ"]\n'


class PolicyMaker:
    """Makes policies of rows with keys and values that mostly may stand there; how often not is a number up to 1."""

    def __init__(self, maker, wrong):
        self.maker, self.wrong = maker, wrong

    def is_wrong(self):
        return self.maker.random() < self.wrong

    def quoted(self, *among):
        word = self.maker.choice(NAMES + STRANGE_NAMES if self.is_wrong() else among)
        return self.maker.choice(['"{}"', "'{}'"]).format(word)

    def listed(self, *among):
        words = [self.quoted(*among) for _ in range(self.maker.randrange(4))]
        return "[" + ", ".join(words) + self.maker.choice(["", "", ","] if words else ["", " "]) + "]"

    def number(self, *among):
        strange = [0, -1, 2**24, 2**24 + 1, 2**63 - 1, -(2**63), 2**63, "0x10", "1_000", "1.5", "true", '"1"']
        return self.maker.choice(strange if self.maker.random() < 6 * self.wrong else among)

    def name(self, number):
        return f'"{NAMES[number % len(NAMES)]}"' if not self.is_wrong() else self.quoted(f"n{self.maker.randrange(99)}", *NAMES)

    def access_row(self):
        """A row of `allow` or `deny`."""
        kind = self.maker.choice(KINDS)
        names = NAMES[:2] if kind != "kernel" or self.is_wrong() else []
        rights = self.listed(*sorted(policy_model.RIGHTS[kind]))
        return {"client": self.quoted("*", *NAMES[:2]), "kind": self.quoted(kind), "object": self.quoted("*", *names), "rights": rights}

    def row(self, kind, number):
        if kind in ("allow", "deny"):
            return self.access_row()
        row = {"name": self.name(number)}
        if kind == "agent":
            row["takes"] = self.listed("kernel", "agent")
        if kind == "region":
            row["length"] = self.number(1, 64, 4096, 2**20)
        if kind == "signal":
            row["initial"] = self.number(1, 2, 3)
        return row

    def front(self, version):
        """The lines before the rows."""
        odd = [["version = 0"], ["version = 3"], ["other = 1"], ["client = []"], ["client = 1"], ["allow = [[]]"], ["deny = []"], ["deny = [1]"]]
        lines = [f"version = {version}"] if version == 2 or self.maker.random() < 0.2 else []
        return lines + (self.maker.choice(odd) if self.is_wrong() else [])

    def policy(self):
        maker = self.maker
        version = maker.choice([1, 2])
        has_deny = version == 2 or self.is_wrong()
        lines = self.front(version)
        for kind in ["client", "agent", "region", "signal", "allow", *["deny"] * has_deny]:
            for number in range(maker.choice([0, 1, 3, 5]) if kind in ("allow", "deny") else maker.choice([2, 2, 2, 3, 4 if self.wrong else 2, 0 if self.is_wrong() else 2])):
                row = self.row(kind, number)
                if maker.random() < self.wrong / 2:
                    row.pop(maker.choice(sorted(row)))
                if maker.random() < self.wrong / 3:
                    row[maker.choice(["age", "text", "takes"])] = '"x"'
                lines += [f"[[{kind}]]", *(f"{key} = {value}" for key, value in row.items())]
        return "\n".join(lines).encode()


class PolicyJudge:
    """Asks the program what it tells of a policy, and whether that is so."""

    def __init__(self, program, sample):
        self.program = program
        self.known = set(policy_model.told(sample)[1]) if policy_model.tomllib else set()
        self.found = {"accepted": 0, "refused": 0, "with deny rows": 0}

    def count(self, policy, ended):
        self.found["accepted" if ended.status == 0 else "refused"] += 1
        self.found["with deny rows"] += b"denies" in ended.out and b"denies 0" not in ended.out

    def judge(self, policy):
        ended = run([self.program, "check", "--explain=never", "/dev/stdin"], policy)
        self.count(policy, ended)
        got, err = (ended.status, ended.out, ended.err), ended.err.decode(errors="replace")
        if policy_model.tomllib:
            wanted, kernels = policy_model.told(policy)
            if got == wanted:
                return None
            # (a kernel's text that isn't the sample's may have any fault; and some texts are TOML since its version 1.1)
            of_kernel = wanted[0] == 0 and set(kernels) - self.known and KERNEL_FAULT.fullmatch(err)
            is_newer = b"1 NotToml" in wanted[2] and re.search(rb"\\[ex]|[=,\[]\s*\{|\d:\d", policy)
            if not of_kernel and not is_newer:
                return f"{policy!r}: {got}, and not {wanted}"
        well = (ended.status == 0 and re.fullmatch(COUNTS, ended.out.decode()) and not err) or (
            ended.status == 1 and not ended.out and (POLICY_FAULT.fullmatch(err) or KERNEL_FAULT.fullmatch(err)))
        return None if well else f"it ended otherwise: {ended}"

    def note(self):
        return f" ({self.found['accepted']} accepted, {self.found['with deny rows']} of them with deny rows; {self.found['refused']} refused)"


def try_policies(trials, program, seed, count):
    """The beginnings of the sample policy, it with turned bytes, and made policies; half of them have deny rows."""
    with open(SAMPLE, "rb") as it:
        sample = it.read()
    second = b"version = 2\n" + sample + DENY

    def of_seed(number):
        maker = random.Random(f"{seed} policy {number}")
        made = turned(maker, maker.choice([sample, second])) if number % 2 else PolicyMaker(maker, maker.choice([0.01, 0.03, 0.1])).policy()
        return judge.judge(bytes(turned(maker, made) if number % 8 == 0 else made))

    judge = PolicyJudge(program, sample)
    beginnings = [sample[:at] for at in range(len(sample) + 1)] + [second[:at] for at in range(len(sample), len(second) + 1)]
    trials.every("each beginning of the sample policy is judged", judge.judge, beginnings, judge.note)
    judge = PolicyJudge(program, sample)
    trials.every("policies made at random are judged", of_seed, range(count), judge.note)


def try_grants(trials, program, room, seed, count):
    """Rights that are granted just where a made policy allows them, and no deny row covers them."""
    found = {"ok": 0, "refused 5 NotAllowed": 0, "refused 1 UnknownClient": 0, "refused 13 UnknownObject": 0}

    def of_seed(number):
        maker = random.Random(f"{seed} grants {number}")
        policy = PolicyMaker(maker, 0).policy()
        if policy_model.told(policy)[0][0] != 0:
            return None
        tree, asked, wanted = policy_model.tomllib.loads(policy.decode()), [], []
        allowed = [it for it in tree.get("allow", []) if it["rights"]]
        for _ in range(40):
            client, kind, name = maker.choice(NAMES[:3]), maker.choice(KINDS), maker.choice(NAMES[:3])
            among = sorted(policy_model.RIGHTS[kind]) if maker.random() < 0.9 else ["USE", "READ", "WAIT", "LAUNCH"]
            rights = maker.sample(among, maker.randrange(1, len(among) + 1))
            if allowed and maker.random() < 0.7:
                row = maker.choice(allowed)
                client, name = (NAMES[maker.randrange(2)] if it == "*" else it for it in (row["client"], row["object"]))
                kind, rights = row["kind"], [maker.choice(row["rights"])]
            asked.append(f"grant {client} {kind} {name} {','.join(rights)}")
            wanted.append(policy_model.grant_reply(tree, client, kind, name, rights))
        place = f"{room}/grants{number}.toml"
        with open(place, "wb") as it:
            it.write(policy)
        ended = run([program, "run", place], text(asked))
        os.remove(place)
        for reply in wanted:
            found[reply] += 1
        return None if (ended.status, ended.out, ended.err) == (0, text(wanted), b"") else f"{policy!r}, {asked}: {ended}, and not {wanted}"

    note = lambda: f" ({found['ok']} rights granted, {sum(found.values()) - found['ok']} refused)"
    trials.every("rights are granted as policies made at random say", of_seed, range(count), note)


# Kernels

def operand(maker, width):
    """A register of a width, or a constant."""
    if maker.random() < 0.3:
        return str(maker.choice([0, 1, 7, 31, 255, 2**31, 2**32 - 1, -1, -(2**31), "0x10"]))
    return register(maker, width)


def register(maker, width):
    return f"${'c' if width == 1 else 's' if width <= 32 else 'd'}{maker.choice([0, 1, 2, 3, 63, maker.randrange(66)] if maker.random() < 0.05 else [0, 1, 2, 3])}"


def address(maker, segment):
    if segment == "kernarg":
        return maker.choice(["[%p]", "[%q]", "[%p]", "[%z]"])
    base = register(maker, 64 if segment == "global" else 32)
    form = maker.choice([f"[{base}]", f"[{base}+{maker.choice([0, 4, 8, 2**32])}]", f"[{base}-{maker.choice([1, 4])}]", f"[{maker.choice([0, 4, 2**32, 2**64 - 1])}]"])
    return f"[%t]{maker.choice(['', form])}" if segment == "group" and maker.random() < 0.6 else form


def instruction(maker):
    """An instruction, mostly of the profile."""
    width = maker.choice([32, 64])
    sign = maker.choice("us")
    d, a, b, c = register(maker, width), operand(maker, width), operand(maker, width), operand(maker, width)
    segment = maker.choice(["global", "group"])
    small = maker.choice([8, 16, 32, 64])
    order, scope = maker.choice(["rlx", "scacq", "screl", "scar"]), maker.choice(["wave", "wg", "agent", "system"])
    return maker.choice([
        f"mov_b{width} {d}, {a}",
        f"{maker.choice(['add', 'sub', 'mul', 'div', 'rem', 'min', 'max'])}_{sign}{width} {d}, {a}, {b}",
        f"mad_{sign}{width} {d}, {a}, {b}, {c}",
        f"{maker.choice(['and', 'or', 'xor'])}_b{width} {d}, {a}, {b}",
        f"not_b{width} {d}, {a}",
        f"{maker.choice(['shl', 'shr'])}_{sign}{width} {d}, {a}, {operand(maker, 32)}",
        f"cmp_{maker.choice(['eq', 'ne', 'lt', 'le', 'gt', 'ge'])}_b1_{sign}{width} {register(maker, 1)}, {a}, {b}",
        f"cmov_b{width} {d}, {register(maker, 1)}, {a}, {b}",
        f"cvt_{sign}{width}_{maker.choice('us')}{small} {d}, {register(maker, small)}",
        f"ld_{segment}{maker.choice(['', '', '_align(4)', '_width(all)'])}_{sign}{small} {register(maker, small)}, {address(maker, segment)}",
        f"ld_kernarg_u64 {register(maker, 64)}, {address(maker, 'kernarg')}",
        f"st_{segment}_{sign}{small} {operand(maker, small)}, {address(maker, segment)}",
        f"atomic_{maker.choice(['add', 'sub', 'min', 'max'])}_{segment}_{order}_{scope}_{sign}{width} {d}, {address(maker, segment)}, {a}",
        f"atomic_cas_{segment}_{order}_{scope}_b{width} {d}, {address(maker, segment)}, {a}, {b}",
        f"atomicnoret_{maker.choice(['add', 'and', 'xor'])}_{segment}_{order}_{scope}_{maker.choice(['u', 'b'])}{width} {address(maker, segment)}, {a}",
        f"br @{maker.choice('xyz')}", f"cbr_b1 {register(maker, 1)}, @{maker.choice('xy')}", "ret", "barrier", "barrier",
        f"{maker.choice(['workitemid', 'workgroupid', 'workgroupsize', 'currentworkgroupsize', 'workitemabsid', 'gridsize'])}_u32 {register(maker, 32)}, {maker.choice([0, 1, 2, 3])}",
    ])


def made_kernel(maker):
    items = [f"  {instruction(maker)};" for _ in range(maker.choice([0, 1, 3, 8, 20]))]
    for label in "xy":
        items.insert(maker.randrange(len(items) + 1), f"@{label}:")
    items.insert(0, "  ld_kernarg_u64 $d0, [%p];")
    items.insert(0, "  align(8) group_u32 %t[16];")
    if maker.random() < 0.2:
        items.insert(maker.randrange(len(items)), maker.choice(["// a remark", "/* a remark */", "/* unended", "group_u8 %t;", "@x:", "nop;", "ld_global_f32 $s0, [$d0];"]))
    head = f"module &m:1:{maker.choice([0, 1, 2])}:$full:$large:$default;"
    return "\n".join([head, "prog kernel &k(kernarg_u64 %p, kernarg_u32 %q)", "{", *items, "};", ""]).encode()


def escaped(bytes):
    """Bytes below 128 as a basic string of TOML."""
    return "".join(chr(it) if 32 <= it < 127 and it not in b'"\\' else f"\\u{it:04x}" for it in bytes)


KERNEL_POLICY = """[[client]]
name = "alice"
[[agent]]
name = "gpu"
takes = ["kernel"]
[[region]]
name = "buf"
length = 256
[[region]]
name = "args"
length = 16
[[signal]]
name = "done"
initial = 1
[[kernel]]
name = "inc"
entry = "&k"
text = "{}"
[[allow]]
client = "*"
kind = "agent"
object = "*"
rights = ["USE"]
[[allow]]
client = "*"
kind = "region"
object = "*"
rights = ["READ", "WRITE"]
[[allow]]
client = "*"
kind = "signal"
object = "*"
rights = ["CHANGE"]
[[allow]]
client = "*"
kind = "kernel"
object = "*"
rights = ["LAUNCH"]
"""

KERNEL_SCRIPT = [
    *(it for it in PRELUDE if " go " not in it and "done" not in it),
    "grant alice signal done CHANGE",
    "write alice 0000000200000000 0000000001000000",
    f"submit 1 1 {KERNEL[:48]}0000000040000000{KERNEL[64:]}",
    "serve 1",
    "run 1 0",
    "run 1 0",
    "run 1 0",
    "finish 1 0",
    "errors 1",
    "read alice 0000000100000000 256",
    "audit",
]


def are_replies(script, out):
    """What is wrong with the form of the replies to a script's lines, a beginning of which was answered."""
    asked = [it for it in script if it.split() and not it.startswith("#")]
    found = blocks([" ".join(it.split()) for it in asked], out)
    if found is None or len(found) > len(asked):
        return "its output is no list of replies"
    for line, reply in zip(asked, found):
        form = REPLIES.get(line.split()[0])
        if form is None or not form.fullmatch(reply):
            return f"{line!r} was answered {reply!r}"
    return None


def try_kernels(trials, program, room, seed, count):
    """Kernels that are read and checked, and run where they have no fault."""
    found = {"ran": 0, "faulted": 0, "refused": 0}

    def of_seed(number):
        maker = random.Random(f"{seed} kernel {number}")
        kernel = made_kernel(maker)
        if number % 2:
            kernel = bytes(it & 127 for it in turned(maker, kernel))
        place = f"{room}/{number}.toml"
        with open(place, "w", encoding="utf-8") as it:
            it.write(KERNEL_POLICY.replace("{}", escaped(kernel)))
        ended = run([program, "run", place], text(KERNEL_SCRIPT))
        os.remove(place)
        if ended.status == 1 and not ended.out and KERNEL_FAULT.fullmatch(ended.err.decode(errors="replace")):
            found["refused"] += 1
            return None
        if ended.status != 0 or ended.err:
            return f"{kernel!r}: it ended otherwise: {ended}"
        found["faulted" if b"\nfaulted " in ended.out else "ran"] += 1
        return are_replies(KERNEL_SCRIPT, ended.out)

    note = lambda: f" ({found['refused']} refused, {found['faulted']} faulted, {found['ran']} ran)"
    trials.every("kernels made at random are judged and run", of_seed, range(count), note)


# Scripts

def made_line(maker):
    """A line that has a form."""
    client = lambda: maker.choice(["alice", "alice", "alice", "bob", "carol"])
    queue = lambda: maker.choice([1, 1, 1, 2, 0, 3, 2**64 - 1])
    number = lambda: maker.choice([0, 1, 2, 3, 4, maker.randrange(9), 2**64 - 1, "007"])
    seat = lambda: maker.choice([1, 1, 2, 0, 3])
    value = lambda: maker.choice([0, 1, -1, 5, 2**63 - 1, -(2**63), "-0", "0012"])
    place = lambda: f"{maker.choice([2**32, 2**32 + 60, 2**32 + 64, 2**33, 2**33 + 8, 0, 2**64 - 1]):016x}"
    packet = lambda: made_packet(maker)
    kind = maker.choice(["agent", "region", "signal", "kernel"])
    rights = ",".join(maker.sample(["USE", "READ", "WRITE", "WAIT", "CHANGE", "LAUNCH"], maker.choice([1, 1, 2]))) if maker.random() < 0.5 else {"agent": "USE", "region": "READ,WRITE", "signal": "WAIT,CHANGE", "kernel": "LAUNCH"}[kind]
    name = {"agent": ["gpu"], "region": ["buf", "args"], "signal": ["done", "go"], "kernel": ["inc", "spin"]}[kind] + ["nosuch"]
    signal = maker.choice(["done", "go", "done", "nosuch"])
    word = f"{maker.getrandbits(64):016x}"
    return maker.choice([
        f"{maker.choice(['grant', 'revoke'])} {client()} {kind} {maker.choice(name)} {maker.choice([rights, rights, rights, '-'])}",
        f"queue {client()} gpu {maker.choice([2, 4, 8, 3, 0, 4096])} {maker.choice([1, 2, 16, 17, 0])}",
        f"{maker.choice(['stop', 'close'])} {queue()}" if maker.random() < 0.2 else "errors 1",
        f"reserve {queue()} {seat()}",
        f"room {queue()} {seat()} {number()}",
        f"word {queue()} {seat()} {number()} {maker.randrange(10)} {word}",
        f"publish {queue()} {seat()} {number()} {packet()}",
        f"submit {queue()} {seat()} {packet()}", f"submit 1 1 {packet()}", f"submit 1 2 {packet()}",
        f"look {queue()}", f"part {queue()} {maker.randrange(10)}", f"peek {queue()}", f"take {queue()}", f"clear {queue()}", f"advance {queue()}",
        f"retire {queue()}", f"serve {queue()}", "serve 1", "serve 1", "serve 1", f"run {queue()} {number()}", "run 1 0", f"run 1 {maker.randrange(4)}",
        f"poll {queue()} {number()}", f"poll 1 {maker.randrange(4)}", f"finish {queue()} {number()}", f"finish 1 {maker.randrange(4)}",
        f"write {client()} {place()} {word[: 2 * maker.randrange(1, 9)]}", f"read {client()} {place()} {maker.choice([1, 4, 8, 64, 0, 65536, 65537])}",
        f"signal {client()} {signal} {maker.choice(['store', 'add', 'subtract', 'and', 'or', 'xor', 'exchange'])} {value()}",
        f"signal {client()} {signal} cas {value()} {value()}", f"signal alice {signal} store 0", f"load {client()} {signal}",
        f"test {client()} {signal} {maker.choice(['EQ', 'NE', 'LT', 'GTE'])} {value()}", f"list {client()}", f"errors {queue()}", "audit",
    ])


def made_packet(maker):
    packet = bytearray.fromhex(maker.choice([FILL, KERNEL, BARRIER, "05" + BARRIER[2:]]))
    if maker.random() < 0.4:
        packet[maker.randrange(64)] ^= 1 << maker.randrange(8)
    return packet.hex().upper() if maker.random() < 0.1 else packet.hex()


def try_scripts(trials, program, seed, count):
    """Scripts of lines that have a form, a line of most of them with a turned byte."""
    lines = [0, 0]

    def of_seed(number):
        maker = random.Random(f"{seed} script {number}")
        script = [*PRELUDE, *(made_line(maker) for _ in range(maker.choice([5, 40, 80])))]
        if maker.random() < 0.3:
            script = [maker.choice(["{}", "\t{}", " {} ", "{}\r"]).format(it.replace(" ", maker.choice([" ", "  ", "\t"]))) for it in script]
        at = maker.randrange(len(PRELUDE), len(script)) if number % 4 else None
        given = [it.encode() for it in script]
        if at is not None:
            given[at] = bytes(it for it in turned(maker, given[at]) if it != 10)
        ended = run([program, "run", SAMPLE, "--audit", str(maker.choice([9, 12, 30, 65536]))], b"\n".join(given) + maker.choice([b"", b"\n"]))
        lines[0] += len(script)
        if ended.status == 1 and at is not None and ended.err == f"line {at + 1}: bad request\n".encode():
            lines[1] += 1
            script = script[:at]
        elif ended.status != 0 or ended.err:
            return f"{given!r}: it ended otherwise: {ended}"
        elif at is not None:
            script[at] = given[at].decode("latin-1")
        return are_replies(script, ended.out)

    note = lambda: f" ({lines[0]} lines, {lines[1]} of them of no form)"
    trials.every("scripts made at random are answered", of_seed, range(count), note)


def main():
    parser = argparse.ArgumentParser(description="Texts made at random, and an answer of the format to each.")
    parser.add_argument("program", type=os.path.abspath)
    parser.add_argument("--seed", default="1")
    parser.add_argument("--count", type=int, default=5500, help="how many texts are made in all")
    asked = parser.parse_args()
    begin = time.monotonic()
    trials = Trials("texts")
    with tempfile.TemporaryDirectory() as room:
        parts = [asked.count * part // 11 for part in (5, 1, 3, 2)]
        try_policies(trials, asked.program, asked.seed, parts[0])
        if policy_model.tomllib:
            try_grants(trials, asked.program, room, asked.seed, parts[1])
        try_kernels(trials, asked.program, room, asked.seed, parts[2])
        try_scripts(trials, asked.program, asked.seed, parts[3])
    print(f"seed {asked.seed}: {sum(parts)} texts in {time.monotonic() - begin:.0f} seconds")
    trials.end()


if __name__ == "__main__":
    main()
