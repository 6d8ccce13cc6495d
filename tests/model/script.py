"""Scripts: the forms of their lines, the requests that each stands for, and the replies."""
import operator
import re

from model.broker import Broker, Refused
from model.kernel_text import KernelFault, read_kernels
from model.packets import INVALID
from model.policy import KINDS, RIGHTS, read_policy
from model.ring import NotAStep
from policy_model import Fault

MOST_LINE, MOST_PLACES = 16384, 2**20
OPERATIONS = {
    "store": lambda old, new: new,
    "exchange": lambda old, new: new,
    "add": operator.add,
    "subtract": operator.sub,
    "and": operator.and_,
    "or": operator.or_,
    "xor": operator.xor,
    "cas": lambda old, expected, new: new if old == expected else old,
}
CONDITIONS = {"EQ": operator.eq, "NE": operator.ne, "LT": operator.lt, "GTE": operator.ge}


class BadLine(Exception):
    """A line of no form."""


def want(is_form):
    if not is_form:
        raise BadLine


def number(word):
    want(re.fullmatch("0*[0-9]{1,20}", word))
    found = int(word.lstrip("0") or "0")
    want(found < 2**64)
    return found


def value(word):
    magnitude = number(word.removeprefix("-"))
    found = -magnitude if word.startswith("-") else magnitude
    want(-(2**63) <= found < 2**63)
    return found


def data(word):
    want(re.fullmatch("([0-9a-fA-F]{2})+", word))
    return bytes.fromhex(word)


def address(word):
    want(len(word) == 16)
    return int.from_bytes(data(word), "big")


def word_of_packet(word):
    want(len(word) == 16)
    return data(word)


def packet(word):
    want(len(word) == 128)
    return data(word)


def kind(word):
    want(word in KINDS)
    return word


def rights(word):
    names = set() if word == "-" else set(word.split(","))
    want(names <= set(RIGHTS))
    return names


def operation(word):
    want(word in OPERATIONS and word != "cas")
    return word


def cas(word):
    want(word == "cas")
    return word


def condition(word):
    want(word in CONDITIONS)
    return word


def name(word):
    return word


def counted(word, lines):
    return "\n".join([f"{word} {len(lines)}", *lines])


class Run:
    """A script that runs on a broker: each form of a line is a method, and its words are read as FORMS says."""

    def __init__(self, broker, later):
        self.broker, self.later = broker, later

    def client(self, name):
        return self.broker.policy.numbered("client", name)

    def thing(self, kind, name):
        return kind, self.broker.policy.numbered(kind, name)

    def ring(self, queue):
        return self.broker.queue(queue).ring

    def grant(self, client, kind, name, rights):
        self.broker.grant(self.client(client), self.thing(kind, name), rights)
        return "ok"

    def revoke(self, client, kind, name, rights):
        self.broker.revoke(self.client(client), self.thing(kind, name), rights)
        return "ok"

    def reload(self, place):
        want(1 <= place <= len(self.later))
        self.broker.reload(self.later[place - 1])
        return "ok"

    def queue(self, client, agent, size, producers):
        _, number = self.thing("agent", agent)
        return f"queue {self.broker.open_queue(self.client(client), number, size, producers)}"

    def stop(self, queue):
        self.broker.stop(queue)
        return "ok"

    def close(self, queue):
        self.broker.close(queue)
        return "ok"

    def reserve(self, queue, producer):
        return f"ticket {self.ring(queue).reserve(producer)}"

    def room(self, queue, producer, ticket):
        return f"read {self.ring(queue).look_for_room(producer, ticket)}"

    def word(self, queue, producer, ticket, place, word):
        ring = self.ring(queue)
        if place == 0:
            ring.store_header(producer, ticket, word)
        else:
            ring.store_body(producer, ticket, place, word)
        return "ok"

    def publish(self, queue, producer, ticket, packet):
        if packet[0] == INVALID:
            return f"not publishable {ticket}"
        ring = self.ring(queue)
        read = ring.look_for_room(producer, ticket)
        if not ring.saw_room(producer, ticket):
            return f"busy ticket {ticket} read {read}"
        for place in range(1, 8):
            ring.store_body(producer, ticket, place, packet[8 * place : 8 * place + 8])
        ring.store_header(producer, ticket, packet[:8])
        return f"published {ticket}"

    def submit(self, queue, producer, packet):
        return self.publish(queue, producer, self.ring(queue).reserve(producer), packet)

    def look(self, queue):
        return f"word {self.ring(queue).load_header().hex()}"

    def part(self, queue, place):
        return f"word {self.ring(queue).load_body(place).hex()}"

    def collect(self, queue):
        """Reads the packet at the read index whole; whether there is one."""
        ring = self.ring(queue)
        if ring.load_header()[0] == INVALID:
            return False
        for place in range(1, 8):
            ring.load_body(place)
        return True

    def peek(self, queue):
        if not self.collect(queue):
            return "empty"
        ring = self.ring(queue)
        return f"shown {ring.read} {ring.packet().hex()}"

    def take(self, queue):
        ring = self.ring(queue)
        return self.broker.take(queue, ring.read, ring.packet())

    def clear(self, queue):
        """Clears the header, which waits until the packet is launched or denied."""
        ring = self.ring(queue)
        if ring.read >= self.broker.queue(queue).next:
            raise NotAStep
        ring.clear_header()
        return "ok"

    def advance(self, queue):
        return f"read {self.ring(queue).raise_read_index()}"

    def retire(self, queue):
        self.clear(queue)
        return self.advance(queue)

    def serve(self, queue):
        if not self.collect(queue):
            return "empty"
        reply = self.take(queue)
        if not reply.startswith("waiting"):
            self.retire(queue)
        return reply

    def run(self, queue, packet):
        return self.broker.run(queue, packet)

    def poll(self, queue, packet):
        return self.broker.poll(queue, packet)

    def finish(self, queue, packet):
        self.broker.finish(queue, packet)
        return "ok"

    def write(self, client, address, data):
        self.broker.host_write(self.client(client), address, data)
        return "ok"

    def read(self, client, address, length):
        return f"bytes {self.broker.host_read(self.client(client), address, length).hex()}"

    def signal(self, client, name, operation, *values):
        change = lambda old: OPERATIONS[operation](old, *values)
        _, signal = self.thing("signal", name)
        old = self.broker.signal_change(self.client(client), signal, operation, change)
        return f"old {old}" if operation in ("exchange", "cas") else "ok"

    def load(self, client, name):
        return f"value {self.broker.signal_value(self.client(client), self.thing('signal', name)[1])}"

    def test(self, client, name, condition, value):
        found = self.broker.signal_value(self.client(client), self.thing("signal", name)[1])
        return "true" if CONDITIONS[condition](found, value) else "false"

    def list(self, client):
        return counted("list", self.broker.list(self.client(client)))

    def errors(self, queue):
        return counted("errors", self.broker.queue(queue).errors)

    def audit(self):
        return counted("audit", self.broker.audit())

    def rotate(self):
        return counted("rotated", self.broker.rotate())


FORMS = {
    "grant": [[name, kind, name, rights]],
    "revoke": [[name, kind, name, rights]],
    "reload": [[number]],
    "queue": [[name, name, number, number]],
    "stop": [[number]],
    "close": [[number]],
    "reserve": [[number, number]],
    "room": [[number, number, number]],
    "word": [[number, number, number, number, word_of_packet]],
    "publish": [[number, number, number, packet]],
    "submit": [[number, number, packet]],
    "look": [[number]],
    "part": [[number, number]],
    "peek": [[number]],
    "take": [[number]],
    "clear": [[number]],
    "advance": [[number]],
    "retire": [[number]],
    "serve": [[number]],
    "run": [[number, number]],
    "poll": [[number, number]],
    "finish": [[number, number]],
    "write": [[name, address, data]],
    "read": [[name, address, number]],
    "signal": [[name, name, operation, value], [name, name, cas, value, value]],
    "load": [[name, name]],
    "test": [[name, name, condition, value]],
    "list": [[name]],
    "errors": [[number]],
    "audit": [[]],
    "rotate": [[]],
}


def read_words(words):
    """The form of a line's words, and what they stand for."""
    want(words[0] in FORMS)
    forms = [it for it in FORMS[words[0]] if len(it) == len(words) - 1]
    want(forms)
    return words[0], [read(word) for read, word in zip(forms[0], words[1:])]


def reply_to(run, line):
    """The reply to a line, or none where it asks nothing."""
    want(len(line) <= MOST_LINE)
    words = [it for it in re.split("[ \t\r]", line) if it]
    if line.startswith("#") or not words:
        return None
    form, given = read_words(words)
    try:
        return getattr(run, form)(*given)
    except Refused as refusal:
        return f"refused {refusal}"
    except NotAStep:
        return "refused 14 NotAStep"


def entries_of(policy):
    """The kernels that the rows of a policy name, by their numbers."""
    found, modules = {}, []
    for number, row in enumerate(policy.rows["kernel"], 1):
        try:
            modules.append({it.name: it for it in read_kernels(row["text"])})
        except KernelFault as fault:
            raise KernelFault(f"kernel {number}: {fault}") from None
    for number, row in enumerate(policy.rows["kernel"], 1):
        if row["entry"] not in modules[number - 1]:
            raise KernelFault(f"kernel {number}: no entry")
        found[number] = modules[number - 1][row["entry"]]
    return found


def run_script(policies, script, places):
    """Runs a script over the texts of some policies: the replies, the fault if there is one, and the status."""
    replies = []
    try:
        policy = read_policy(policies[0])
        kernels = entries_of(policy)
        if not 1 <= places <= MOST_PLACES:
            return replies, f"audit: 1 to {MOST_PLACES} entries", 1
        run = Run(Broker(policy, kernels, places), [read_policy(it) for it in policies[1:]])
    except (Fault, KernelFault) as fault:
        return replies, str(fault), 1
    lines = script.decode("latin-1").split("\n")
    for at, line in enumerate(lines, 1):
        try:
            reply = reply_to(run, line)
        except BadLine:
            return replies, f"line {at}: bad request", 1
        replies += [reply] if reply is not None else []
    return replies, "", 0
