#!/usr/bin/env python3
"""A broker by hand that does a small part of what brokerd does: grants, listings and signals, and no packets.

    examples/tiny_broker.py POLICY < SCRIPT

It knows allow rows, and no deny rows. docs/cases.md holds it against cases."""

import operator
import sys
import tomllib

RIGHTS = {"agent": ["USE"], "region": ["READ", "WRITE"], "signal": ["WAIT", "CHANGE"], "kernel": ["LAUNCH"]}
CHANGES = {
    "store": lambda old, new: new,
    "exchange": lambda old, new: new,
    "add": operator.add,
    "subtract": operator.sub,
    "and": operator.and_,
    "or": operator.or_,
    "xor": operator.xor,
}
CONDITIONS = {"EQ": operator.eq, "NE": operator.ne, "LT": operator.lt, "GTE": operator.ge}


class Refused(Exception):
    """A line that is refused: the number and the name."""


def wrapped(number):
    """A whole number as 64 bits with a sign."""
    return (number + 2**63) % 2**64 - 2**63


class Broker:
    def __init__(self, policy):
        self.clients = [row["name"] for row in policy.get("client", [])]
        self.objects = {kind: [row["name"] for row in policy.get(kind, [])] for kind in RIGHTS}
        self.allows = policy.get("allow", [])
        self.values = {row["name"]: row["initial"] for row in policy.get("signal", [])}
        self.in_force = set()
        self.queues = 0

    def named(self, client, kind, name):
        """Refuses a client, and then an object, that isn't there."""
        if client not in self.clients:
            raise Refused("1 UnknownClient")
        if name not in self.objects[kind]:
            raise Refused("13 UnknownObject")

    def allowed(self, client, kind, name, right):
        return any(
            row["client"] in (client, "*") and row["kind"] == kind and row["object"] in (name, "*") and right in row["rights"]
            for row in self.allows
        )

    def grant(self, client, kind, name, rights):
        self.named(client, kind, name)
        if not all(self.allowed(client, kind, name, right) for right in rights.split(",")):
            raise Refused("5 NotAllowed")
        self.in_force |= {(client, kind, name, right) for right in rights.split(",")}
        return "ok"

    def revoke(self, client, kind, name, rights):
        self.named(client, kind, name)
        self.in_force -= {(client, kind, name, right) for right in rights.split(",")}
        return "ok"

    def list(self, client):
        if client not in self.clients:
            raise Refused("1 UnknownClient")
        lines = []
        for kind, names in self.objects.items():
            for number, name in enumerate(names, 1):
                if rights := [it for it in RIGHTS[kind] if (client, kind, name, it) in self.in_force]:
                    lines.append(f"{kind} {number} {name} {','.join(rights)}")
        return "\n".join([f"list {len(lines)}", *lines])

    def asks(self, client, kind, name, right):
        """Refuses what a client has no right to ask."""
        if client not in self.clients:
            raise Refused("1 UnknownClient")
        if (client, kind, name, right) not in self.in_force:
            raise Refused(f"3 Denied {right}")

    def queue(self, client, agent, size, producers):
        self.asks(client, "agent", agent, "USE")
        self.queues += 1
        return f"queue {self.queues}"

    def load(self, client, name):
        self.asks(client, "signal", name, "WAIT")
        return f"value {self.values[name]}"

    def test(self, client, name, condition, value):
        self.asks(client, "signal", name, "WAIT")
        return "true" if CONDITIONS[condition](self.values[name], int(value)) else "false"

    def signal(self, client, name, change, *numbers):
        self.asks(client, "signal", name, "CHANGE")
        old, *given = self.values[name], *map(int, numbers)
        if change == "cas":
            expected, new = given
            self.values[name] = new if old == expected else old
        else:
            self.values[name] = wrapped(CHANGES[change](old, *given))
        return f"old {old}" if change in ("cas", "exchange") else "ok"


def main(path):
    with open(path, "rb") as file:
        broker = Broker(tomllib.load(file))
    lines = {it: getattr(broker, it) for it in ("grant", "revoke", "list", "queue", "load", "test", "signal")}
    for number, line in enumerate(sys.stdin, 1):
        if not line.split() or line.startswith("#"):
            continue
        verb, *words = line.split()
        try:
            print(lines[verb](*words))
        except Refused as refusal:
            print(f"refused {refusal}")
        except (KeyError, TypeError, ValueError):
            print(f"line {number}: bad request", file=sys.stderr)
            return 1
    return 0


if __name__ == "__main__":
    sys.exit(main(sys.argv[1]))
