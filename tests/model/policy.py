"""What exists in a broker, and which rights may be granted to whom."""
from dataclasses import dataclass, field

from policy_model import tree_of

USE, READ, WRITE, WAIT, CHANGE, LAUNCH = "USE", "READ", "WRITE", "WAIT", "CHANGE", "LAUNCH"
# the order in which rights are told
RIGHTS = (USE, READ, WRITE, WAIT, CHANGE, LAUNCH)
# the order in which objects are told
KINDS = ("agent", "region", "signal", "kernel")


@dataclass
class Policy:
    """The rows of a policy, by the names of its arrays."""

    rows: dict = field(default_factory=dict)

    def names(self, array):
        return [row["name"] for row in self.rows[array]]

    def numbered(self, array, name):
        """The number of a name, from 1; of one that isn't there 0."""
        names = self.names(array)
        return names.index(name) + 1 if name in names else 0

    def row(self, array, number):
        return self.rows[array][number - 1]

    def allowed(self, client, thing, right):
        """Whether some allow row covers a right, and no deny row does."""
        covers = lambda row: self.covers(row, client, thing, right)
        return any(map(covers, self.rows["allow"])) and not any(map(covers, self.rows["deny"]))

    def covers(self, row, client, thing, right):
        """Whether a row covers a client's right on an object."""
        kind, number = thing
        of_client = row["client"] in ("*", self.row("client", client)["name"])
        of_object = row["kind"] == kind and row["object"] in ("*", self.row(kind, number)["name"])
        return of_client and of_object and right in row["rights"]

    def agents(self):
        return [(row["name"], set(row["takes"])) for row in self.rows["agent"]]

    def declares_as(self, other):
        """Whether another policy declares the same clients and objects, with all their keys."""
        arrays = {"client", "region", "signal", "kernel"}
        return self.agents() == other.agents() and all(self.rows[array] == other.rows[array] for array in arrays)


def read_policy(text):
    """The policy of a text; its first fault is raised."""
    tree = tree_of(text)
    return Policy({array: tree.get(array, []) for array in ("client", *KINDS, "allow", "deny")})
