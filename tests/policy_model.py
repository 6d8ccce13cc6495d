"""What `brokerd check` tells of a policy's text, by the rules of docs/policy.md and with Python's own reader of TOML.

Of kernels it tells no fault but that of an empty text. It has nothing of the broker's code.
"""
import functools
import re

try:
    import tomllib
except ImportError:
    tomllib = None

MOST_BYTES, MOST_MEMORY, MOST_LENGTH = 1 << 20, 1 << 26, 1 << 24
CAUSES = ("", "NotToml", "MissingKey", "BadValue", "UnknownName", "DoubleName", "TooMany")
RIGHTS = {"agent": {"USE"}, "region": {"READ", "WRITE"}, "signal": {"WAIT", "CHANGE"}, "kernel": {"LAUNCH"}}
ARRAYS = {
    "client": (64, ["name"]),
    "agent": (16, ["name", "takes"]),
    "region": (64, ["name", "length"]),
    "signal": (1024, ["name", "initial"]),
    "kernel": (64, ["name", "entry", "text"]),
    "allow": (4096, ["client", "kind", "object", "rights"]),
    "deny": (4096, ["client", "kind", "object", "rights"]),
}
PLURALS = {"deny": "denies"}


class Fault(Exception):
    def __init__(self, cause, kind="", row=0):
        super().__init__(f"policy: {cause} {CAUSES[cause]}" + (f" {kind} {row}" if kind else ""))


def finite(text):
    """The number of a float's text, which the reader of TOML refuses where it is too large."""
    number = float(text)
    if abs(number) == float("inf") and "inf" not in text:
        raise Fault(1)
    return number


def is_whole(value, least, most):
    return isinstance(value, int) and not isinstance(value, bool) and least <= value <= most


def words_among(value, words):
    return isinstance(value, list) and all(isinstance(it, str) and it in words for it in value)


def is_name(value):
    return isinstance(value, str) and re.fullmatch(r"[A-Za-z0-9_-]{1,64}", value) is not None


def is_good(key, value, row):
    """Whether a key has a value that may stand there."""
    return {
        "name": lambda: is_name(value),
        "takes": lambda: words_among(value, {"kernel", "agent"}),
        "length": lambda: is_whole(value, 1, MOST_LENGTH),
        "initial": lambda: is_whole(value, -(2**63), 2**63 - 1),
        "entry": lambda: isinstance(value, str) and value.startswith("&"),
        "text": lambda: isinstance(value, str),
        "client": lambda: value == "*" or is_name(value),
        "kind": lambda: isinstance(value, str) and value in RIGHTS,
        "object": lambda: value == "*" or is_name(value),
        "rights": lambda: words_among(value, RIGHTS[row["kind"]]),
    }[key]()


def is_within_64_bits(value):
    """Whether all whole numbers of a tree are, as a reader of TOML may ask."""
    if isinstance(value, dict):
        return all(map(is_within_64_bits, value.values()))
    if isinstance(value, list):
        return all(map(is_within_64_bits, value))
    return not isinstance(value, int) or -(2**63) <= value < 2**63


def rows_of(tree, kind):
    """The rows of an array, judged one by one."""
    most, keys = ARRAYS[kind]
    rows = tree.get(kind, [])
    if not isinstance(rows, list) or not all(isinstance(it, dict) for it in rows):
        raise Fault(3, kind, 0)
    if len(rows) > most:
        raise Fault(6, kind, 0)
    return rows, keys


def kinds_of(tree):
    """The arrays that a file's version has: deny rows stand in the second alone."""
    version = tree.get("version", 1)
    if not is_whole(version, 1, 2):
        raise Fault(3)
    return [it for it in ARRAYS if it != "deny" or version == 2]


def judge(tree):
    """The counts of a tree's arrays, each behind its name."""
    kinds = kinds_of(tree)
    if any(key not in ("version", *kinds) for key in tree):
        raise Fault(3)
    names, counts = {}, []
    for kind in kinds:
        rows, keys = rows_of(tree, kind)
        names[kind] = []
        for number, row in enumerate(rows, 1):
            if any(key not in keys for key in row):
                raise Fault(3, kind, number)
            for key in keys:
                if key not in row:
                    raise Fault(2, kind, number)
                if not is_good(key, row[key], row):
                    raise Fault(3, kind, number)
            if kind in ("allow", "deny"):
                if row["client"] != "*" and row["client"] not in names["client"]:
                    raise Fault(4, kind, number)
                if row["object"] != "*" and row["object"] not in names[row["kind"]]:
                    raise Fault(4, kind, number)
            elif row["name"] in names[kind]:
                raise Fault(5, kind, number)
            else:
                names[kind].append(row["name"])
        if kind == "region" and sum(it["length"] for it in rows) > MOST_MEMORY:
            raise Fault(6, kind, 0)
        counts.append((PLURALS.get(kind, f"{kind}s"), len(rows)))
    return counts


def allows(tree, client, kind, name, right):
    """Whether an allow row covers a client's right on an object, and no deny row does."""

    def covers(row):
        return row["client"] in ("*", client) and row["kind"] == kind and row["object"] in ("*", name) and right in row["rights"]

    return any(map(covers, tree.get("allow", []))) and not any(map(covers, tree.get("deny", [])))


def grant_reply(tree, client, kind, name, rights):
    """What a script's `grant` is answered under a policy without a fault."""
    if all(it["name"] != client for it in tree.get("client", [])):
        return "refused 1 UnknownClient"
    if all(it["name"] != name for it in tree.get(kind, [])):
        return "refused 13 UnknownObject"
    return "ok" if all(allows(tree, client, kind, name, it) for it in rights) else "refused 5 NotAllowed"


@functools.lru_cache(maxsize=4096)
def tree_of(text):
    """The tree of a policy's text as bytes; its first fault is raised. Nobody changes a tree."""
    if len(text) > MOST_BYTES:
        raise Fault(6)
    try:
        tree = tomllib.loads(text.decode("utf-8"), parse_float=finite)
    except (UnicodeDecodeError, tomllib.TOMLDecodeError) as error:
        raise Fault(1) from error
    if not is_within_64_bits(tree):
        raise Fault(1)
    judge(tree)
    return tree


def told(text):
    """The exit status, the output and the fault, of a policy's text as bytes; and the texts of its kernels."""
    kernels = []
    try:
        tree = tree_of(text)
        kernels = [it["text"] for it in tree.get("kernel", [])]
    except Fault as fault:
        return (1, b"", f"{fault}\n".encode()), kernels
    if "" in kernels:
        return (1, b"", f"kernel {kernels.index('') + 1}: read 2 line 1 column 1\n".encode()), kernels
    lines = [f"{name} {count}" for name, count in judge(tree)]
    return (0, "".join(f"{it}\n" for it in [*lines, "ok"]).encode(), b""), kernels
