#!/usr/bin/env python3
"""The small things by which a broker's text is made wrong, each in each way that its kind has: leaks_changes.py FILE [N]

Of a text in Python it lists all changes, with a number each; with a number it writes the text with that change in it."""
import ast
import contextlib
import copy
import inspect
import os
import sys
import types
from dataclasses import dataclass, replace

RIGHTS = {"USE": "READ", "READ": "WRITE", "WRITE": "READ", "WAIT": "CHANGE", "CHANGE": "WAIT", "LAUNCH": "USE"}
NEIGHBOURS = {
    ast.Lt: ast.LtE, ast.LtE: ast.Lt, ast.Gt: ast.GtE, ast.GtE: ast.Gt, ast.Eq: ast.NotEq, ast.NotEq: ast.Eq, ast.In: ast.NotIn, ast.NotIn: ast.In,
    ast.Is: ast.IsNot, ast.IsNot: ast.Is,
}
# what begins the name of a function that refuses, and the functions to which the order of what they are given is nothing
CHECKS, WITHOUT_ORDER = ("ask_", "demand", "want"), ("any", "all", "sum", "prod", "set", "dict", "sorted", "max", "min")
OTHER_CALLS = {"any": "all", "all": "any", "min": "max", "max": "min"}
OTHER_SIGNS = {ast.Add: ast.Sub, ast.Sub: ast.Add, ast.BitAnd: ast.BitOr, ast.BitOr: ast.BitAnd, ast.LShift: ast.RShift, ast.RShift: ast.LShift}


@dataclass
class Change:
    """A change of a module's text: where it is and how it is made. `whole` is the function around it, or the module, and `statement` what
    of the module has it."""

    module: str
    name: str
    path: str
    whole: ast.AST
    statement: ast.AST
    node: ast.AST
    made: object

    def tree(self):
        """A copy of the whole with the change in it. Of a module the other statements are no copies."""
        if not isinstance(self.whole, ast.Module):
            return self.copied(self.whole)
        return ast.Module([self.copied(it) if it is self.statement else it for it in self.whole.body], [])

    def copied(self, part):
        self.node.is_changed = True
        copied = copy.deepcopy(part)
        del self.node.is_changed
        return ast.fix_missing_locations(Put(self.made).visit(copied))


class Put(ast.NodeTransformer):
    """Puts another node in the place of the one that is marked."""

    def __init__(self, made):
        self.made = made

    def visit(self, node):
        return self.made(node) if getattr(node, "is_changed", False) else self.generic_visit(node)


def call(name, *given):
    return ast.Call(ast.Name(name, ast.Load()), list(given), [])


def with_field(field, value):
    """A node with another value in a field; a function makes it of the one before."""

    def made(node):
        setattr(node, field, value(getattr(node, field)) if callable(value) else value)
        return node

    return made


def without(field, place):
    return with_field(field, lambda they: they[:place] + they[place + 1 :])


def swapped(field, place):
    return with_field(field, lambda they: [*they[:place], they[place + 1], they[place], *they[place + 2 :]])


def truth(value):
    return lambda node: ast.Constant(value)


def comparisons(node):
    """A comparison with a neighbour in place of each sign, or without one of its sides."""
    for place, sign in enumerate(node.ops):
        to = NEIGHBOURS[type(sign)]
        yield f"`{SIGNS[type(sign)]}` is `{SIGNS[to]}`", with_field("ops", lambda they, place=place, to=to: [*they[:place], to(), *they[place + 1 :]])
    if len(node.ops) > 1:
        yield "without its first side", lambda it: ast.Compare(it.comparators[0], it.ops[1:], it.comparators[1:])
        yield "without its last side", lambda it: ast.Compare(it.left, it.ops[:-1], it.comparators[:-1])
    yield "always true", truth(True)
    yield "never true", truth(False)


SIGNS = {
    ast.Lt: "<", ast.LtE: "<=", ast.Gt: ">", ast.GtE: ">=", ast.Eq: "==", ast.NotEq: "!=", ast.In: "in", ast.NotIn: "not in", ast.Is: "is",
    ast.IsNot: "is not", ast.Add: "+", ast.Sub: "-", ast.BitAnd: "&", ast.BitOr: "|", ast.LShift: "<<", ast.RShift: ">>", ast.Mult: "*",
    ast.FloorDiv: "//", ast.Mod: "%", ast.Pow: "**",
}


def joined(node):
    """`and` and `or` without one of their sides, and the one for the other."""
    for place in range(len(node.values)):
        yield f"without side {place + 1}", lambda it, place=place: it.values[1 - place] if len(it.values) == 2 else without("values", place)(it)
    yield "the other of `and` and `or`", with_field("op", lambda it: ast.Or() if isinstance(it, ast.And) else ast.And())


def signs(node):
    """A calculation with another sign, or with its left side alone."""
    if type(node.op) in OTHER_SIGNS:
        to = OTHER_SIGNS[type(node.op)]
        yield f"`{SIGNS[type(node.op)]}` is `{SIGNS[to]}`", with_field("op", to())
    yield f"the left side of `{SIGNS[type(node.op)]}` alone", lambda it: it.left


def numbers(node):
    if node.value is True or node.value is False:
        yield f"{node.value} is {not node.value}", truth(not node.value)
    elif isinstance(node.value, int):
        yield f"{node.value} is one more", truth(node.value + 1)
        yield f"{node.value} is one less", truth(node.value - 1)


def rights(node):
    if isinstance(node.ctx, ast.Load) and node.id in RIGHTS:
        yield f"{node.id} is {RIGHTS[node.id]}", with_field("id", RIGHTS[node.id])


def is_constant(node):
    return isinstance(node, ast.Constant) or isinstance(node, ast.Name) and node.id.isupper()


def lists(node):
    """A list without one of its elements, or with two exchanged."""
    if not isinstance(getattr(node, "ctx", ast.Load()), ast.Load) or isinstance(node, ast.Tuple) and not all(map(is_constant, node.elts)):
        return
    for place in range(len(node.elts)):
        yield f"without element {place + 1}", without("elts", place)
    spelled_out = list(map(ast.unparse, node.elts))
    for place in range(0 if hasattr(node, "has_no_order") else len(node.elts) - 1):
        if spelled_out[place] != spelled_out[place + 1]:
            yield f"elements {place + 1} and {place + 2} exchanged", swapped("elts", place)


def slices(node):
    """A part that begins one later, ends one earlier, or is its first element alone."""
    if node.lower:
        yield "one later from its beginning", with_field("lower", lambda it: ast.BinOp(it, ast.Add(), ast.Constant(1)))
    if node.upper:
        yield "the last forgotten", with_field("upper", lambda it: ast.BinOp(it, ast.Sub(), ast.Constant(1)))
        yield "the first alone", with_field("upper", lambda it: ast.BinOp(node.lower or ast.Constant(0), ast.Add(), ast.Constant(1)))


def part(of, to, first=None, step=None):
    return ast.Subscript(call("list", of), ast.Slice(first, to, step), ast.Load())


def loops(node):
    """What is gone through: the first alone, the last forgotten, in the other order; and without its conditions."""
    minus = ast.UnaryOp(ast.USub(), ast.Constant(1))
    yield "the first alone", with_field("iter", lambda it: part(it, ast.Constant(1)))
    yield "the first forgotten", with_field("iter", lambda it: part(it, None, ast.Constant(1)))
    yield "the last forgotten", with_field("iter", lambda it: part(it, minus))
    if not hasattr(node, "has_no_order"):
        yield "in the other order", with_field("iter", lambda it: part(it, None, None, minus))
    for place in range(len(getattr(node, "ifs", []))):
        yield f"without condition {place + 1}", without("ifs", place)


def choices(node):
    """A condition that isn't looked at."""
    if not isinstance(node.test, ast.Compare):
        yield "its condition always true", with_field("test", ast.Constant(True))
        yield "its condition never true", with_field("test", ast.Constant(False))


def calls(node):
    name = getattr(node.func, "id", None)
    if name in OTHER_CALLS:
        yield f"{name} is {OTHER_CALLS[name]}", with_field("func", ast.Name(OTHER_CALLS[name], ast.Load()))
    if name == "sorted":
        yield "not sorted", with_field("func", ast.Name("list", ast.Load()))
        yield "sorted the other way", lambda it: part(it, None, None, ast.UnaryOp(ast.USub(), ast.Constant(1)))


def is_effect(node):
    """Whether a statement changes something."""
    if isinstance(node, ast.Expr):
        return not isinstance(node.value, ast.Constant)
    if isinstance(node, (ast.Delete, ast.Raise, ast.AugAssign)):
        return True
    targets = node.targets if isinstance(node, ast.Assign) else []
    return any(isinstance(it, (ast.Attribute, ast.Subscript)) for it in targets)


def is_check(node):
    """Whether a statement refuses, or may."""
    asks = isinstance(node, ast.Expr) and isinstance(node.value, ast.Call) and ast.unparse(node.value.func).split(".")[-1].startswith(CHECKS)
    return asks or isinstance(node, ast.If) and isinstance(node.body[-1], (ast.Raise, ast.Return))


def effects(node):
    if is_effect(node):
        yield "left out", lambda it: ast.Pass()


def orders(node):
    """Two checks, or a check and an effect, in the other order."""
    for place, (one, other) in enumerate(zip(node.body, node.body[1:])):
        if is_check(one) and (is_check(other) or is_effect(other)):
            yield f"`{line_of(one)}` behind `{line_of(other)}`", swapped("body", place)


def line_of(node):
    return ast.unparse(node).split("\n")[0]


def neighbours(tree):
    """The names that are taken apart together, each with the next one, by the functions in which they are."""
    found = {}
    for function in ast.walk(tree):
        if isinstance(function, (ast.FunctionDef, ast.Lambda)):
            for node in ast.walk(function):
                if isinstance(node, ast.Assign) and isinstance(node.targets[0], ast.Tuple):
                    names = [it.id for it in node.targets[0].elts if isinstance(it, ast.Name) and it.id != "_"]
                    for inner in ast.walk(function):
                        if isinstance(inner, ast.Name) and isinstance(inner.ctx, ast.Load) and inner.id in names and len(names) > 1:
                            found[inner] = names[(names.index(inner.id) + 1) % len(names)]
    return found


KINDS = [
    (ast.Compare, comparisons), (ast.BoolOp, joined), (ast.BinOp, signs), (ast.Constant, numbers), (ast.Name, rights), (ast.List, lists),
    (ast.Set, lists), (ast.Tuple, lists), (ast.Slice, slices), (ast.For, loops), (ast.comprehension, loops), (ast.If, choices), (ast.IfExp, choices),
    (ast.Call, calls), (ast.stmt, effects), (ast.FunctionDef, orders), (ast.For, orders), (ast.If, orders),
]


def changes_of(node):
    for kind, made in KINDS:
        if isinstance(node, kind):
            yield from made(node)
    if isinstance(node, ast.UnaryOp) and isinstance(node.op, ast.Not):
        yield "without its `not`", lambda it: it.operand


def mark_what_has_no_order(tree):
    """Marks what is gone through or listed where the order makes nothing."""
    for node in ast.walk(tree):
        made = [node] if isinstance(node, (ast.SetComp, ast.DictComp)) else []
        if isinstance(node, ast.Call) and getattr(node.func, "id", "") in WITHOUT_ORDER:
            made = [it for it in node.args if isinstance(it, ast.GeneratorExp)]
        found = [kept for it in made for part in it.generators for kept in (part, part.iter)] + [node] * isinstance(node, ast.Set)
        if isinstance(node, ast.Compare) and isinstance(node.ops[0], (ast.In, ast.NotIn)):
            found += node.comparators
        for it in found:
            it.has_no_order = True


def nodes(tree):
    """Each node behind the path of the function or class that it is in, the outermost function or the module around it, and the module's
    statement that has it."""
    def walk(node, path, around, statement):
        for child in ast.iter_child_nodes(node):
            if isinstance(child, ast.arg) or getattr(node, "returns", None) is child:
                continue
            is_inner = isinstance(node, (ast.Module, ast.ClassDef)) and isinstance(child, (ast.FunctionDef, ast.ClassDef))
            inner = f"{path}.{child.name}".lstrip(".") if is_inner else path
            whole = child if is_inner and isinstance(child, ast.FunctionDef) else around
            yield inner, whole, statement or child, child
            yield from walk(child, inner, whole, statement or child)

    yield from walk(tree, "", tree, None)


def spelled(node):
    """A node's text, as short as it can be told."""
    if isinstance(node, ast.comprehension):
        return f"for {ast.unparse(node.target)} in {ast.unparse(node.iter)}"
    if isinstance(node, ast.FunctionDef):
        return f"def {node.name}"
    return ast.unparse(node).split("\n")[0]


def changes_in(module, tree):
    """All changes of a module, each with a name of its own."""
    found, seen, others = [], {}, neighbours(tree)
    mark_what_has_no_order(tree)
    for path, whole, statement, node in nodes(tree):
        told = list(changes_of(node))
        if node in others:
            told.append((f"{node.id} is {others[node]}", with_field("id", others[node])))
        for what, made in told:
            name = f"{module}{'.' * bool(path)}{path}: `{spelled(node)}`: {what}"
            seen[name] = seen.get(name, 0) + 1
            found.append(Change(module, name if seen[name] == 1 else f"{name} ({seen[name]})", path, whole, statement, node, made))
    return found


def functions(tree):
    """The functions of a module and those of its classes, by their paths."""
    for path, whole, _, node in nodes(tree):
        if node is whole:
            yield path, node


def names_in(*parts):
    """The names that stand in some nodes, also behind a dot."""
    found = [it for part in parts for it in ast.walk(part)]
    return {it.id for it in found if isinstance(it, ast.Name)} | {it.attr for it in found if isinstance(it, ast.Attribute)}


def own_parts(statement):
    """What of a module's statement is made as the module is loaded: of a class all but its functions."""
    if isinstance(statement, ast.ClassDef):
        return [it for it in statement.body if not isinstance(it, ast.FunctionDef)]
    return [] if isinstance(statement, (ast.FunctionDef, ast.Import, ast.ImportFrom)) else [statement]


def named_by(statement):
    """The names that a module's statement gives."""
    if isinstance(statement, (ast.FunctionDef, ast.ClassDef)):
        return {statement.name}
    return {it.id for it in ast.walk(statement) if isinstance(it, ast.Name) and isinstance(it.ctx, ast.Store)}


def telling(module, tree):
    """A copy of a module whose functions tell that they are called."""
    copied = copy.deepcopy(tree)
    for path, function in functions(copied):
        function.body.insert(0, ast.parse(f"CALLED.add({module + '.' + path!r})").body[0])
    return ast.fix_missing_locations(copied)


class Model:
    """The modules of a broker, and what of them may be changed."""

    def __init__(self, folder, modules):
        self.modules, self.trees, self.changes = modules, {}, []
        for module in modules:
            with open(f"{folder}/{module}.py", encoding="utf-8") as file:
                self.trees[module] = ast.parse(file.read())
            self.changes += changes_in(module, self.trees[module])
        self.codes = {module: compiled(module, tree) for module, tree in self.trees.items()}
        self.right = self.loaded(modules, self.codes)

    def loaded(self, modules, codes, **given):
        """Modules that are loaded anew, in turn; these names are given to each."""
        for module in modules:
            made = types.ModuleType(f"model.{module}")
            made.__dict__.update(given)
            sys.modules[f"model.{module}"] = made
            exec(codes[module], made.__dict__)
        return {f"model.{module}": sys.modules[f"model.{module}"] for module in self.modules}

    def telling(self):
        """The right broker, and a set into which its functions put their paths as they are called."""
        called = set()
        codes = {module: compiled(module, telling(module, tree)) for module, tree in self.trees.items()}
        made = self.loaded(self.modules, codes, CALLED=called)
        sys.modules.update(self.right)
        return made[f"model.{self.modules[-1]}"], called

    def function(self, change):
        """The function of the right broker around a change."""
        found = self.right[f"model.{change.module}"]
        for name in change.path.split("."):
            found = vars(found)[name]
        return inspect.unwrap(getattr(found, "fget", found))

    def reached(self, change):
        """The paths of the functions whose calls may show a change: the one around it, or those that name what the module's statement
        makes, or what is made of that."""
        if not isinstance(change.whole, ast.Module):
            return {f"{change.module}.{change.path}"}
        names, before = named_by(change.statement), None
        while names != before:
            before = set(names)
            for it in (it for tree in self.trees.values() for it in tree.body):
                names |= named_by(it) if names_in(*own_parts(it)) & names else set()
        return {f"{module}.{path}" for module, tree in self.trees.items() for path, it in functions(tree) if names_in(it) & names}

    @contextlib.contextmanager
    def broker(self, change=None):
        """The module that runs scripts, with a change in it or beneath it while it lasts."""
        sys.modules.update(self.right)
        script = f"model.{self.modules[-1]}"
        if change is None:
            yield self.right[script]
        elif isinstance(change.whole, ast.Module):
            code = compiled(change.module, change.tree())
            yield self.loaded(self.modules[self.modules.index(change.module) :], {**self.codes, change.module: code})[script]
        else:
            function, right = self.function(change), self.function(change).__code__
            function.__code__ = code_of(change.tree())
            try:
                yield self.right[script]
            finally:
                function.__code__ = right


def compiled(module, tree):
    return compile(tree, f"{module}.py", "exec", dont_inherit=True)


def code_of(function):
    """The code of a function by its tree alone."""
    function.decorator_list = []
    code = compile(ast.Module([function], []), "changed.py", "exec", dont_inherit=True)
    return next(it for it in code.co_consts if isinstance(it, types.CodeType))


def main(words):
    if len(words) not in (1, 2):
        print("usage: leaks_changes.py FILE [N]", file=sys.stderr)
        return 2
    with open(words[0], encoding="utf-8") as file:
        tree = ast.parse(file.read())
    changes = changes_in(os.path.basename(words[0]).removesuffix(".py"), tree)
    if len(words) == 1:
        print(*(f"{number} {it.name}" for number, it in enumerate(changes, 1)), sep="\n")
    else:
        print(ast.unparse(replace(changes[int(words[1]) - 1], whole=tree).tree()))
    return 0


if __name__ == "__main__":
    sys.exit(main(sys.argv[1:]))
