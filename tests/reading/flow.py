"""What becomes of values in a function: which names stand for which, and what is done with bytes."""
from dataclasses import fields, replace
from typing import NamedTuple

from . import tree
from .methods import GIVING, SAME_BYTES

# steps that may be taken again or not at all, and those that may leave
LOOPS = (tree.Loop, tree.For, tree.Closure)
TURNS = (tree.If, tree.Match, tree.Leave, tree.Try, tree.LetFits) + LOOPS


def bound(function):
    """Every name that a function binds, as often as it does: by parameters, by `let`, and by patterns, which loops,
    arms and closures have too."""
    return [p.name for p in function.parameters] + [b.name for b in tree.every((tree.Let, tree.Binder), function.body)]


def named(function):
    """What each name stands for that is bound once and does not change."""
    names = bound(function)
    return {let.name: let.value for let in tree.every(tree.Let, function.body)
            if not let.mutable and names.count(let.name) == 1}


def followed(node, values):
    """A part with what its names stand for in their place."""
    if isinstance(node, tree.Name):
        return followed(values[node.path], values) if node.path in values else node
    changed = {}
    for part in fields(node):
        value = getattr(node, part.name)
        if isinstance(value, tree.Node):
            changed[part.name] = followed(value, values)
        elif isinstance(value, list):
            changed[part.name] = [followed(item, values) for item in value]
    return replace(node, **changed)


def settled(function, node):
    """Whether a part is in no loop and no closure, and all names in it stand for what the function is given and does
    not change."""
    names = bound(function)
    given = [p.name for p in function.parameters if not p.mutable and names.count(p.name) == 1]
    turns = any(part is node for loop in tree.every(LOOPS, function.body) for _, part in tree.pairs(loop))
    used = [name.path for name in tree.every(tree.Name, followed(node, named(function)))]
    return not turns and all(name in given for name in used if name in names)


def origin(program, function, node):
    """Where a value comes from: the call that gave it, with the field that is taken of it; or its own text."""
    node = followed(node, named(function))
    if isinstance(node, tree.Field) and isinstance(node.of, tree.Call):
        return f"{program.callee(function, node.of)}().{node.name}"
    return f"{program.callee(function, node)}()" if isinstance(node, tree.Call) else str(node)


def root(node):
    """The name that a place starts from."""
    while isinstance(node, (tree.Field, tree.Index, tree.Unary, tree.Method)):
        node = node.of
    return str(node)


def changed_by_others(node):
    """The places in a part that what is called there may change: those lent to be changed, and those that a method
    changes which is called on them."""
    lent = [unary.of for unary in tree.every(tree.Unary, node) if unary.sign == "&mut"]
    return lent + [method.of for method in tree.every(tree.Method, node) if method.name not in GIVING]


def mentions(name, node):
    """Every place where a name stands, as the part around it and the name."""
    return [(parent, child) for parent, child in tree.pairs(node)
            if isinstance(child, tree.Name) and child.path == name]


# ---- bytes


def is_bytes(kind):
    return "[u8" in kind


# variants that hold a value, which is followed as if it stood alone
HOLDING = ("Some", "Ok", "Err")


def is_again(node, part):
    """Whether what a part gives is the bytes that stand in it: lent, held by a variant, or as another type."""
    if isinstance(node, tree.Unary):
        return node.sign in ("&", "&mut")
    if isinstance(node, tree.Call):
        return node.function in HOLDING
    return isinstance(node, tree.Try) or isinstance(node, tree.Method) and part is node.of and node.name in SAME_BYTES


def names_whole(pattern):
    """Whether a pattern that fits bytes gives them a name as they are, and compares nothing of them."""
    holds = isinstance(pattern, tree.Holder) and pattern.variant in HOLDING
    return all(map(names_whole, pattern.items)) if holds else isinstance(pattern, tree.Binder)


class Use(NamedTuple):
    """What is done with bytes: `handed` to a function, `cut`, a `byte` read, their `length` taken, `named`,
    `returned`, or what is not known (`other`); the part that does it; and the bytes."""
    what: str
    node: tree.Node
    bytes: tree.Node


class Bytes:
    """The bytes that a function has: those that it is lent, parts of them, and those that a call gives back."""

    def __init__(self, program, function):
        self.program, self.function = program, function
        self.names = {p.name for p in function.parameters if is_bytes(p.type)}
        size = -1
        while size < len(self.names):
            size = len(self.names)
            self.names |= {let.name for let in tree.every(tree.Let, function.body) if self.holds(let.value)}
            self.names |= {root(a.target) for a in tree.every(tree.Assign, function.body) if self.holds(a.value)}
            fits = [fit for fit in tree.every((tree.LetFits, tree.Fits), function.body) if self.holds(fit.value)]
            self.names |= {binder.name for fit in fits for binder in tree.every(tree.Binder, fit.pattern)}

    def holds(self, node):
        """Whether a part is bytes."""
        if isinstance(node, tree.Name):
            return node.path in self.names
        if isinstance(node, tree.Unary):
            return self.holds(node.of)
        if isinstance(node, tree.Index):
            return isinstance(node.at, tree.Range) and self.holds(node.of)
        if isinstance(node, tree.Call) and node.function not in HOLDING:
            callee = self.program.functions.get(self.program.callee(self.function, node))
            return callee is not None and is_bytes(callee.returns)
        wraps = isinstance(node, (tree.Call, tree.Try, tree.Method))
        return wraps and any(is_again(node, part) and self.holds(part) for part in tree.children(node))

    def what(self, node, part):
        """What a part does with the bytes that stand in it."""
        if isinstance(node, tree.Call):
            return "handed"
        if isinstance(node, tree.Index) and part is node.of:
            return "cut" if isinstance(node.at, tree.Range) else "byte"
        if isinstance(node, tree.Length):
            return "length"
        if isinstance(node, tree.Let) or isinstance(node, tree.Assign) and isinstance(node.target, tree.Name):
            return "named"
        if isinstance(node, (tree.LetFits, tree.Fits)) and names_whole(node.pattern):
            return "named"
        if str(node).startswith("return ") or node is self.function.body and part is node.value:
            return "returned"
        return "other"

    def uses(self):
        """All that is done with bytes; what is bytes again, as `&x`, is no use of its own."""
        return [Use(self.what(node, part), node, part) for node, part in tree.pairs(self.function.body)
                if self.holds(part) and not is_again(node, part)]

    def twice(self):
        """Names of bytes that are bound more than once."""
        return sorted(name for name in self.names if bound(self.function).count(name) > 1)
