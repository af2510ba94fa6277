"""What a source is read into: expressions and statements, each of which prints as it would stand in a source."""
from dataclasses import dataclass, fields
from functools import lru_cache

STRENGTH = {"||": 2, "&&": 3, "==": 4, "!=": 4, "<": 4, "<=": 4, ">": 4, ">=": 4, "|": 5, "^": 6, "&": 7,
            "<<": 8, ">>": 8, "+": 9, "-": 9, "*": 10, "/": 10, "%": 10}


class Node:
    """Any part of a body."""


def listed(nodes):
    return ", ".join(map(str, nodes))


def closed(node, strength):
    """The text of an operand, in brackets where its operator binds less than `strength`."""
    weakest = STRENGTH[node.sign] if isinstance(node, Binary) else {Range: 1, Cast: 11, Unary: 12}.get(type(node), 13)
    return f"({node})" if weakest < strength else str(node)


@dataclass(eq=False)
class Name(Node):
    path: str

    def __str__(self):
        return self.path


@dataclass(eq=False)
class Literal(Node):
    text: str

    def __str__(self):
        return self.text


@dataclass(eq=False)
class Unary(Node):
    """`-`, `!`, `*`, `&` or `&mut` of an operand."""
    sign: str
    of: Node

    def __str__(self):
        return ("&mut " if self.sign == "&mut" else self.sign) + closed(self.of, 12)


@dataclass(eq=False)
class Binary(Node):
    sign: str
    left: Node
    right: Node

    def __str__(self):
        strength = STRENGTH[self.sign]
        return f"{closed(self.left, strength)} {self.sign} {closed(self.right, strength + 1)}"


@dataclass(eq=False)
class Cast(Node):
    of: Node
    type: str

    def __str__(self):
        return f"{closed(self.of, 11)} as {self.type}"


@dataclass(eq=False)
class Call(Node):
    function: str
    arguments: list

    def __str__(self):
        return f"{self.function}({listed(self.arguments)})"


@dataclass(eq=False)
class Length(Node):
    """`x.len()`."""
    of: Node

    def __str__(self):
        return f"{closed(self.of, 13)}.len()"


@dataclass(eq=False)
class Method(Node):
    """A call of another method, with the types that it is given in angles, if any."""
    of: Node
    name: str
    types: str
    arguments: list

    def __str__(self):
        return f"{closed(self.of, 13)}.{self.name}{self.types}({listed(self.arguments)})"


@dataclass(eq=False)
class Closure(Node):
    """A function without a name, handed to a function or a method."""
    parameters: list
    body: Node

    def __str__(self):
        return f"|{listed(self.parameters)}| {self.body}"


@dataclass(eq=False)
class Try(Node):
    """`x?`, which gives what `x` holds or leaves the function, or the closure, that it stands in."""
    of: Node

    def __str__(self):
        return f"{closed(self.of, 13)}?"


@dataclass(eq=False)
class Field(Node):
    of: Node
    name: str

    def __str__(self):
        return f"{closed(self.of, 13)}.{self.name}"


@dataclass(eq=False)
class Index(Node):
    of: Node
    at: Node

    def __str__(self):
        return f"{closed(self.of, 13)}[{self.at}]"


@dataclass(eq=False)
class Range(Node):
    start: Node
    end: Node
    sign: str

    def __str__(self):
        return f"{self.start or ''}{self.sign}{self.end or ''}"


@dataclass(eq=False)
class Given(Node):
    """One field of a struct that is made, or the struct that the others are taken from, under the name `..`."""
    name: str
    value: Node

    def __str__(self):
        return f"..{self.value}" if self.name == ".." else f"{self.name}: {self.value}"


@dataclass(eq=False)
class Made(Node):
    """A struct made from the values of its fields."""
    type: str
    given: list

    def __str__(self):
        return f"{self.type} {{ {listed(self.given)} }}"


@dataclass(eq=False)
class Array(Node):
    items: list

    def __str__(self):
        return f"[{listed(self.items)}]"


@dataclass(eq=False)
class Repeat(Node):
    item: Node
    size: Node

    def __str__(self):
        return f"[{self.item}; {self.size}]"


@dataclass(eq=False)
class Block(Node):
    """Statements, and the value that the last of them gives, if it does."""
    statements: list
    value: Node

    def __str__(self):
        inside = "; ".join(map(str, self.statements + [self.value] if self.value else self.statements))
        return f"{{ {inside} }}"


@dataclass(eq=False)
class Binder(Node):
    """A pattern that gives what stands there a name."""
    name: str
    mutable: bool

    def __str__(self):
        return f"mut {self.name}" if self.mutable else self.name


@dataclass(eq=False)
class Constant(Node):
    """A pattern that is a number, a constant, a variant that holds nothing, `()`, or `_`."""
    text: str

    def __str__(self):
        return self.text


@dataclass(eq=False)
class Holder(Node):
    """A pattern of a variant and what it holds, or of a tuple, whose variant is the empty text."""
    variant: str
    items: list

    def __str__(self):
        return f"{self.variant}({listed(self.items)})"


@dataclass(eq=False)
class Part(Node):
    """A field of a struct that is taken apart, and the pattern of what it has."""
    name: str
    pattern: Node

    def __str__(self):
        return f"{self.name}: {self.pattern}"


@dataclass(eq=False)
class Apart(Node):
    """A pattern of a struct's fields, or of some of them, which `..` ends."""
    type: str
    parts: list
    rest: str

    def __str__(self):
        return f"{self.type} {{ {listed(self.parts + [self.rest] if self.rest else self.parts)} }}"


@dataclass(eq=False)
class Behind(Node):
    """A pattern of what is behind a reference."""
    of: Node

    def __str__(self):
        return f"&{self.of}"


@dataclass(eq=False)
class Either(Node):
    """Several patterns, of which one has to fit."""
    items: list

    def __str__(self):
        return " | ".join(map(str, self.items))


@dataclass(eq=False)
class Fits(Node):
    """The test whether a value fits a pattern, which names what it binds."""
    pattern: Node
    value: Node

    def __str__(self):
        return f"let {self.pattern} = {self.value}"


@dataclass(eq=False)
class If(Node):
    test: Node
    then: Node
    other: Node

    def __str__(self):
        return f"if {self.test} {self.then}" + (f" else {self.other}" if self.other else "")


@dataclass(eq=False)
class Loop(Node):
    """`loop`, or `while` with its test."""
    test: Node
    body: Node

    def __str__(self):
        return f"while {self.test} {self.body}" if self.test else f"loop {self.body}"


@dataclass(eq=False)
class For(Node):
    pattern: Node
    over: Node
    body: Node

    def __str__(self):
        return f"for {self.pattern} in {self.over} {self.body}"


@dataclass(eq=False)
class Arm(Node):
    pattern: Node
    body: Node

    def __str__(self):
        return f"{self.pattern} => {self.body}"


@dataclass(eq=False)
class Match(Node):
    of: Node
    arms: list

    def __str__(self):
        return f"match {self.of} {{ {listed(self.arms)} }}"


@dataclass(eq=False)
class Leave(Node):
    """`return`, `break` or `continue`."""
    word: str
    value: Node

    def __str__(self):
        return f"{self.word} {self.value}" if self.value else self.word


@dataclass(eq=False)
class Let(Node):
    name: str
    mutable: bool
    type: str
    value: Node

    def __str__(self):
        typed = f": {self.type}" if self.type else ""
        return f"let {'mut ' if self.mutable else ''}{self.name}{typed} = {self.value}"


@dataclass(eq=False)
class LetFits(Node):
    """Names for what fits a pattern; where the value may not fit it, a block that leaves."""
    pattern: Node
    value: Node
    other: Node

    def __str__(self):
        return f"let {self.pattern} = {self.value}" + (f" else {self.other}" if self.other else "")


@dataclass(eq=False)
class Assign(Node):
    sign: str
    target: Node
    value: Node

    def __str__(self):
        return f"{self.target} {self.sign} {self.value}"


def children(node):
    """The parts of a part, from left to right."""
    for field in fields(node):
        value = getattr(node, field.name)
        for part in value if isinstance(value, list) else [value]:
            if isinstance(part, Node):
                yield part


def below(node):
    for child in children(node):
        yield node, child
        yield from below(child)


@lru_cache(maxsize=None)
def pairs(node):
    """Every part below a part, each with the part that it stands in."""
    return tuple(below(node))


def every(kind, node):
    """Every part of one kind, at a part or below it."""
    return [part for part in [node] + [child for _, child in pairs(node)] if isinstance(part, kind)]
