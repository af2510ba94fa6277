"""A source read whole: its functions with their bodies, and its structs. What this reader does not know is an error:
modules, functions that take `self`, traits but `From`, patterns of slices, closures that are not handed on, tuples that
are made, macros but `unreachable!()`, and whatever else the sources do not use. A method is the toolchain's, and one
that methods.py lists; the file of a program, which reads files and prints, may call others too."""
from dataclasses import dataclass, field

from . import tree
from .methods import KNOWN, NEVER
from .tokens import Unread, tokens

ASSIGNS = {"=", "+=", "-=", "*=", "/=", "%=", "|=", "&=", "^=", "<<=", ">>="}
# what may stand before an item or a file, and what the toolchain may write for a struct or an enum
ATTRIBUTES = ("derive", "inline", "repr", "tactic", "unsafe")
DERIVES = ("Clone", "Copy", "Debug", "Default", "Eq", "Hash", "Ord", "PartialEq", "PartialOrd")


@dataclass
class Parameter:
    name: str
    mutable: bool
    type: str

    def __str__(self):
        return f"{'mut ' if self.mutable else ''}{self.name}: {self.type}"


@dataclass
class Function:
    crate: str
    name: str
    public: bool
    parameters: list
    returns: str
    requires: list
    body: tree.Block

    def __str__(self):
        parameters = ", ".join(map(str, self.parameters))
        returns = f" -> {self.returns}" if self.returns else ""
        return f"{'pub ' if self.public else ''}fn {self.name}({parameters}){returns} {self.body}"

    @property
    def path(self):
        return f"{self.crate}::{self.name}"

    def of_type(self, kind):
        """The names of the parameters that have this type."""
        return [p.name for p in self.parameters if p.type == kind]


@dataclass
class Source:
    """The items of one file: functions, structs and other names of types by name, other types and constants, and what
    `use` brings in; the facts that structs say of their fields, what is derived for structs and enums, and the
    functions that turn a value into one of another type."""
    functions: dict = field(default_factory=dict)
    structs: dict = field(default_factory=dict)
    facts: dict = field(default_factory=dict)
    derived: dict = field(default_factory=dict)
    conversions: set = field(default_factory=set)
    aliases: dict = field(default_factory=dict)
    others: set = field(default_factory=set)
    uses: dict = field(default_factory=dict)


class Reader:
    """A place in the tokens of a source."""

    def __init__(self, crate, text, is_program):
        self.crate, self.text, self.is_program = crate, text, is_program
        self.tokens, self.at = tokens(text), 0
        # the type that `Self` stands for, if any
        self.own = None

    @property
    def next(self):
        return self.tokens[self.at]

    def fail(self, wanted):
        raise Unread(f"crate {self.crate}, line {self.next.line}: `{self.next.text}` where {wanted} was looked for")

    def sees(self, *texts):
        return self.next.text in texts and self.next.kind != "text"

    def accept(self, *texts):
        """The next token's text, which is passed, if it is one of these; else nothing."""
        if not self.sees(*texts):
            return None
        self.at += 1
        return self.tokens[self.at - 1].text

    def accept_kind(self, kind):
        """The next token's text, which is passed, if it is of this kind; else nothing."""
        return self.take(kind) if self.next.kind == kind else None

    def expect(self, *texts):
        return self.accept(*texts) or self.fail(" or ".join(f"`{t}`" for t in texts))

    def take(self, kind):
        if self.next.kind != kind:
            self.fail(f"a {kind}")
        self.at += 1
        return self.tokens[self.at - 1].text

    def listed(self, end, read):
        """What lies between commas, up to the bracket that ends it."""
        found = []
        while not self.accept(end):
            found.append(read())
            if not self.sees(end):
                self.expect(",")
        return found

    def path(self):
        """A path's text, with the types that a part of it is given in angles; `Self` is the type that it stands for."""
        path = self.take("name")
        if path == "Self":
            path = self.own or self.fail("a name that is known here before this")
        while self.accept("::"):
            path += "::" + (self.type_arguments() if self.sees("<") else self.take("name"))
        return path

    def type(self):
        """A type's text, without lifetimes."""
        if self.accept("&"):
            self.accept_kind("lifetime")
            return ("&mut " if self.accept("mut") else "&") + self.type()
        if self.accept("["):
            text = "[" + self.type()
            if self.accept(";"):
                text += "; " + self.take("number")
            return text + self.expect("]")
        if self.accept("("):
            inside = "" if self.sees(")") else self.type()
            return f"({inside}{self.expect(')')}"
        if self.accept("impl"):
            traits = [self.type()]
            while self.accept("+"):
                traits.append(self.type())
            return f"impl {' + '.join(traits)}"
        return self.path() + self.type_arguments()

    def type_arguments(self):
        """The text of the types that a type is given in angles, lifetimes left out; nothing where it is given none."""
        if not self.accept("<"):
            return ""
        given = []
        while not self.closes():
            given.append("" if self.accept_kind("lifetime") else self.type())
            if not self.sees(">", ">>"):
                self.expect(",")
        types = [kind for kind in given if kind]
        return f"<{', '.join(types)}>" if types else ""

    def closes(self):
        """Whether an angle closes here, which is passed; of `>>` the second one is left."""
        if self.sees(">>"):
            self.tokens[self.at] = self.next._replace(text=">", start=self.next.start + 1)
            return True
        return bool(self.accept(">"))

    def lifetimes(self):
        if self.accept("<"):
            self.listed(">", lambda: self.take("lifetime"))


class Patterns(Reader):
    """What values are compared with and taken apart by."""

    def patterns(self):
        """A pattern, or several with `|` between them."""
        found = [self.pattern()]
        while self.accept("|"):
            found.append(self.pattern())
        return found[0] if len(found) == 1 else tree.Either(found)

    def pattern(self):
        if self.next.kind in ("number", "text"):
            return tree.Constant(self.take(self.next.kind))
        if self.sees("&", "&&"):
            twice = self.expect("&", "&&") == "&&"
            behind = tree.Behind(self.pattern())
            return tree.Behind(behind) if twice else behind
        if self.accept("("):
            items = self.listed(")", self.patterns)
            return tree.Holder("", items) if items else tree.Constant("()")
        return tree.Binder(self.take("name"), True) if self.accept("mut") else self.named()

    def named(self):
        """A pattern that starts with a name: a variant, a constant, or the name that it binds."""
        path = self.path()
        is_binder = not path.split("::")[-1][0].isupper() and path not in ("_", "true", "false")
        if is_binder and "::" in path:
            self.fail("a constant or a variant before this")
        if self.accept("("):
            return tree.Holder(path, self.listed(")", self.patterns))
        if not is_binder and self.accept("{"):
            return self.apart(path)
        return tree.Binder(path, False) if is_binder else tree.Constant(path)

    def apart(self, path):
        """A pattern of a struct's fields."""
        parts = []
        while not self.accept("}"):
            if self.accept(".."):
                self.expect("}")
                return tree.Apart(path, parts, "..")
            name = None if self.sees("mut") else self.take("name")
            pattern = self.patterns() if name is None or self.accept(":") else tree.Binder(name, False)
            parts.append(tree.Part(name or pattern.name, pattern))
            if not self.sees("}"):
                self.expect(",")
        return tree.Apart(path, parts, "")


class Expressions(Patterns):
    """Expressions, from those that bind least to those that bind most."""

    def expression(self, made=True):
        """An expression; `made` says whether a struct may be made in it, as it may not in a test before a block."""
        left = None if self.sees("..", "..=") else self.binary(2, made)
        sign = self.accept("..", "..=")
        if not sign:
            return left
        right = None if self.sees("]", ")", "{", ",", ";") else self.binary(2, made)
        return tree.Range(left, right, sign)

    def binary(self, least, made):
        left = self.cast(made)
        while self.next.kind == "sign" and tree.STRENGTH.get(self.next.text, 0) >= least:
            sign = self.take("sign")
            left = tree.Binary(sign, left, self.binary(tree.STRENGTH[sign] + 1, made))
        return left

    def cast(self, made):
        left = self.unary(made)
        while self.accept("as"):
            left = tree.Cast(left, self.type())
        return left

    def unary(self, made):
        sign = self.accept("-", "!", "*", "&")
        if sign == "&" and self.accept("mut"):
            sign = "&mut"
        return tree.Unary(sign, self.unary(made)) if sign else self.postfix(self.primary(made))

    def postfix(self, left):
        while self.sees(".", "[", "?"):
            if self.accept("["):
                left = tree.Index(left, self.expression())
                self.expect("]")
            elif self.accept("?"):
                left = tree.Try(left)
            else:
                self.expect(".")
                left = self.member(left, self.take("name"))
        return left

    def member(self, of, name):
        """A field, or a method, which is the toolchain's, since no crate of the sources declares one."""
        types = "::" + self.type_arguments() if self.accept("::") else ""
        if not types and not self.sees("("):
            return tree.Field(of, name)
        known = name in KNOWN or self.is_program and name not in NEVER
        self.expect("(") if known else self.fail(f"a method that is known and not `{name}` before this")
        if name == "len" and not types:
            self.expect(")")
            return tree.Length(of)
        return tree.Method(of, name, types, self.listed(")", self.argument))

    def argument(self):
        """What a function or a method is handed: an expression or a closure."""
        if not self.sees("|", "||"):
            return self.expression()
        parameters = [] if self.expect("|", "||") == "||" else self.listed("|", self.pattern)
        return tree.Closure(parameters, self.expression())

    def primary(self, made):
        if self.next.kind in ("number", "text"):
            return tree.Literal(self.take(self.next.kind))
        if self.accept("("):
            if self.accept(")"):
                return tree.Literal("()")
            inside = self.expression()
            self.expect(")")
            return inside
        if self.accept("["):
            return self.array()
        if self.sees("if", "match", "while", "loop", "for", "{"):
            return self.blocklike()
        if self.sees("return", "break", "continue"):
            return self.leave(made)
        path = self.path()
        if path == "unreachable" and self.accept("!"):
            self.expect("(")
            self.expect(")")
            return tree.Literal("unreachable!()")
        if self.accept("("):
            return tree.Call(path, self.listed(")", self.argument))
        if made and path.split("::")[-1][0].isupper() and self.accept("{"):
            return tree.Made(path, self.listed("}", self.given))
        return tree.Name(path)

    def array(self):
        if self.accept("]"):
            return tree.Array([])
        first = self.expression()
        if self.accept(";"):
            size = self.expression()
            self.expect("]")
            return tree.Repeat(first, size)
        rest = self.listed("]", self.expression) if self.accept(",") else self.expect("]") and []
        return tree.Array([first] + rest)

    def given(self):
        if self.accept(".."):
            return tree.Given("..", self.expression())
        name = self.take("name")
        return tree.Given(name, self.expression() if self.accept(":") else tree.Name(name))

    def leave(self, made):
        word = self.take("name")
        value = None if self.sees(";", "}", ",") else self.expression(made)
        return tree.Leave(word, value)


class Statements(Expressions):
    """Blocks, what is made of blocks, and the statements in them."""

    def blocklike(self):
        if self.sees("{"):
            return self.block()
        word = self.take("name")
        if word == "if":
            test, then = self.test(), self.block()
            other = (self.blocklike() if self.sees("if") else self.block()) if self.accept("else") else None
            return tree.If(test, then, other)
        if word == "match":
            of = self.expression(made=False)
            self.expect("{")
            return tree.Match(of, self.arms())
        if word == "for":
            pattern = self.patterns()
            self.expect("in")
            return tree.For(pattern, self.expression(made=False), self.block())
        return tree.Loop(self.test() if word == "while" else None, self.block())

    def test(self):
        """What `if` or `while` tests: an expression, or alone whether a value fits a pattern."""
        if not self.accept("let"):
            return self.expression(made=False)
        pattern = self.patterns()
        self.expect("=")
        return tree.Fits(pattern, self.binary(tree.STRENGTH["&&"] + 1, made=False))

    def arms(self):
        found = []
        while not self.accept("}"):
            pattern = self.patterns()
            self.expect("=>")
            found.append(tree.Arm(pattern, self.expression()))
            ended = isinstance(found[-1].body, tree.Block) or self.sees("}")
            self.accept(",") if ended else self.expect(",")
        return found

    def block(self):
        self.expect("{")
        statements, value = [], None
        while not self.accept("}"):
            if value:
                self.fail("`;` before this")
            statement = self.statement()
            whole = isinstance(statement, (tree.If, tree.Match, tree.Loop, tree.For, tree.Block))
            if self.accept(";") or (whole and not self.sees("}")):
                statements.append(statement)
            else:
                value = statement
        return tree.Block(statements, value)

    def statement(self):
        if self.accept("let"):
            return self.let()
        if self.sees("fn", "use", "const", "static", "struct", "enum", "impl", "mod", "type", "unsafe", "ghost"):
            self.fail("a statement")
        if self.sees("if", "match", "while", "loop", "for", "{"):
            return self.blocklike()
        left = self.expression()
        sign = self.accept(*ASSIGNS)
        return tree.Assign(sign, left, self.expression()) if sign else left

    def let(self):
        """A name for a value; or names for what fits a pattern, and a block that leaves where the value does not."""
        pattern = self.patterns()
        if str(pattern) != "_" and not isinstance(pattern, tree.Binder):
            self.expect("=")
            value = self.expression()
            return tree.LetFits(pattern, value, self.block() if self.accept("else") else None)
        kind = self.type() if self.accept(":") else ""
        self.expect("=")
        return tree.Let(getattr(pattern, "name", "_"), getattr(pattern, "mutable", False), kind, self.expression())


class Items(Statements):
    """The items of a file."""

    def source(self):
        found = Source()
        while self.next.kind != "end":
            derived = self.attributes()
            if self.accept("ghost"):
                self.expect("use")
                self.skip_to(";")
            elif self.next.kind != "end":
                self.item(found, derived)
        return found

    def attributes(self):
        """Passes attributes; what is derived by them."""
        derived = []
        while self.accept("#"):
            self.accept("!")
            self.expect("[")
            if self.expect(*ATTRIBUTES) == "derive":
                self.expect("(")
                derived += self.listed(")", lambda: self.expect(*DERIVES))
                self.expect("]")
            else:
                self.skip_inside("[", "]")
        return derived

    def braced(self):
        """The text inside a pair of braces, which is passed."""
        self.expect("{")
        first = self.next.start
        self.skip_inside("{", "}")
        return " ".join(self.text[first:self.tokens[self.at - 1].start].split())

    def skip_inside(self, start, end):
        """Passes what is left of a pair of brackets."""
        depth = 1
        while depth:
            if self.next.kind == "end":
                self.fail(f"`{end}`")
            depth += self.sees(start) - self.sees(end)
            self.at += 1

    def skip_to(self, end):
        while not self.accept(end):
            if self.next.kind == "end":
                self.fail(f"`{end}`")
            self.at += 1

    def item(self, found, derived):
        public = bool(self.accept("pub"))
        exported = self.accept("extern") and self.take("text")
        word = self.expect("fn") if exported else self.expect("fn", "struct", "enum", "const", "type", "use", "impl")
        if word == "fn":
            function = self.function(public)
            self.once(found.functions, function.name, function)
        elif word == "struct":
            name = self.take("name")
            self.lifetimes()
            found.derived[name] = derived
            self.once(found.structs, name, self.fields(found.facts.setdefault(name, {})))
        elif word == "type":
            name = self.take("name")
            self.once(found.aliases, name, self.alias())
        elif word == "use":
            for path in self.used():
                self.once(found.uses, path.split("::")[-1], path)
            self.expect(";")
        elif word == "impl":
            self.methods(found)
        else:
            name = self.take("name")
            found.others.add(name)
            found.derived[name] = derived
            self.enum() if word == "enum" else self.constant()

    def used(self):
        """The paths that a `use` brings in, each whole."""
        path = self.take("name")
        while self.accept("::"):
            if self.accept("{"):
                return [f"{path}::{inner}" for group in self.listed("}", self.used) for inner in group]
            path += "::" + self.take("name")
        return [path]

    def once(self, named, name, item):
        if name in named:
            self.fail(f"one item with the name {name} before this")
        named[name] = item

    def methods(self, found):
        """The functions of a type, or the one that turns a value into one of it."""
        self.own = self.take("name")
        converts = self.own == "From" and bool(self.type_arguments())
        if converts:
            self.expect("for")
            self.own = self.take("name")
            found.conversions.add(f"{self.own}::from")
        self.expect("{")
        while not self.accept("}"):
            if converts and self.accept("ghost"):
                self.ghost()
            else:
                self.item(found, self.attributes())
        self.own = None

    def ghost(self):
        """Passes what a conversion says of itself in a contract."""
        self.take("name")
        self.expect("=")
        self.braced()
        self.expect(";")

    def fields(self, facts):
        """The fields of a struct, and apart from them the facts that it says of them."""
        self.expect("{")
        fields = {}
        while not self.accept("}"):
            self.accept("pub")
            fact = self.accept("ghost")
            name = self.take("name")
            self.expect(":")
            self.once(facts if fact else fields, name, self.fact() if fact else self.type())
            if not self.sees("}"):
                self.expect(",")
        return fields

    def fact(self):
        """The text of a fact, which is passed with its proof."""
        fact = self.braced()
        if self.accept("by"):
            self.braced()
        return fact

    def enum(self):
        self.expect("{")
        self.listed("}", lambda: self.take("name"))

    def alias(self):
        self.expect("=")
        kind = self.type()
        self.expect(";")
        return kind

    def constant(self):
        self.expect(":")
        self.type()
        self.expect("=")
        self.expression()
        self.expect(";")

    def function(self, public):
        name = (f"{self.own}::" if self.own else "") + self.take("name")
        self.lifetimes()
        self.expect("(")
        parameters = self.listed(")", self.parameter)
        returns = self.type() if self.accept("->") else ""
        requires = []
        while self.sees("requires", "ensures"):
            asks, fact = self.sees("requires"), self.contract()
            requires += [fact] if asks else []
        return Function(self.crate, name, public, parameters, returns, requires, self.block())

    def parameter(self):
        mutable = bool(self.accept("mut"))
        name = self.fail("a parameter that is no `self`") if self.sees("self") else self.take("name")
        self.expect(":")
        return Parameter(name, mutable, self.type())

    def contract(self):
        """The text of a clause of a contract, which is passed, and without its name if it has one."""
        self.expect("requires", "ensures")
        self.accept_kind("name")
        return self.braced()


def read(crate, text, is_program=False):
    """The items of a source."""
    return Items(crate, text, is_program).source()
