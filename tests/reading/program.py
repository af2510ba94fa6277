"""The sources of all crates together, and what a name in one of them means."""
import re
from functools import lru_cache

from . import tree
from .source import read
from .tokens import Unread

# where functions, variants and constants come from that no crate of the sources has
OUTSIDE = {"u8", "u16", "u32", "u64", "usize", "str", "std", "Some", "Ok", "Err"}
# the variant without a value that every source knows by its bare name
NONE = "None"
read_once = lru_cache(maxsize=None)(read)


def bare(path):
    """A path without the types that parts of it are given in angles."""
    while "<" in path:
        path = re.sub(r"(::)?<[^<>]*>", "", path)
    return path


class Program:
    """All crates of the sources, given as texts by path."""

    def __init__(self, texts):
        self.crates = {}
        for path, text in texts.items():
            crate = path.split("/")[1]
            if crate in self.crates:
                raise Unread(f"crate {crate}: more than one file")
            self.crates[crate] = read_once(crate, text, path.endswith("/main.rt"))
        self.functions = {f.path: f for source in self.crates.values() for f in source.functions.values()}
        self.structs = {f"{crate}::{name}": fields for crate, source in self.crates.items()
                        for name, fields in source.structs.items()}
        self.facts = {f"{crate}::{name}": facts for crate, source in self.crates.items()
                      for name, facts in source.facts.items()}
        self.aliases = {f"{crate}::{name}": kind for crate, source in self.crates.items()
                        for name, kind in source.aliases.items()}
        self.with_default = {f"{crate}::{name}" for crate, source in self.crates.items()
                             for name, traits in source.derived.items() if "Default" in traits}
        self.conversions = [f"{crate}::{name}" for crate, source in self.crates.items() for name in source.conversions]
        for function in self.functions.values():
            self.known(function)

    def known(self, function):
        """All that a function's body calls or compares with must be known, and functions be called where they stand."""
        self.calls(function)
        for name in tree.every(tree.Name, function.body):
            if self.whole(function.crate, name.path) in self.functions:
                raise Unread(f"{function.path}: `{name}` is a function, and not called where it is named")
        source = self.crates[function.crate]
        for constant in tree.every(tree.Constant, function.body):
            if constant.text[0].isupper() and constant.text.split("::")[0] not in {NONE, *source.uses, *source.others}:
                raise Unread(f"{function.path}: the pattern `{constant}` is not known")
        for apart in tree.every(tree.Apart, function.body):
            self.meaning(function.crate, apart.type)

    def function(self, path):
        if path not in self.functions:
            raise Unread(f"there is no function {path}")
        return self.functions[path]

    def whole(self, crate, path):
        """The whole path of what a crate's source names, without the types that it is given in angles."""
        source = self.crates[crate]
        path = bare(path)
        first, *rest = path.split("::")
        if first in source.uses:
            return "::".join([source.uses[first]] + rest)
        own = first in source.structs or first in source.others or path in source.functions
        return f"{crate}::{path}" if own else path

    def meaning(self, crate, path):
        """The whole path of a function or a type that a crate's source names."""
        whole = self.whole(crate, path)
        outside = whole.split("::")[0] in OUTSIDE
        default = whole.endswith("::default") and whole.removesuffix("::default") in self.with_default
        if not (outside or default or whole in self.functions or whole in self.structs):
            raise Unread(f"crate {crate}: `{path}` is not known")
        return whole

    def callee(self, function, call):
        """The whole path of the function that is called."""
        return self.meaning(function.crate, call.function)

    def calls(self, function):
        """Each call of a function's body, with the whole path of what is called."""
        return [(self.callee(function, call), call) for call in tree.every(tree.Call, function.body)]

    def may_convert(self, function):
        """Whether a function may call a conversion without the name of its crate: by `?`, which turns an error into the
        one that the function gives, or as the `from` of a type of the toolchain."""
        paths = [name.path for name in tree.every(tree.Name, function.body)]
        paths += [call.function for call in tree.every(tree.Call, function.body)]
        return bool(tree.every(tree.Try, function.body)) or any(path.endswith("::from") for path in paths)

    def reached(self, *roots):
        """The functions of the sources that functions call, and those that they call, themselves among them."""
        found, todo = set(), list(roots)
        while todo:
            path = todo.pop()
            if path in self.functions and path not in found:
                found.add(path)
                todo += [callee for callee, _ in self.calls(self.functions[path])]
                todo += self.conversions if self.may_convert(self.functions[path]) else []
        return [self.functions[path] for path in sorted(found)]
