"""crates.txt read: its groups, the crates that each crate lists, and those that it uses."""
import re

from .program import Program
from .tokens import Unread

MAP = "| group | its crates |\n|---|---|\n"


class Listing:
    """What crates.txt lists, with the folders under crates/, their sources and README's map beside it."""

    def __init__(self, folders, texts):
        self.folders, self.texts = folders, texts
        self.program = Program({path: text for path, text in texts.items() if path.endswith(".rt")})
        self.groups, self.order, self.listed, self.alone = {}, [], {}, []
        self.group = None
        for line in texts["crates.txt"].splitlines():
            self.take(line)

    def take(self, line):
        """Takes in a line: the heading of a group, a crate, or an empty line, which ends a group."""
        heading = re.match(r"# (\w+)(: .*)?$", line)
        crate = re.match(r"(\w+)(?: staticlib)?:((?: \w+)*)$", line)
        if not line:
            self.group = None
        elif heading:
            self.group = self.groups.setdefault(heading[1], [])
        elif crate:
            (self.alone if self.group is None else self.group).append(crate[1])
            self.order.append(crate[1])
            self.listed[crate[1]] = crate[2].split()
        else:
            raise Unread(f"crates.txt: `{line}`")

    def rows(self):
        """The rows of README's map of crates: the group, and the names that stand in its row."""
        table = self.texts["README.md"].split(MAP)[-1].split("\n\n")[0]
        cells = [row.strip("|").split("|") for row in table.splitlines()]
        return {first.strip(): re.findall(r"`(\w+)`", second) for first, second in cells}

    def named(self, crate):
        """The crates that a crate's files name, comments apart: in code by `name::`, and elsewhere by their modules."""
        own = [text for path, text in self.texts.items() if path.startswith(f"crates/{crate}/")]
        told = re.sub(r"//[^\n]*|--[^\n]*", "", "\n".join(own))
        return {name for pair in re.findall(r"\b(\w+)::|Rattle\.(\w+)", told) for name in pair}

    def types(self, crate):
        """The types of what a crate's functions are given and give back, and of what they call."""
        own = list(self.program.crates[crate].functions.values())
        called = [self.program.functions.get(callee) for f in own for callee, _ in self.program.calls(f)]
        kinds = [(f.crate, kind) for f in own + called if f for kind in [f.returns] + [p.type for p in f.parameters]]
        return {whole for within, kind in kinds for whole in self.wholes(within, kind)}

    def wholes(self, crate, kind):
        """The types that a type's text names, with their crates, and those of their fields."""
        for path in re.findall(r"(?:\w+::)*[A-Z]\w*", kind):
            whole = self.program.crates[crate].uses.get(path, path if "::" in path else f"{crate}::{path}")
            yield whole
            for field in self.program.structs.get(whole, {}).values():
                yield from self.wholes(whole.split("::")[0], field)
