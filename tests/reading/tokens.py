"""A source cut into tokens."""
import re
from typing import NamedTuple

TOKEN = re.compile(
    r"""(?P<blank>\s+|//[^\n]*)
      | (?P<text>b?"(?:[^"\\]|\\(?:.|\n))*"|b'(?:[^'\\]|\\.)')
      | (?P<lifetime>'[a-z]\w*)
      | (?P<number>\d\w*)
      | (?P<name>[^\W\d]\w*)
      | (?P<sign>/\*|<<=|>>=|\.\.=|::|->|=>|==|!=|<=|>=|&&|\|\||<<|>>|[-+*/%|&^]=|\.\.|.)""",
    re.X,
)


class Unread(Exception):
    """A source that this reader does not know how to read."""


class Token(NamedTuple):
    kind: str
    text: str
    line: int
    start: int


def tokens(text):
    """The tokens of a source, without its blanks and comments, and one that ends them."""
    found, line = [], 1
    for m in TOKEN.finditer(text):
        if m[0] == "/*":
            raise Unread(f"line {line}: a comment that is not of one line")
        if m.lastgroup != "blank":
            found.append(Token(m.lastgroup, m[0], line, m.start()))
        line += m[0].count("\n")
    return found + [Token("end", "the end", line, len(text))]
