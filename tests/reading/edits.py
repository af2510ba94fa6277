"""Wrong sources: what each one does in its first line, and then which lines of which file are replaced by which.

    file: crates/seek/src/lib.rt
    old:
    (whole lines, which stand once in the file)
    new:
    (the lines in their place)

Further `old:` and `new:` change the same file, and a further `file:` names another.
"""


class Misfit(Exception):
    """An edit that cannot be made."""


def steps(text):
    """The first line, and the replacements: file, old lines, new lines."""
    first, *lines = text.splitlines()
    found, file, into = [], None, None
    for line in lines:
        if line.startswith("file: "):
            file, into = line[6:], None
        elif line == "old:":
            found.append((file, [], []))
            into = found[-1][1]
        elif line == "new:" and found:
            into = found[-1][2]
        elif into is None:
            raise Misfit(f"`{line}` where `file:` or `old:` was looked for")
        else:
            into.append(line)
    if not found:
        raise Misfit("nothing is replaced")
    return first, found


def replaced(text, old, new):
    """A text with some of its lines replaced, which must stand in it once."""
    lines = text.splitlines()
    places = [i for i in range(len(lines)) if old and lines[i:i + len(old)] == old]
    if len(places) != 1:
        raise Misfit(f"the lines from `{old[0].strip() if old else ''}` on stand {len(places)} times in the file")
    at = places[0]
    return "\n".join(lines[:at] + new + lines[at + len(old):]) + "\n"


def edited(texts, text):
    """The texts of all sources with a wrong source's lines in them."""
    changed = dict(texts)
    for file, old, new in steps(text)[1]:
        if file not in changed:
            raise Misfit(f"there is no file {file}")
        changed[file] = replaced(changed[file], old, new)
    return changed
