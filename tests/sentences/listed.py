"""Sentences about crates.txt: each crate once, in a group, behind all that it uses; and about what `panel` cites."""
import re

# where the definitions and contracts of `panel` stand, and the crates whose definitions they may name; `std` is the
# toolchain's
PANEL = ("crates/panel/specs/", "crates/panel/src/")
PANEL_CITES = ["rules", "panel", "std"]


def each_folder_once(listing):
    """Every folder under crates/ is a crate that is listed once, and every listed crate has its folder."""
    for crate in sorted(listing.folders ^ set(listing.order)):
        yield f"{crate}: listed, or a folder under crates/, but not both"
    for crate in sorted(set(listing.order)):
        if listing.order.count(crate) > 1:
            yield f"{crate}: it is listed {listing.order.count(crate)} times"


def each_in_a_group(listing):
    """Every crate stands in a group, under its heading, and every group has a crate."""
    yield from (f"{crate}: it is in no group" for crate in listing.alone)
    yield from (f"{group}: no crate is in this group" for group, crates in listing.groups.items() if not crates)


def uses_above(listing):
    """A crate lists others that stand above it, each once and in their order; of the toolchain it uses std alone, which
    is never listed."""
    for crate, uses in listing.listed.items():
        above = listing.order[:listing.order.index(crate)]
        yield from (f"{crate}: {name} does not stand above it" for name in uses if name not in above)
        if uses != [name for name in above if name in uses]:
            yield f"{crate}: what it lists is not in the order of the file"


def uses_listed(listing):
    """A crate lists those that its files name, and those whose structs its functions or what they call are given or
    give back, and no others."""
    for crate, uses in listing.listed.items():
        if crate in listing.folders:
            used = listing.named(crate) | {whole.split("::")[0] for whole in listing.types(crate)}
            yield from (f"{crate}: it does not use {name}" for name in uses if name not in used)
            left = used & listing.folders - {crate, *uses}
            yield from (f"{crate}: it uses {name}, which it does not list" for name in sorted(left))


def map_has_groups(listing):
    """README's map has a row for each group, in their order, with the crates of the group and no others."""
    rows = listing.rows()
    if list(rows) != list(listing.groups):
        yield f"README.md: its groups are {', '.join(rows)}"
    for group, crates in listing.groups.items():
        for crate in sorted(set(rows.get(group, [])) ^ set(crates)):
            yield f"README.md: {crate} is in the group {group} here or there, but not in both"


def panel_cites_rules(listing):
    """The definitions and contracts of `panel` name definitions of `rules`, its own and the toolchain's, and no other
    crate's."""
    for path, text in listing.texts.items():
        if path.startswith(PANEL):
            for crate in re.findall(r"^(?:\w+ )*use Rattle\.(\w+)", text, re.MULTILINE):
                if crate not in PANEL_CITES:
                    yield f"{path}: it names definitions of {crate}"


SENTENCES = [each_folder_once, each_in_a_group, uses_above, uses_listed, map_has_groups, panel_cites_rules]
