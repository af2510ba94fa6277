"""What is found in the sources beside what a table allows."""


def compared(what, found, known):
    """What is found at a place and not in the table, and what is in the table and not found, as often as it is."""
    for place in sorted(set(found) | set(known)):
        left = list(known.get(place, []))
        for text in found.get(place, []):
            if text in left:
                left.remove(text)
            else:
                yield f"{place}: {what} `{text}`, which is not in the table"
        for text in left:
            yield f"{place}: {what} `{text}` by the table, and this is not there"
