"""Lists of pens, as on the command line."""

import re

MOST_PEN = 255


def pens_of(text):
    """The pens of a list such as 1,3,5-7, or None if it is no list."""
    if text == "all":
        return set(range(1, MOST_PEN + 1))
    pens = set()
    for part in text.split(","):
        ends = part.split("-")
        if len(ends) > 2 or not all(re.fullmatch("[0-9]{1,3}", end) for end in ends):
            return None
        first, last = int(ends[0]), int(ends[-1])
        if not 1 <= first <= last <= MOST_PEN:
            return None
        pens.update(range(first, last + 1))
    return pens
