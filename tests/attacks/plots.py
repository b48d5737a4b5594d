"""Mutilated plots: those of examples/ and of the cases, with some bytes changed, removed, repeated, moved or replaced by parts
of another plot or by extreme numbers."""

import os
import re

from reference.cutting import WITH_NUMBERS
from reference.full_cutting import FURTHER_WITH_NUMBERS, WITHOUT_NUMBERS

TESTS = os.path.join(os.path.dirname(__file__), "..")
EXAMPLES = os.path.join(TESTS, "..", "examples")
CASES = os.path.join(TESTS, "cases")
EXTREMES = (b"8388607", b"-8388607", b"8388608", b"65536", b"-65537", b"0", b"-0", b".", b"0.000001",
            b"1e9", b"99999999999999999999", b"360", b"-360", b"0.5", b"180", b"255", b"256", b"32767")
# Instructions of both profiles, some that take a text, one that asks for a page, and some that do not exist.
CODES = [it.encode() for it in (*WITH_NUMBERS, *FURTHER_WITH_NUMBERS, *WITHOUT_NUMBERS, *"PE LB DT BL SM CO PS PG UC WD".split())]
# The most bytes of a plot: a long one takes longer to draw than the program to start.
LENGTHS = (100, 300, 300, 1000, 1000, 1000, 3000, 20000)


def sources(files):
    """The plots that are mutilated."""
    files = [*files, *(os.path.join(EXAMPLES, name) for name in sorted(os.listdir(EXAMPLES)) if name.endswith(".plt"))]
    plots = []
    for file in files:
        with open(file, "rb") as plot:
            plots.append(plot.read())
    for name in sorted(os.listdir(CASES)):
        with open(os.path.join(CASES, name), encoding="utf-8") as case:
            found = re.search(r"^input: (.+)$", case.read(), re.M)
        plots += [found[1].encode()] if found else []
    return [plot for plot in plots if plot]


def mutilated(plots, dice):
    """One of the plots with some changes."""
    plot, most = bytearray(dice.choice(plots)), dice.choice(LENGTHS)
    start = dice.randrange(max(1, len(plot) - most))
    plot = plot[start:start + most]
    for _ in range(dice.choice((0, 1, 1, 2, 3, 5, 8, 20))):
        change(plot, plots, dice)
    return bytes(plot)


def change(plot, plots, dice):
    """Makes one change."""
    at = dice.randrange(len(plot) + 1)
    end = min(len(plot), at + dice.choice((1, 1, 2, 5, 20, 200)))
    kind = dice.randrange(8)
    if kind == 0:
        plot[at:end] = dice.randbytes(end - at)
    elif kind == 1:
        del plot[at:end]
    elif kind == 2:
        plot[at:at] = plot[at:end] * dice.choice((1, 2, 50))
    elif kind == 3:
        other = dice.choice(plots)
        start = dice.randrange(len(other))
        plot[at:end] = other[start:start + dice.choice((5, 50, 500))]
    elif kind == 4:
        plot[at:at] = dice.choice(EXTREMES) + dice.choice((b"", b",", b";"))
    elif kind == 5:
        plot[at:at] = dice.choice((b"", b";")) + dice.choice(CODES) + dice.choice((b"", b"1,1", b"\x1b"))
    elif kind == 6:
        del plot[at:]
    elif at < len(plot):
        plot[at] ^= 1 << dice.randrange(8)
