#!/usr/bin/env python3
"""Writes the plot of examples/harmonograph.plt: the trace of two damped pendulums, in one encoded polyline.

    examples/harmonograph.py > examples/harmonograph.plt

The page is 4000 by 3000 plotter units (100 by 75 mm). The polyline is in base 32, so the plot is
plain text. It has a bit of fraction, and selects another pen after each eighth of the way.
"""

import math
import sys

PENS = range(1, 9)
POINTS = 3200
BITS = 1  # of each coordinate that are a fraction


def coded(number):
    """A whole number in base 32, its least digit first."""
    code, digits = 2 * abs(number) + (number < 0), b""
    while code >= 32:
        digits += bytes([63 + code % 32])
        code //= 32
    return digits + bytes([95 + code])


def place(part):
    """Where the pen is after a part of the way, in halves of a plotter unit."""
    time = 62 * math.pi * part
    faded = math.exp(-0.0105 * time)
    x = math.sin(2.002 * time + 0.4) + 0.28 * math.sin(3 * time + 1.3)
    y = math.sin(3 * time) * 0.92 + 0.3 * math.sin(1.998 * time + 2.2)
    return round(2 * (2000 + 1450 * faded * x)), round(2 * (1500 + 1120 * faded * y))


def main():
    places = [place(step / POINTS) for step in range(POINTS + 1)]
    code = b"7>" + coded(BITS) + b"<=" + b"".join(map(coded, places[0]))
    for step, (before, after) in enumerate(zip(places, places[1:])):
        if step % (POINTS // len(PENS)) == 0:
            code += b":" + coded(PENS[step * len(PENS) // POINTS])
        code += b"".join(coded(new - old) for old, new in zip(before, after))
        if step % 30 == 29:
            code += b"\n"
    colours = "".join(f"PC{number},{20 + 22 * number},{110 - 10 * number},{190 - 14 * number};" for number in PENS)
    sys.stdout.write(f"IN;{colours}PW0.13;\nPE{code.decode()};SP0;\n")


main()
