#!/usr/bin/env python3
"""Writes the plot of examples/windows.plt: a chessboard of windows, through which two sets of circles are seen.

    examples/windows.py > examples/windows.plt

The page is 4000 by 3000 plotter units (100 by 75 mm). In every other window are the circles about
one point, in the others those about another point.
"""

import math
import sys

BLUE, RED = 5, 2
COLOURS = {RED: (200, 45, 40), BLUE: (20, 60, 130)}
SIDE, COLUMNS, ROWS = 300, 12, 9
LEFT, BOTTOM = 200, 150
DISTANCE = 75
CENTRES = {BLUE: (1325, 1725), RED: (2675, 1275)}


def circles(x, y, left, bottom):
    """Circles about (x, y), those that a square can show."""
    across = [abs(left + part - x) for part in (0, SIDE)]
    upward = [abs(bottom + part - y) for part in (0, SIDE)]
    nearest = math.hypot(*(0 if max(both) <= SIDE else min(both) for both in (across, upward)))
    farthest = math.hypot(max(across), max(upward))
    first = max(1, math.ceil(nearest / DISTANCE))
    return "".join(f"CI{DISTANCE * step},3;" for step in range(first, math.floor(farthest / DISTANCE) + 1))


def main():
    parts = "IN;PW0.6;" + "".join("PC%d,%d,%d,%d;" % (number, *parts) for number, parts in COLOURS.items()) + "\n"
    for number, (x, y) in CENTRES.items():
        parts += f"SP{number};PU{x},{y};\n"
        for row in range(ROWS):
            for column in range(COLUMNS):
                if (row + column) % 2 == (number == RED):
                    left, bottom = LEFT + SIDE * column, BOTTOM + SIDE * row
                    parts += f"IW{left},{bottom},{left + SIDE},{bottom + SIDE};{circles(x, y, left, bottom)}\n"
    sys.stdout.write(parts + "IW;SP0;\n")


main()
