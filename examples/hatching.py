#!/usr/bin/env python3
"""Writes the plot of examples/hatching.plt: a sheet of fills, for the profile full.

    examples/hatching.py > examples/hatching.plt

The page is 4000 by 3000 plotter units (100 by 75 mm). The first row has solid fills, hatching and cross-hatching by spacing
and angle (FT), the second one levels of shading. In the third one a star is filled by odd counts and by winding (FP), a ring
has a hole (PM), hatching is dashed (LT), lines begin at a place (AC), and wedges make a circle (WG).
"""

import math
import sys

SIDE, STEP, LEFT = 480, 640, 160
FILLS = (("Solid", "FT1;"), ("3,40,0", "FT3,40,0;"), ("3,40,45", "FT3,40,45;"), ("3,80,120", "FT3,80,120;"),
         ("4,60,0", "FT4,60,0;"), ("4,60,30", "FT4,60,30;"))
LEVELS = (5, 15, 30, 50, 75, 100)


def square(place, below, words, fill):
    """A filled square with its edge and its name."""
    left = LEFT + STEP * place
    return f"SP2;PU{left},{below};{fill}RA{left + SIDE},{below + SIDE};LT;" + named(left, below, words) + \
        f"PU{left},{below};EA{left + SIDE},{below + SIDE};"


def named(left, below, words):
    return f"SP1;LO6;PU{left + SIDE // 2},{below - 45};LB{words}\x03"


def star(left, below, rule):
    """A star of one line, whose middle is crossed twice."""
    turns = (0.8 * math.pi * k for k in range(5))
    places = ((left + SIDE / 2 - 250 * math.sin(turn), below + SIDE / 2 + 250 * math.cos(turn)) for turn in turns)
    first, *rest = (f"{x:.0f},{y:.0f}" for x, y in places)
    return f"SP3;PU{first};PM;PD{','.join(rest)};PM2;FT1;FP{rule};SP1;EP;"


def ring(left, below):
    return f"SP3;PU{left + SIDE // 2},{below + SIDE // 2};PM;CI240;CI120;PM2;FT3,30,45;FP;SP1;EP;"


def quarters(left, below):
    """Four squares with hatching that meets at the middle."""
    x, y, half = left + SIDE // 2, below + SIDE // 2, SIDE // 2
    plot = f"SP3;AC{x},{y};"
    for way_x, way_y, angle in ((1, 1, 45), (-1, 1, -45), (-1, -1, 45), (1, -1, -45)):
        plot += f"FT3,50,{-angle};PU{x},{y};RA{x + way_x * half},{y + way_y * half};"
    return plot + f"AC;SP1;PU{left},{below};EA{left + SIDE},{below + SIDE};"


def wedges(left, below):
    plot = f"PU{left + SIDE // 2},{below + SIDE // 2};"
    for part in range(6):
        plot += f"SP{2 + part % 2};FT3,26,{60 * part};WG240,{60 * part},60,5;SP1;EW240,{60 * part},60,5;"
    return plot


def main():
    plot = "IN;PC1,40,40,40;PC2,30,90,160;PC3,190,110,40;PW.2;SI.09,.14;"
    for place, (words, fill) in enumerate(FILLS):
        plot += square(place, 2130, words, fill)
    for place, level in enumerate(LEVELS):
        plot += square(place, 1200, f"{level} %", f"FT10,{level};")
    shapes = (("Odd", star, ""), ("Winding", star, "1"), ("Hole", ring), ("Dashed", None), ("AC", quarters), ("WG", wedges))
    for place, (words, shape, *more) in enumerate(shapes):
        left, below = LEFT + STEP * place, 270
        if shape is None:
            plot += square(place, below, words, "LT2,3,1;FT3,40,45;")
        else:
            plot += shape(left, below, *more) + named(left, below, words)
    plot += "SP1;SI.13,.2;LO5;PU2000,2830;LBFills\x03"
    sys.stdout.write(plot + "SP0;\n")


if __name__ == "__main__":
    main()
