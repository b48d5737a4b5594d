#!/usr/bin/env python3
"""Writes the plot of examples/housing.plt: the section of a bearing housing, hatched, for the profile full.

    examples/housing.py > examples/housing.plt

The page is 4000 by 3000 plotter units (100 by 75 mm). Each part is a polygon (PM) with its own hatching (FT, FP) and a
wide edge (EP); rolling balls are circles in the polygon buffer, and the shaft is shaded.
"""

import sys

MIDDLE = 1500
STEEL, IRON, COVER, SEAL, SHAFT = "FT3,46,45;", "FT3,70,-45;", "FT3,54,45;", "FT4,26,45;", "FT10,18;"


def line(places):
    """A polygon, closed with the pen down."""
    first, *rest = [f"{x},{y}" for x, y in places]
    return f"PU{first};PM;PD{','.join(rest)};PM2;PU;"


def part(fill, places):
    """A part above the axis and its mirror image below it, filled in thin lines with a wide edge."""
    for side in (1, -1):
        yield line([(x, MIDDLE + side * y) for x, y in places]) + f"{fill}PW.13;FP;PW.5;EP;"


def box(left, low, right, high):
    return [(left, low), (right, low), (right, high), (left, high)]


def bearing(left, right, inner, outer):
    """A ball bearing: its rings, and a ball."""
    third = (outer - inner) // 3
    middle = (left + right) // 2
    yield from part(STEEL, box(left, inner, right, inner + third))
    yield from part("FT3,46,135;", box(left, outer - third, right, outer))
    for side in (1, -1):
        yield (f"PU{middle},{MIDDLE + side * (inner + outer) // 2};PM;CI{third * 3 // 4};PM2;"
               "PC1,255,255,255;FT1;FP;PC1,0,0,0;PW.5;EP;")


def axis(left, right):
    return f"PW.18;LT4,6,1;PU{left},{MIDDLE};PD{right},{MIDDLE};PU;LT;"


def leader(x, y, to_x, to_y, words):
    way = 1 if to_x > x else -1
    return (f"PW.18;PU{x},{y};FT1;WG22,0,360;PD{to_x},{to_y},{to_x + way * 120},{to_y};PU;"
            f"LO{5 - 3 * way};PU{to_x + way * 150},{to_y};LB{words}\x03")


def main():
    plot = "IN;PC1,0,0,0;SP1;SI.12,.2;"
    shaft = [(420, 0), (420, 300), (480, 340), (900, 340), (900, 420), (2300, 420), (2300, 340), (3260, 340),
             (3320, 300), (3320, 0)]
    outline = shaft + [(x, -y) for x, y in reversed(shaft[1:-1])]
    plot += line([(x, MIDDLE + y) for x, y in outline]) + f"{SHAFT}PC1,120,140,170;FP;PC1,0,0,0;PW.5;EP;"
    housing = [(760, 440), (760, 1120), (1040, 1120), (1040, 900), (2160, 900), (2160, 1120), (2440, 1120),
               (2440, 800), (1960, 800), (1960, 560), (1240, 560), (1240, 800), (900, 800), (900, 440)]
    cover = [(2440, 360), (2440, 1120), (2620, 1120), (2620, 480), (2800, 480), (2800, 360)]
    pieces = [*part(IRON, housing), *bearing(900, 1240, 420, 800), *bearing(1960, 2300, 420, 800)]
    plot += "".join([*pieces, *part(COVER, cover), *part(SEAL, box(2300, 345, 2440, 560))])
    plot += axis(250, 3500)
    plot += leader(960, 2490, 780, 2780, "housing") + leader(2100, 2230, 1950, 2780, "bearing")
    plot += leader(2540, 2500, 2860, 2780, "cover") + leader(2370, 1950, 2980, 2330, "seal")
    plot += leader(3050, 1700, 3180, 2010, "shaft")
    sys.stdout.write(plot + "SP0;\n")


if __name__ == "__main__":
    main()
