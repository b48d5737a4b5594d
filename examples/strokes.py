#!/usr/bin/env python3
"""Writes the plot of examples/strokes.plt: a sheet of line types and widths, for the profile full.

    examples/strokes.py > examples/strokes.plt

The page is 4000 by 3000 plotter units (100 by 75 mm). On the left are the line types (LT): each on a line, and by its
negative number on a triangle, where a whole number of patterns fits each side. Below them are patterns of the plot's
own (UL), on a line and around a circle. On the right are widths in percent of the distance from P1 to P2 (WU, PW).
"""

import sys

LEFT, TOP, STEP = 200, 2560, 225
OWN = ((1, "40,10,10,10,10,10,10"), (2, "60,20,0,20"), (3, "5,15,25,15,5,35"))
WIDTHS = (0.05, 0.1, 0.2, 0.4, 0.8, 1.2, 1.6, 2)


def label(x, y, words, origin=8):
    """A label beside a place, always with a solid line."""
    return f"LO{origin};PU{x},{y};LB{words}\x03"


def types():
    """The types 1 to 8, in patterns of 6 mm."""
    for number in range(1, 9):
        y = TOP - STEP * (number - 1)
        yield "SP1;" + label(LEFT + 120, y, str(number))
        yield f"SP2;LT{number},6,1;PU{LEFT + 180},{y};PD{LEFT + 1180},{y};PU;"
        left = LEFT + 1280
        yield f"LT{-number},6,1;PU{left},{y - 70};PD{left + 370},{y - 70},{left + 185},{y + 80},{left},{y - 70};PU;LT;"


def own_patterns():
    """Patterns of the plot's own, on a line and on a circle."""
    for number, gaps in OWN:
        y = TOP - STEP * (number + 7)
        yield f"SP1;{label(LEFT + 120, y, 'UL')}UL{number},{gaps};SP3;LT{number},8,1;PU{LEFT + 180},{y};PD{LEFT + 1180},{y};"
        yield f"LT{number},4.45,1;PU{LEFT + 1465},{y};CI85,3;LT;"
    yield "UL;"


def widths():
    """Lines of a width in percent, solid and in dashes."""
    for place, width in enumerate(WIDTHS):
        y = TOP - 320 * place
        yield f"SP1;{label(2760, y, f'{width:g} %')}SP4;WU1;PW{width},4;PU2850,{y};PD3300,{y};PU;"
        yield f"LT2,8,1;PU3400,{y};PD3880,{y};PU;LT;WU;PW.28;"


def main():
    plot = "IN;PC1,40,40,40;PC2,30,90,160;PC3,170,60,50;PC4,30,110,80;PW.28;SP1;SI.1,.16;"
    plot += "".join(types()) + "".join(own_patterns()) + "".join(widths())
    plot += "SP1;SI.13,.2;" + label(LEFT + 925, 2830, "Line types", 5) + label(3220, 2830, "Widths", 5)
    sys.stdout.write(plot + "SP0;\n")


if __name__ == "__main__":
    main()
