#!/usr/bin/env python3
"""Writes the plot of examples/lettering.plt: what may be done to labels, for the profile full.

    examples/lettering.py > examples/lettering.plt

The page is 4000 by 3000 plotter units (100 by 75 mm). Labels run in 24 directions (DI) and along four paths (DV), are at
nine places about a point (LO), and differ in slant (SL), space (ES) and size (SI, and SR in percent of the page). Where P2
is left of P1 or below it (IP), SR mirrors them.
"""

import math
import sys

SUN_X, SUN_Y = 950, 2000
PATH_X, PATH_Y = 950, 640


def sun():
    """A label in each direction, 15 degrees apart."""
    yield "SP2;SI.11,.17;LO2;"
    for turn in range(24):
        way_x, way_y = math.cos(math.radians(15 * turn)), math.sin(math.radians(15 * turn))
        yield f"DI{way_x:.4f},{way_y:.4f};PU{SUN_X + 330 * way_x:.0f},{SUN_Y + 330 * way_y:.0f};LBDI {15 * turn}\x03"
    yield "DI;"


def paths():
    """A word along each path, away from a point."""
    yield f"SP3;SI.1,.14;PW.5;PU{PATH_X},{PATH_Y};PD;PU;PW.25;"
    ways = ((0, 2, 120, 0, "right"), (1, 6, 0, -110, "down"), (2, 8, -120, 0, "left"), (3, 4, 0, 110, "up"))
    for path, origin, x, y, words in ways:
        yield f"DV{path};LO{origin};PU{PATH_X + x},{PATH_Y + y};LB{words}\x03"
    yield "DV;"


def positions():
    """The positions 11 to 19, each with a cross (SM) at its point."""
    for origin in range(1, 10):
        x, y = 2440 + 560 * ((origin - 1) // 3), 2330 + 190 * ((origin - 1) % 3)
        yield f"SP3;SI.09,.14;SM+;PU{x},{y};SM;SP1;LO{origin + 10};LBLO {origin + 10}\x03"


def styles():
    """Slants, spaces and sizes."""
    yield "SP1;LO1;SI.14,.22;"
    for slant, x in ((-0.5, 2160), (0, 2830), (0.5, 3260)):
        yield f"SL{slant};PU{x},1840;LBSL {slant:g}\x03"
    yield "SL;"
    for spaces, y in ((-0.3, 1580), (0, 1380), (1, 1180)):
        yield f"ES{spaces};PU2200,{y};LBSpace {spaces:g}\x03"
    yield "ES;"


def sizes():
    """Sizes in centimetres, and in percent of the page, which mirror a label if P2 is left of P1 or below it."""
    x = 2200
    for size in (0.06, 0.1, 0.16, 0.24, 0.34):
        yield f"SI{size},{1.4 * size:.3f};LO1;PU{x},820;LBSi\x03"
        x += round(400 * size * 3 + 90)
    for pen, corners, x, y in ((3, "0,0,4000,3000", 2600, 520), (2, "0,3000,4000,0", 2600, 280), (4, "4000,0,0,3000", 3500, 520)):
        yield f"SP{pen};IP{corners};SR3,7;LO5;PU{x},{y};LBPLOT\x03"


def main():
    plot = "IN;PC1,40,40,40;PC2,30,90,160;PC3,170,60,50;PC4,30,110,80;PW.25;SP1;"
    plot += "".join(sun()) + "".join(paths()) + "".join(positions()) + "".join(styles()) + "".join(sizes())
    sys.stdout.write(plot + "IP;SP0;\n")


if __name__ == "__main__":
    main()
