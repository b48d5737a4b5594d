#!/usr/bin/env python3
"""Writes the plot of examples/harbour.plt: the chart of a harbour with lettering, for the profile full.

    examples/harbour.py > examples/harbour.plt

The page is 4000 by 3000 plotter units (100 by 75 mm). Names follow the coast (DI), water has slanted letters (SL),
wide names have space between their letters (ES), and buoys, wrecks and beacons are symbols (SM).
"""

import math
import sys

LAND, WATER, DEPTH, LIGHT = 1, 5, 5, 2
COAST = [(0, 1900), (420, 1830), (760, 1640), (930, 1330), (1240, 1190), (1560, 1330), (1840, 1660), (2230, 1850),
         (2620, 1780), (2890, 1500), (3020, 1160), (3330, 930), (3700, 880), (4000, 960)]


def curve(places):
    """The places of a smooth line through these, by Catmull and Rom."""
    padded = [places[0], *places, places[-1]]
    for p, q, r, s in zip(padded, padded[1:], padded[2:], padded[3:]):
        for step in range(8):
            t = step / 8
            yield tuple(
                0.5 * (2 * b + (c - a) * t + (2 * a - 5 * b + 4 * c - d) * t * t + (3 * b - a - 3 * c + d) * t ** 3)
                for a, b, c, d in zip(p, q, r, s)
            )
    yield places[-1]


def line(places):
    first, *rest = [f"{x:.0f},{y:.0f}" for x, y in places]
    return f"PU{first};PD{','.join(rest)};PU;"


def shifted(places, aside):
    """A line beside another."""
    places = list(places)
    for (ax, ay), (bx, by) in zip(places, places[1:]):
        length = math.hypot(bx - ax, by - ay) or 1
        yield ax + (by - ay) * aside / length, ay - (bx - ax) * aside / length


def name(x, y, words, degrees=0.0, size=0.12, origin=5):
    way = math.radians(degrees)
    return (f"SI{size},{1.4 * size:.3f};LO{origin};DI{math.cos(way):.4f},{math.sin(way):.4f};"
            f"PU{x},{y};LB{words}\x03")


def symbols(symbol, places):
    """A symbol at each place."""
    moves = "".join(f"PU{x},{y};" for x, y in places)
    return f"DI;SI.14,.2;SM{symbol};{moves}SM;"


def main():
    coast = list(curve(COAST))
    plot = f"IN;PW.2;PW.5,{LAND};PC{WATER},20,90,170;PC{LIGHT},190,40,40;SP{LAND};{line(coast)}"
    plot += f"SP{DEPTH};LT2,2,1;{line(shifted(coast, 190))}LT4,3,1;{line(shifted(coast, 430))}LT;"
    plot += f"SP{LAND};PW.2;" + name(2240, 2420, "EASTFIELD", 0, 0.2) + name(700, 2250, "Chapel Hill", -22)
    plot += "ES.6;" + name(1750, 2720, "COUNTY OF ELSMERE", 0, 0.13) + "ES;"
    plot += name(1130, 1660, "Old Quay", -64, 0.1) + name(1660, 1720, "New Quay", 52, 0.1)
    plot += name(3230, 1330, "Saltmarsh", -42) + name(300, 1980, "West Cliff", -10, 0.1)
    plot += f"SP{WATER};SL.35;ES.8;" + name(2200, 390, "THE SOUND", 4, 0.22) + "ES;"
    plot += name(1290, 880, "Harbour", -68, 0.13) + name(2960, 700, "Inner Bar", -40, 0.1) + "SL;"
    plot += "".join(name(x, y, str(depth), 0, 0.07) for x, y, depth in (
        (330, 1250, 9), (700, 900, 14), (1180, 500, 21), (1850, 820, 17), (2380, 1130, 8), (2560, 640, 19),
        (3300, 420, 16), (3760, 320, 22), (420, 520, 24)))
    plot += f"SP{LIGHT};" + symbols("*", [(1080, 1290), (1420, 1290)]) + symbols("+", [(1950, 1180), (2720, 900)])
    plot += symbols("A", [(620, 1420), (3420, 700)])
    plot += name(1530, 1120, "Fl 5s", 0, 0.07, 1) + f"SP{LAND};"
    plot += "TL2,2;PU400,150;PD1600,150;" + "".join(f"PU{x},150;XT;" for x in range(400, 1601, 300))
    plot += name(1000, 60, "1 mile", 0, 0.08) + "SP0;\n"
    sys.stdout.write(plot)


if __name__ == "__main__":
    main()
