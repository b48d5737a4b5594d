#!/usr/bin/env python3
"""Writes the plot of examples/bracket.plt: a bracket in two views, as a CAD program writes it for the profile full.

    examples/bracket.py > examples/bracket.plt

The page is 4000 by 3000 plotter units (100 by 75 mm). Hidden edges are dashed (LT2), axes have long and short
dashes (LT5), and numbers are centred on their lines (LO5) in the lines' directions (DI).
"""

import math
import sys

OUTLINE, THIN, AXIS = 1, 2, 5
SOLID, HIDDEN, CENTRE = "LT;", "LT2,4,1;", "LT5,9,1;"
TEXT = "SI.13,.2;"


def line(*places):
    first, *rest = [f"{x:.0f},{y:.0f}" for x, y in places]
    return f"PU{first};PD{','.join(rest)};PU;"


def text(x, y, words, run=1.0, rise=0.0):
    """Words about (x, y), in a direction."""
    return f"{SOLID}LO5;DI{run:.4f},{rise:.4f};PU{x:.0f},{y:.0f};LB{words}\x03"


def dimension(ax, ay, bx, by, aside, words):
    """A dimension between two places, drawn `aside` units to the left of the way from one to the other."""
    run, rise = bx - ax, by - ay
    length = math.hypot(run, rise)
    run, rise = run / length, rise / length
    left, up = -rise * aside, run * aside
    parts = f"SP{THIN};{SOLID}"
    for x, y in ((ax, ay), (bx, by)):
        parts += line((x + 0.15 * left, y + 0.15 * up), (x + 1.15 * left, y + 1.15 * up))
    parts += line((ax + left, ay + up), (bx + left, by + up))
    for x, y, way in ((ax + left, ay + up, 1), (bx + left, by + up, -1)):
        for spread in (-0.16, -0.08, 0, 0.08, 0.16):
            parts += line((x, y), (x + way * 70 * (run - spread * rise), y + way * 70 * (rise + spread * run)))
    middle = (ax + bx) / 2 + 1.5 * left, (ay + by) / 2 + 1.5 * up
    return parts + text(*middle, words, run, rise)


def front(x, y):
    """The front: a plate with a boss, whose bore is hidden, and a rib at 40 degrees."""
    parts = f"SP{OUTLINE};{SOLID}"
    parts += line((x, y), (x + 1500, y), (x + 1500, y + 220), (x + 900, y + 220), (x + 260, y + 757), (x + 260, y + 1200),
                  (x, y + 1200), (x, y))
    parts += f"SP{THIN};{HIDDEN}"
    for edge in (880, 1040):
        parts += line((x, y + edge), (x + 260, y + edge))
    for edge in (1110, 1290):
        parts += line((x + edge, y), (x + edge, y + 220))
    parts += f"SP{AXIS};{CENTRE}"
    parts += line((x - 110, y + 960), (x + 370, y + 960)) + line((x + 1200, y - 110), (x + 1200, y + 330))
    parts += dimension(x, y, x + 1500, y, -210, "75")
    parts += dimension(x, y, x, y + 1200, 210, "60")
    return parts + dimension(x + 260, y + 757, x + 900, y + 220, 170, "41.8")


def side(x, y):
    """The side: the plate with its bore, and the foot behind a hidden edge."""
    parts = f"SP{OUTLINE};{SOLID}PU{x},{y};EA{x + 800},{y + 1200};PU{x + 400},{y + 960};CI80,4;"
    parts += f"SP{THIN};{HIDDEN}" + line((x, y + 220), (x + 800, y + 220)) + line((x + 340, y + 220), (x + 340, y + 757))
    parts += line((x + 460, y + 220), (x + 460, y + 757)) + f"PU{x + 400},{y + 960};CI150,4;"
    parts += f"SP{AXIS};{CENTRE}" + line((x + 400, y - 110), (x + 400, y + 1310)) + line((x + 190, y + 960), (x + 610, y + 960))
    parts += dimension(x, y, x + 800, y, -210, "40")
    run, rise = math.cos(math.radians(35)), math.sin(math.radians(35))
    parts += f"SP{THIN};{SOLID}" + line((x + 400 + 80 * run, y + 960 + 80 * rise), (x + 400 + 700 * run, y + 960 + 700 * rise))
    return parts + text(x + 400 + 560 * run - 95 * rise, y + 960 + 560 * rise + 95 * run, "dia 8", run, rise)


def main():
    plot = f"IN;PW.4,{OUTLINE};PW.15,{THIN};PW.15,{AXIS};PC{THIN},60,60,60;PC{AXIS},25,90,170;{TEXT}"
    plot += front(560, 900) + side(2480, 900)
    plot += f"SP{THIN};SI.2,.3;SL.25;" + text(2000, 2700, "Bracket")
    plot += "SL;SI.1,.15;" + text(2000, 2520, "dashes: hidden edges and axes")
    sys.stdout.write(plot + "SP0;\n")


if __name__ == "__main__":
    main()
