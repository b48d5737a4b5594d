#!/usr/bin/env python3
"""Writes the plot of examples/calibration.plt: a sheet to check a printer with, with a ruler along each side.

    examples/calibration.py > examples/calibration.plt

The page is 4000 by 3000 plotter units (100 by 75 mm). Each ruler is read from its own side of the sheet.
"""

import math
import sys

BLACK, RED, BLUE, GREY = 1, 2, 5, 8
COLOURS = {RED: (200, 30, 45), BLUE: (25, 70, 170), GREY: (150, 150, 150)}
MILLIMETRE = 40
LEFT, BOTTOM, RIGHT, TOP = 200, 200, 3800, 2800

# For each side: where its ruler begins, the direction in which it is read, and how many millimetres it has.
SIDES = [("bottom", (LEFT, BOTTOM), (1, 0), 90), ("right", (RIGHT, BOTTOM), (0, 1), 65),
         ("top", (RIGHT, TOP), (-1, 0), 90), ("left", (LEFT, TOP), (0, -1), 65)]


def pen(number, millimetres):
    """Selects a pen and sets its width."""
    return f"SP{number};PW{millimetres:g},{number};"


def size(width):
    return f"SI{width:g},{1.5 * width:g};"


def centred(x, y, run, rise, text, width):
    """Writes a text from the middle of its baseline on both ways, in a direction."""
    half = round((1.5 * len(text) - 0.5) * width * 400 / 2)
    return f"DI{run},{rise};PU{x - half * run},{y - half * rise};LB{text}\x03"


def ruler(name, start, way, length):
    """A ruler: ticks that point into the sheet, and numbers and its name on the baseline of its side."""
    run, rise = way
    inward = -rise, run

    def place(along, deep):
        return round(start[0] + run * along + inward[0] * deep), round(start[1] + rise * along + inward[1] * deep)

    def line(along1, deep1, along2, deep2):
        return "PU%d,%d;PD%d,%d;" % (*place(along1, deep1), *place(along2, deep2))

    parts = pen(BLACK, 0.2) + line(0, 0, length * MILLIMETRE, 0)
    for tick in range(length + 1):
        deep = 110 if tick % 10 == 0 else 80 if tick % 5 == 0 else 45
        parts += line(tick * MILLIMETRE, 0, tick * MILLIMETRE, deep)
    parts += size(0.12)
    for number in range(10, length, 10):
        parts += centred(*place(number * MILLIMETRE, 150), run, rise, str(number), 0.12)
    parts += pen(BLUE, 0.25) + size(0.14)
    return parts + centred(*place(length * MILLIMETRE / 2, 300), run, rise, f"the {name} side: {length} mm", 0.14)


def star(x, y, radius):
    """Circles, and wedges of lines that meet at their middle."""
    parts = pen(RED, 0.3) + "".join(f"PU{x},{y};CI{part},3;" for part in (radius, radius // 2, radius // 4))
    parts += pen(BLACK, 0.1)
    for step in range(72):
        way = math.radians(5 * step)
        near = 40 if step % 2 == 0 else radius // 4
        ends = [(x + part * math.cos(way), y + part * math.sin(way)) for part in (near, radius)]
        parts += "PU{:.0f},{:.0f};PD{:.0f},{:.0f};".format(*ends[0], *ends[1])
    return parts


def widths(x, y):
    """Lines of rising width, each with its width."""
    parts = size(0.09) + "DI;"
    for step, width in enumerate((0.1, 0.2, 0.3, 0.5, 0.7, 1.0)):
        up = y + 150 * step
        parts += pen(BLACK, width) + f"PU{x},{up};PD{x + 420},{up};"
        parts += pen(BLACK, 0.15) + f"PU{x + 500},{up - 27};LB{width:.1f} mm\x03"
    return parts


def steps(x, y):
    """Groups of lines that come closer and closer, each with the distance of its lines."""
    parts = size(0.09) + "DI;"
    for group, distance in enumerate((8, 12, 16, 20, 28, 40)):
        up = y + 150 * group
        parts += pen(BLACK, distance / MILLIMETRE / 2)
        for at in range(0, 421, distance):
            parts += f"PU{x + at},{up - 35};PD{x + at},{up + 35};"
        parts += pen(BLACK, 0.15) + f"PU{x + 500},{up - 27};LB{distance / MILLIMETRE:.1f} mm\x03"
    return parts


def main():
    parts = "IN;" + "".join("PC%d,%d,%d,%d;" % (number, *parts) for number, parts in COLOURS.items())
    parts += pen(GREY, 0.2) + "PU60,60;EA3940,2940;\n"
    parts += "".join(ruler(*side) + "\n" for side in SIDES)
    sys.stdout.write(parts + star(2000, 1500, 440) + "\n" + widths(660, 1125) + steps(2530, 1125) + "SP0;\n")


main()
