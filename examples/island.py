#!/usr/bin/env python3
"""Writes the plot of examples/island.plt: the map of an island, with its coast, contour lines and depths.

    examples/island.py > examples/island.plt

The page is 4000 by 3000 plotter units (100 by 75 mm). The map has user units (IP and SC): ten of
them are a kilometre.
"""

import collections
import math
import sys

COAST, INDEX, CONTOUR, DEPTH, GRID, WATER, TEXT = 5, 2, 3, 7, 8, 6, 1
COLOURS = {COAST: (20, 70, 140), INDEX: (150, 85, 30), CONTOUR: (190, 135, 85), DEPTH: (130, 180, 215),
           GRID: (205, 205, 205), WATER: (20, 70, 140), TEXT: (30, 30, 30)}
WIDTHS = {COAST: 0.4, INDEX: 0.25, CONTOUR: 0.13, DEPTH: 0.15, GRID: 0.1, WATER: 0.18, TEXT: 0.2}
WIDE, HIGH, STEP = 180, 120, 2

# Hills: where they are, how high, and how far they reach in x and in y.
HILLS = [(62, 66, 620, 22, 15), (96, 52, 820, 17, 21), (118, 74, 430, 20, 12), (136, 44, 330, 13, 14),
         (42, 44, 260, 14, 10), (84, 84, 240, 10, 9), (158, 88, 210, 7, 6), (75, 27, -160, 12, 9), (112, 33, -120, 9, 7)]
PEAKS = [(96, 52, "Mount Plume"), (61, 66, "Penhead")]
NAMES = [(12, 106, "West Sound", WATER), (132, 14, "Pixel Bay", WATER), (130, 104, "Raster Rocks", WATER),
         (97, 78, "Feltwick", TEXT)]


def height(x, y):
    """Metres above the sea; below 0 is a depth."""
    land = sum(most * math.exp(-((x - at) / wide) ** 2 - ((y - up) / high) ** 2) for at, up, most, wide, high in HILLS)
    rough = math.sin(x / 5.1 + y / 9) * math.sin(y / 4.3 - x / 13) + 0.5 * math.sin(x / 2.3) * math.sin(y / 2.7 + x / 8)
    return land + (4 + land / 16) * rough - 105


def crossings(level):
    """The heights of the grid above a level, and for each of its sides that the level crosses those that it leads to."""
    grid = {(x, y): height(x, y) - level for x in range(0, WIDE + 1, STEP) for y in range(0, HIGH + 1, STEP)}
    joined = collections.defaultdict(list)
    for x, y in ((x, y) for x in range(0, WIDE, STEP) for y in range(0, HIGH, STEP)):
        corners = [(x, y), (x + STEP, y), (x + STEP, y + STEP), (x, y + STEP)]
        sides = [tuple(sorted((corners[side], corners[side - 3]))) for side in range(4)]
        crossed = [side for side in sides if (grid[side[0]] < 0) != (grid[side[1]] < 0)]
        for one, other in zip(crossed[::2], crossed[1::2]):
            joined[one].append(other)
            joined[other].append(one)
    return grid, joined


def contour(level):
    """The lines of one height: from side to side of the grid, each as long as it goes."""
    grid, joined = crossings(level)

    def place(side):
        (x1, y1), (x2, y2) = side
        part = grid[side[0]] / (grid[side[0]] - grid[side[1]])
        return f"{x1 + part * (x2 - x1):.1f}", f"{y1 + part * (y2 - y1):.1f}"

    text = ""
    for start in sorted(joined, key=lambda side: len(joined[side])):
        line, side = [], start
        while joined[side]:
            line.append(side)
            following = joined[side].pop()
            joined[following].remove(side)
            side = following
        if len(line) > 3:
            first, *rest = [",".join(place(each)) for each in [*line, side]]
            text += f"PU{first};PD{','.join(rest)};\n"
    return text


def select(pen):
    return f"SP{pen};"


def contours():
    for level in (-100, -75, -50, -25):
        yield select(DEPTH) + contour(level)
    for level in range(50, 901, 50):
        yield select(CONTOUR if level % 200 else INDEX) + contour(level)
    yield select(COAST) + contour(0)


def lettering():
    yield "SI0.1,0.14;"
    for x, y, name, pen in NAMES:
        yield f"{select(pen)}PU{x},{y};LB{name}\x03"
    yield select(TEXT) + "SI0.08,0.12;"
    for x, y, name in PEAKS:
        yield f"PU{x - 1},{y - 1};PD{x + 1},{y - 1},{x},{y + 1},{x - 1},{y - 1};"
        yield f"PU{x + 2.5},{y - .5};LB{name}\r\n{height(x, y):.0f} m\x03"


def margin():
    """The frame, its kilometres, a scale and an arrow to the north."""
    yield select(TEXT) + "PU0,0;EA180,120;SI0.08,0.12;"
    for x in range(0, WIDE + 1, 20):
        yield f"PU{x},0;PD{x},-2;PU{x - 1},-6.5;LB{x // 10}\x03"
    for y in range(0, HIGH + 1, 20):
        yield f"PU0,{y};PD-2,{y};PU{-5 if y < 100 else -7},{y - 1.3};LB{y // 10}\x03"
    yield "PU10,8;PD10,6,30,6,30,8;PU20,6;PD20,7;PU8.5,9.5;LB0\x03PU27,9.5;LB2 km\x03"
    yield "PU168,104;PD171,114,174,104,171,106.5,168,104;PU169.5,99;SI0.12,0.16;LBN\x03"


def main():
    parts = "IN;" + "".join("PC%d,%d,%d,%d;" % (number, *parts) for number, parts in COLOURS.items())
    parts += "".join(f"PW{width:g},{number};" for number, width in WIDTHS.items()) + "\n"
    parts += f"IP240,240,3840,2640;SC0,{WIDE},0,{HIGH};" + select(GRID)
    parts += "".join(f"PU{x},0;PD{x},{HIGH};" for x in range(20, WIDE, 20))
    parts += "".join(f"PU0,{y};PD{WIDE},{y};" for y in range(20, HIGH, 20)) + "\n"
    parts += "".join(contours()) + "".join(lettering()) + "".join(margin())
    sys.stdout.write(parts + "SP1;PW0.35,1;SI0.16,0.22;PU64,124;LBThe Isle of Plott\x03SP0;\n")


main()
