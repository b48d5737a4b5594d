#!/usr/bin/env python3
"""Writes the plot of examples/districts.plt: a map of filled districts with lakes, for the profile full.

    examples/districts.py > examples/districts.plt

The page is 4000 by 3000 plotter units (100 by 75 mm). Districts are polygons (PM, FP, EP), lakes are holes in them, and
the key has rectangles (RA, EA) in the fills of the map.
"""

import math
import sys

CENTRE_X, CENTRE_Y = 1600, 1500
COLOURS = ((232, 201, 140), (176, 206, 150), (222, 160, 130), (160, 190, 214), (205, 180, 214))
NAMES = ("Ashby", "Colne", "Dunmore", "Eastry", "Fenwick")
SEA = "90,150,200"


def coast(degrees):
    """The place of the coast in this direction from the centre."""
    angle = math.radians(degrees)
    reach = 1180 + 130 * math.sin(3 * angle + 0.7) + 70 * math.cos(5 * angle) + 25 * math.sin(13 * angle)
    return CENTRE_X + reach * math.cos(angle), CENTRE_Y + reach * math.sin(angle)


def border(degrees):
    """The places of the border from the market in the middle to the coast."""
    end_x, end_y = coast(degrees)
    for step in range(10):
        share = 0.22 + 0.78 * step / 9
        bend = 60 * math.sin(math.pi * step / 4.5) * (step < 9)
        yield (CENTRE_X + (end_x - CENTRE_X) * share - bend * math.sin(math.radians(degrees)),
               CENTRE_Y + (end_y - CENTRE_Y) * share + bend * math.cos(math.radians(degrees)))


def district(first, last):
    """The places of the district between two directions: a border, the coast and the other border."""
    return [*border(first), *map(coast, range(first + 2, last, 2)), *reversed(list(border(last)))]


def lake(x, y, size):
    """The places of a lake."""
    for degrees in range(0, 360, 15):
        angle = math.radians(degrees)
        reach = size * (1 + 0.25 * math.sin(2 * angle + size) + 0.1 * math.cos(3 * angle))
        yield x + 1.3 * reach * math.cos(angle), y + 0.8 * reach * math.sin(angle)


def polygon(*parts):
    """A polygon of parts, each closed with the pen down."""
    lines = [[f"{x:.0f},{y:.0f}" for x, y in part] for part in parts]
    begin, *_ = lines[0]
    edges = [f"PU{first};PD{','.join(rest)};" for first, *rest in lines]
    return f"PU{begin};PM;{'PM1;'.join(edges)}PM2;PU;"


def colour(numbers):
    return f"PC1,{','.join(map(str, numbers))};"


def key(x, y, name, fill):
    """A rectangle of the key in a fill of the map, and its name."""
    edge = "PC1,40,40,50;ER260,130;"
    return f"PU{x},{y};{fill}RR260,130;{edge}PU{x + 330},{y + 65};LB{name}\x03"


def main():
    plot = "IN;PW.25;SP1;"
    turns = [90 + 72 * k for k in range(6)]
    lakes = ((0, 1330, 2300, 80), (1, 800, 1560, 100), (3, 2130, 960, 80), (4, 1850, 2330, 80))
    for number, (first, last) in enumerate(zip(turns, turns[1:])):
        holes = [list(lake(*rest)) for of, *rest in lakes if of == number]
        plot += polygon(district(first, last), *holes) + colour(COLOURS[number]) + "FT1;FP;PC1,70,70,80;EP;"
    plot += "PW.18;"
    for _, *rest in lakes:
        plot += polygon(list(lake(*rest))) + f"PC1,{SEA};FT3,22,0;FP;EP;"
    middle = [(CENTRE_X + 255 * math.cos(math.radians(a)), CENTRE_Y + 255 * math.sin(math.radians(a)))
              for a in range(0, 360, 6)]
    plot += polygon(middle) + "PC1,255,250,235;FT1;FP;PC1,170,60,50;FT4,40,45;FP;EP;"
    plot += polygon(list(lake(1480, 480, 140))) + "PC1,80,130,90;FT10,30;FP;"
    plot += "PC1,40,40,50;SI.15,.24;LO5;"
    for number, first in enumerate(turns[:-1]):
        angle = math.radians(first + 36)
        plot += f"PU{CENTRE_X + 770 * math.cos(angle):.0f},{CENTRE_Y + 770 * math.sin(angle):.0f};LB{NAMES[number]}\x03"
    plot += "SI.13,.2;LO2;PW.25;"
    plot += key(3050, 1180, "lake", f"PC1,{SEA};FT3,22,0;") + key(3050, 960, "market", "PC1,170,60,50;FT4,40,45;")
    plot += key(3050, 740, "marsh", "PC1,80,130,90;FT10,30;")
    sys.stdout.write(plot + "SP0;\n")


if __name__ == "__main__":
    main()
