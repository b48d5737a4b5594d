#!/usr/bin/env python3
"""Writes the plot of examples/figures.plt: circles, arcs, rectangles, windows and labels.

    examples/figures.py > examples/figures.plt

The page is 4000 by 3000 plotter units (100 by 75 mm).
"""

import sys

BLACK, RED, GREEN, BLUE, GREY = 1, 2, 3, 5, 8
COLOURS = {RED: (200, 30, 45), GREEN: (40, 140, 70), BLUE: (25, 70, 170), GREY: (150, 150, 150)}


def pen(number, millimetres):
    """Selects a pen and sets its width."""
    return f"SP{number};PW{millimetres:g},{number};"


def label(x, y, text):
    """Writes a text from a place on, up to the character ETX."""
    return f"PU{x},{y};LB{text}\x03"


def circles():
    """Circles by ever longer chords."""
    parts = [pen(BLUE, 0.3)]
    places = {chord: 380 + 640 * i for i, chord in enumerate((5, 30, 45, 72, 90, 120))}
    for chord, x in places.items():
        parts.append(f"PU{x},2560;CI260,{chord};CI200,{chord};CI140,{chord};")
    parts.append(pen(BLACK, 0.15) + "SI0.09,0.13;")
    for chord, x in places.items():
        text = f"CI260,{chord}"
        parts.append(label(x - 27 * len(text) + 9, 2180, text))
    return parts


def spiral():
    """A spiral of half circles."""
    parts = [pen(RED, 0.35), "PA;PU640,1370;PD;"]
    for turn in range(1, 14):
        way = -1 if turn % 2 else 1
        parts.append(f"AR{way * 20 * turn},0,180;")
    return parts + ["PU;"]


def rectangles():
    """Rectangles one within another, each seen in a window of its own."""
    parts = [pen(GREY, 0.2), "PU1400,1000;EA2300,1700;"]
    for i in range(1, 15):
        parts.append(f"PU{1400 + 30 * i},{1000 + 23 * i};ER{900 - 60 * i},{700 - 46 * i};")
    parts.append("IW1500,1080,2200,1620;" + pen(GREEN, 0.3))
    for i in range(12):
        parts.append(f"PU1850,1350;CI{60 + 60 * i};")
    return parts + ["IW;"]


def directions():
    """A text in four directions."""
    parts = [pen(BLACK, 0.25), "SI0.1,0.15;"]
    for run, rise in ((1, 0), (0, 1), (-1, 0), (0, -1)):
        parts.append(f"DI{run},{rise};" + label(3150, 1350, "  four ways"))
    return parts + ["DI;"]


def lines():
    """Lines of text of ever smaller characters, and a label of three lines."""
    parts = [pen(BLACK, 0.2)]
    y = 560
    for width in (0.2, 0.15, 0.11, 0.08):
        parts.append(f"SI{width:g},{1.45 * width:.3g};")
        parts.append(label(160, y, "The quick brown fox"))
        y -= int(width * 580) + 60
    return parts + ["SI0.12,0.18;" + label(2800, 460, "CR and LF\r\nbegin a\r\nnew line")]


def main():
    parts = ["IN;"] + ["PC%d,%d,%d,%d;" % (number, *parts) for number, parts in COLOURS.items()]
    for figure in (circles, spiral, rectangles, directions, lines):
        parts += figure()
    sys.stdout.write("".join(parts) + "SP0;\n")


main()
