#!/usr/bin/env python3
"""Writes the plot of examples/flange.plt: the drawing of a flange, with a section, dimensions and a title block.

    examples/flange.py > examples/flange.plt

The page is 4000 by 3000 plotter units (100 by 75 mm). The flange is drawn at half its size, so a
millimetre of it has 20 units.
"""

import math
import sys

OUTLINE, THIN, AXIS, TEXT = 1, 2, 5, 8
COLOURS = {THIN: (60, 60, 60), AXIS: (25, 90, 170), TEXT: (20, 20, 20)}
WIDTHS = {OUTLINE: 0.4, THIN: 0.15, AXIS: 0.15, TEXT: 0.2}
MILLIMETRE = 20

# The flange's radii and lengths.
PLATE, HUB, BORE, BOLTS, BOLT = (MILLIMETRE * radius for radius in (40, 23, 14, 31.5, 4.5))
THICKNESS, LENGTH = 10 * MILLIMETRE, 26 * MILLIMETRE
FRONT, SECTION, MIDDLE = 1190, 2640, 1820  # x of the front's axis and of the section's left face, y of both axes


def pen(number):
    return f"SP{number};"


def line(*places):
    first, *rest = [f"{round(x)},{round(y)}" for x, y in places]
    return f"PU{first};PD{','.join(rest)};"


def rectangle(left, bottom, right, top):
    return f"PU{left:g},{bottom:g};EA{right:g},{top:g};"


def circle(x, y, radius):
    return f"PU{x:g},{y:g};CI{radius:g},3;"


def text(x, y, words, width=0.09, upward=False):
    """Writes words about (x, y): a character has a width, and half a width to the next one."""
    half, drop = (1.5 * len(words) - 0.5) * width * 400 / 2, width * 1.5 * 400 / 2
    start = (x + drop, y - half) if upward else (x - half, y - drop)
    return f"SI{width:g},{1.5 * width:g};DI{'0,1' if upward else '1,0'};PU{start[0]:.0f},{start[1]:.0f};LB{words}\x03"


def arrow(x, y, degrees):
    """The head of an arrow that points to (x, y)."""
    parts = ""
    for spread in (-9, -4.5, 0, 4.5, 9):
        way = math.radians(degrees + 180 + spread)
        parts += line((x, y), (x + 60 * math.cos(way), y + 60 * math.sin(way)))
    return parts


def level(x1, x2, from_y, y, words):
    """The dimension from x1 to x2, at y, with extension lines from from_y on."""
    beyond = math.copysign(30, y - from_y)
    parts = "".join(line((x, from_y + beyond), (x, y + beyond)) for x in (x1, x2))
    return (parts + line((x1, y), (x2, y)) + arrow(x1, y, 180) + arrow(x2, y, 0) + pen(TEXT)
            + text((x1 + x2) / 2, y + 50, words) + pen(THIN))


def upright(y1, y2, from_x, x, words):
    """The dimension from y1 to y2, at x, with extension lines from from_x on."""
    beyond = math.copysign(30, x - from_x)
    parts = "".join(line((from_x + beyond, y), (x + beyond, y)) for y in (y1, y2))
    return (parts + line((x, y1), (x, y2)) + arrow(x, y1, -90) + arrow(x, y2, 90) + pen(TEXT)
            + text(x - 50, (y1 + y2) / 2, words, upward=True) + pen(THIN))


def chain(x1, y1, x2, y2):
    """A centre line: long and short dashes."""
    length, at, parts = math.hypot(x2 - x1, y2 - y1), 0, ""
    dashes = (90, 20)
    while at < length:
        for dash in dashes:
            ends = [min(part, length) / length for part in (at, at + dash)]
            if ends[0] < 1:
                parts += line(*[(x1 + part * (x2 - x1), y1 + part * (y2 - y1)) for part in ends])
            at += dash + 25
    return parts


def hatched(left, bottom, right, top):
    """Lines of 45 degrees through a rectangle. Those of rectangles side by side meet."""
    parts = ""
    for offset in range(math.ceil((bottom - right) / 40) * 40, math.floor(top - left), 40):
        x1, x2 = max(left, bottom - offset), min(right, top - offset)
        if x1 < x2:
            parts += line((x1, x1 + offset), (x2, x2 + offset))
    return parts


def front():
    parts = pen(AXIS)
    parts += chain(FRONT - PLATE - 90, MIDDLE, FRONT + PLATE + 90, MIDDLE)
    parts += chain(FRONT, MIDDLE - PLATE - 90, FRONT, MIDDLE + PLATE + 90) + circle(FRONT, MIDDLE, BOLTS)
    places = [(FRONT + BOLTS * math.cos(way), MIDDLE + BOLTS * math.sin(way), way)
              for way in (math.radians(60 * step + 30) for step in range(6))]
    for x, y, way in places:
        across = 150 * math.cos(way), 150 * math.sin(way)
        parts += line((x - across[0], y - across[1]), (x + across[0], y + across[1]))
    parts += pen(OUTLINE) + "".join(circle(FRONT, MIDDLE, radius) for radius in (PLATE, HUB, BORE))
    parts += "".join(circle(round(x), round(y), BOLT) for x, y, _ in places)
    x, y, way = places[0]
    tip = x + BOLT * math.cos(way), y + BOLT * math.sin(way)
    parts += pen(THIN) + arrow(*tip, 210) + line(tip, (FRONT + 880, MIDDLE + 640), (FRONT + 1180, MIDDLE + 640))
    return parts + pen(TEXT) + text(FRONT + 1030, MIDDLE + 690, "6 x dia 9") + pen(THIN)


def section():
    left, step, right = SECTION, SECTION + THICKNESS, SECTION + LENGTH
    inner, outer = BOLTS - BOLT, BOLTS + BOLT
    parts = ""
    for way in (1, -1):
        parts += pen(THIN)
        for low, end, high in ((BORE, right, HUB), (HUB, step, inner), (outer, step, PLATE)):
            bottom, top = sorted((MIDDLE + way * low, MIDDLE + way * high))
            parts += hatched(left, bottom, end, top)
        ring = [(left, BORE), (right, BORE), (right, HUB), (step, HUB), (step, inner), (left, inner), (left, BORE)]
        rim = [(left, inner), (left, PLATE), (step, PLATE), (step, inner)]
        parts += pen(OUTLINE)
        for outline in (ring, rim, [(left, outer), (step, outer)]):
            parts += line(*[(x, MIDDLE + way * radius) for x, radius in outline])
        parts += pen(AXIS) + chain(left - 60, MIDDLE + way * BOLTS, step + 60, MIDDLE + way * BOLTS)
    parts += pen(OUTLINE) + "".join(line((x, MIDDLE - BORE), (x, MIDDLE + BORE)) for x in (left, right))
    return parts + pen(AXIS) + chain(left - 90, MIDDLE, right + 90, MIDDLE)


def dimensions():
    parts = pen(THIN)
    parts += level(FRONT - BOLTS * math.cos(math.pi / 6), FRONT + BOLTS * math.cos(math.pi / 6),
                   MIDDLE - BOLTS / 2, MIDDLE - PLATE - 200, "54.6")
    parts += level(SECTION, SECTION + THICKNESS, MIDDLE - PLATE, MIDDLE - PLATE - 140, "10")
    parts += level(SECTION, SECTION + LENGTH, MIDDLE + PLATE, MIDDLE + PLATE + 140, "26")
    right = SECTION + LENGTH
    parts += upright(MIDDLE - BORE, MIDDLE + BORE, right, right + 200, "dia 28 H7")
    parts += upright(MIDDLE - HUB, MIDDLE + HUB, right, right + 380, "dia 46")
    parts += upright(MIDDLE - PLATE, MIDDLE + PLATE, SECTION + THICKNESS, right + 560, "dia 80")
    return parts + upright(MIDDLE - BOLTS, MIDDLE + BOLTS, SECTION, SECTION - 200, "dia 63")


def sheet():
    """The border, and the title block in its lower right corner."""
    left, right, top = 1900, 3920, 560
    parts = pen(OUTLINE) + rectangle(80, 80, right, 2920) + rectangle(left, 80, right, top)
    parts += pen(THIN) + line((left, 320), (right, 320)) + "".join(line((x, 80), (x, 320)) for x in (2500, 2960, 3420))
    parts += pen(TEXT) + text(2910, 440, "Flange 80 x 26, bore 28", 0.12)
    entries = (2200, "material", "S235JR"), (2730, "scale", "1:2"), (3190, "unit", "mm"), (3670, "sheet", "1 of 1")
    for x, name, value in entries:
        parts += text(x, 265, name, 0.07) + text(x, 165, value, 0.11)
    return parts + text(970, 170, "Edges broken 0.5 x 45 degrees", 0.08)


def main():
    parts = "IN;" + "".join("PC%d,%d,%d,%d;" % (number, *parts) for number, parts in COLOURS.items())
    parts += "".join(f"PW{width:g},{number};" for number, width in WIDTHS.items())
    sys.stdout.write(parts + sheet() + front() + section() + dimensions() + "SP0;\n")


main()
