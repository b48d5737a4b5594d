#!/usr/bin/env python3
"""Writes the plot of examples/centred.plt: a planetary gear about (0,0), with centre lines and a title.

    examples/centred.py > examples/centred.plt

The drawing reaches left of (0,0) and below it, so it needs a page of its own; --fit finds it.
"""

import itertools
import math
import sys

BLACK, RED, GREEN, BLUE, GREY = 1, 2, 3, 5, 8
COLOURS = {RED: (200, 30, 45), GREEN: (40, 140, 70), BLUE: (25, 70, 170), GREY: (150, 150, 150)}

MODULE = 60  # a wheel's pitch diameter, in plotter units, for each of its teeth
SUN, PLANET, RING = 18, 18, 54  # teeth
PLANETS = 3
CARRIER = MODULE * (SUN + PLANET) / 2  # from the middle to the axis of a planet
PRESSURE = math.radians(20)


def pitch_radius(teeth):
    return MODULE * teeth / 2


def flank(teeth, radius):
    """Half the angle of a tooth at a radius: involutes that are half a pitch apart at the pitch circle."""
    base = pitch_radius(teeth) * math.cos(PRESSURE)

    def involute(at):
        return math.tan(at) - at

    at = math.acos(min(1, base / radius))
    return math.pi / (2 * teeth) + involute(PRESSURE) - involute(at)


def wheel(teeth, turned, foot, tip):
    """The outline of a wheel's teeth about (0,0), the middle of one tooth at the angle `turned`."""
    outline = []
    for tooth in range(teeth):
        middle = turned + 2 * math.pi * tooth / teeth
        radii = [foot + (tip - foot) * step / 4 for step in range(5)]
        rising = [(radius, middle - flank(teeth, radius)) for radius in radii]
        falling = [(radius, middle + flank(teeth, radius)) for radius in reversed(radii)]
        outline += rising + falling
    return [(radius * math.cos(angle), radius * math.sin(angle)) for radius, angle in outline]


def polygon(points, x=0.0, y=0.0):
    """Draws a closed outline that is moved by x and y."""
    first, *rest = [f"{round(x + px)},{round(y + py)}" for px, py in points + points[:1]]
    return f"PU{first};PD{','.join(rest)};PU;\n"


def pen(number, millimetres):
    """Selects a pen and sets its width."""
    return f"SP{number};PW{millimetres:g},{number};"


def circles(x, y, *radii):
    return f"PU{round(x)},{round(y)};" + "".join(f"CI{round(radius)},3;" for radius in radii) + "\n"


def axes():
    """The angle and the place of each planet's axis."""
    for planet in range(PLANETS):
        angle = math.pi / 2 + 2 * math.pi * planet / PLANETS
        yield angle, CARRIER * math.cos(angle), CARRIER * math.sin(angle)


def wheels():
    """Seen from the middle, the sun has a tooth at each axis, a planet a gap on either side, and the ring a tooth.

    The ring's inside is the outline of a wheel that fills it, so there that wheel has a gap.
    """
    up = math.pi / 2
    radius = pitch_radius(SUN)
    yield pen(RED, 0.4) + polygon(wheel(SUN, up, radius - 1.15 * MODULE, radius + 0.95 * MODULE))
    yield circles(0, 0, 3 * MODULE)
    radius = pitch_radius(PLANET)
    yield pen(BLUE, 0.4)
    for angle, x, y in axes():
        turned = angle + math.pi / PLANET
        yield polygon(wheel(PLANET, turned, radius - 1.15 * MODULE, radius + 0.95 * MODULE), x, y)
        yield circles(x, y, 2.5 * MODULE)
    radius = pitch_radius(RING)
    turned = up + math.pi / RING
    yield pen(BLACK, 0.4) + polygon(wheel(RING, turned, radius - 0.95 * MODULE, radius + 1.15 * MODULE))
    yield circles(0, 0, radius + 4 * MODULE)


def dashes(x, y, length, turned):
    """A centre line: long and short dashes from (x,y) on, in both directions."""
    text = ""
    for way in (turned, turned + math.pi):
        at = 0
        for dash in itertools.cycle((100, 20)):
            if at >= length:
                break
            ends = [(x + radius * math.cos(way), y + radius * math.sin(way)) for radius in (at, min(at + dash, length))]
            text += "PU{},{};PD{},{};".format(*(round(part) for end in ends for part in end))
            at += dash + 25
    return text + "PU;\n"


def centre_lines():
    yield pen(GREY, 0.15)
    for turned in (0, math.pi / 2):
        yield dashes(0, 0, pitch_radius(RING) + 5 * MODULE, turned)
    for angle, x, y in axes():
        yield dashes(x, y, pitch_radius(PLANET) + 1.5 * MODULE, angle + math.pi / 2)
        if abs(x) > 1:
            yield dashes(x, y, pitch_radius(PLANET) + 1.5 * MODULE, angle)
    yield pen(GREEN, 0.15) + circles(0, 0, *map(pitch_radius, (SUN, RING)), CARRIER)
    for _, x, y in axes():
        yield circles(x, y, pitch_radius(PLANET))


def title():
    """A line of text below the drawing, in the middle: a character takes one and a half widths."""
    text = f"{SUN} + 2 * {PLANET} = {RING} teeth, module {MODULE / 40:g} mm"
    width = 0.16
    start = -len(text) * 1.5 * width * 400 / 2
    yield pen(BLACK, 0.25) + f"SI{width},0.24;PU{round(start)},-2300;LB{text}\x03"


def main():
    parts = ["IN;"] + ["PC%d,%d,%d,%d;" % (number, *parts) for number, parts in COLOURS.items()] + ["\n"]
    for figure in (centre_lines, wheels, title):
        parts += figure()
    sys.stdout.write("".join(parts) + "SP0;\n")


main()
