#!/usr/bin/env python3
"""Writes the plot of examples/sunflower.plt: 600 dots, each in a colour and a width of its own, by one pen.

    examples/sunflower.py > examples/sunflower.plt

The page is 4000 by 3000 plotter units (100 by 75 mm).
"""

import colorsys
import math
import sys

DOTS = 600
ANGLE = math.pi * (3 - math.sqrt(5))  # the golden angle


def dot(step):
    """A dot: from step to step it is turned by the golden angle, farther out, and larger."""
    part = step / DOTS
    radius = 1380 * math.sqrt(part)
    x, y = 2000 + radius * math.cos(step * ANGLE), 1500 + radius * math.sin(step * ANGLE)
    colour = colorsys.hsv_to_rgb((0.02 + 0.62 * part) % 1, 0.85 - 0.25 * part, 0.95 - 0.25 * part)
    red, green, blue = (round(255 * each) for each in colour)
    return f"PC1,{red},{green},{blue};PW{0.9 + 1.3 * part:.2f};PU{x:.0f},{y:.0f};PD;\n"


def main():
    sys.stdout.write("IN;SP1;\n" + "".join(dot(step) for step in range(1, DOTS + 1)) + "SP0;\n")


main()
