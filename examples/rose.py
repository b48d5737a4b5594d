#!/usr/bin/env python3
"""Writes the plot of examples/rose.plt: a rose of lines, and the chart of a damped oscillation.

    examples/rose.py > examples/rose.plt

The page is 4000 by 3000 plotter units (100 by 75 mm). The plot has only the instructions PC, SP,
PW, PU and PD in capitals, with numbers separated by one comma, and nothing between instructions.
"""

import math
import sys

BLACK, RED, GREEN, BLUE, MAGENTA, CYAN = 1, 2, 3, 5, 6, 7

# The colours of the pens: red, green and blue, 0 to 255 each.
COLOURS = {
    RED: (200, 30, 45),
    GREEN: (40, 140, 70),
    BLUE: (25, 70, 170),
    MAGENTA: (175, 35, 130),
    CYAN: (0, 140, 165),
}


class Plot:
    """The text of a plot, put together instruction by instruction."""

    def __init__(self):
        self.parts = []

    def colour(self, number, parts):
        """Sets a pen's colour."""
        self.parts.append("PC%d,%d,%d,%d;" % (number, *parts))

    def pen(self, number, millimetres):
        """Selects a pen and sets its width."""
        self.parts.append(f"SP{number};PW{millimetres:g},{number};")

    def put_down_the_pen(self):
        self.parts.append("SP0;")

    def line(self, places):
        """Draws through the places, rounded to whole plotter units."""
        whole = [(round(x), round(y)) for x, y in places]
        self.parts.append("PU%d,%d;" % whole[0])
        self.parts.append("PD" + ",".join("%d,%d" % place for place in whole[1:]) + ";")

    def text(self):
        return "".join(self.parts)


def on_circle(centre, radius, degrees):
    turn = math.radians(degrees)
    return centre[0] + radius * math.cos(turn), centre[1] + radius * math.sin(turn)


def rose_place(centre, radius, petals, degrees):
    """A place on the rose of this many petals (or twice as many, if they are even)."""
    return on_circle(centre, radius * math.sin(math.radians(petals * degrees)), degrees)


def frame(plot, left, bottom, right, top):
    plot.line([(left, bottom), (right, bottom), (right, top), (left, top), (left, bottom)])


def draw_rose(plot):
    """A rose of twelve petals: its outline, and lines between places of it that are 71 degrees apart."""
    centre, radius = (1420, 1500), 1180
    plot.pen(CYAN, 0.3)
    plot.line([on_circle(centre, radius + 60, degrees) for degrees in range(0, 361, 5)])
    plot.pen(BLUE, 0.06)
    plot.line([rose_place(centre, radius, 6, 71 * step) for step in range(361)])
    plot.pen(RED, 0.3)
    plot.line([rose_place(centre, radius, 6, degrees) for degrees in range(361)])
    plot.pen(BLACK, 0.2)
    for degrees in range(0, 360, 15):
        length = 90 if degrees % 45 == 0 else 45
        plot.line([on_circle(centre, radius + 60, degrees), on_circle(centre, radius + 60 + length, degrees)])


def oscillation(time):
    """The oscillation at a time of 0 to 1, and its amplitude."""
    amplitude = math.exp(-3 * time)
    return amplitude * math.cos(10 * math.pi * time), amplitude


def draw_chart(plot, left, bottom, right, top):
    middle, half = (bottom + top) / 2, (top - bottom) / 2 - 60
    x_at = lambda time: left + time * (right - left)
    plot.pen(BLACK, 0.2)
    frame(plot, left, bottom, right, top)
    plot.line([(left, middle), (right, middle)])
    for tick in range(1, 10):
        length = 50 if tick == 5 else 28
        plot.line([(x_at(tick / 10), bottom), (x_at(tick / 10), bottom + length)])
    for tick in range(-4, 5):
        plot.line([(left, middle + tick * half / 4), (left + 28, middle + tick * half / 4)])
    times = [step / 120 for step in range(121)]
    plot.pen(GREEN, 0.2)
    plot.line([(x_at(time), middle + half * oscillation(time)[1]) for time in times[::6]])
    plot.line([(x_at(time), middle - half * oscillation(time)[1]) for time in times[::6]])
    plot.pen(MAGENTA, 0.35)
    plot.line([(x_at(time), middle + half * oscillation(time)[0]) for time in times])


def draw_lines(plot, left, bottom, right, top):
    """Two families of straight lines, each of which outlines a curve."""
    plot.pen(BLACK, 0.2)
    frame(plot, left, bottom, right, top)
    plot.pen(BLUE, 0.1)
    for step in range(25):
        part = step / 24
        plot.line([(left + part * (right - left), bottom), (right, bottom + part * (top - bottom))])
    plot.pen(RED, 0.1)
    for step in range(25):
        part = step / 24
        plot.line([(left, bottom + part * (top - bottom)), (left + part * (right - left), top)])


def main():
    plot = Plot()
    for number, parts in COLOURS.items():
        plot.colour(number, parts)
    plot.pen(BLACK, 0.35)
    frame(plot, 60, 60, 3940, 2940)
    draw_rose(plot)
    draw_chart(plot, 2860, 1640, 3800, 2800)
    draw_lines(plot, 2860, 200, 3800, 1400)
    plot.put_down_the_pen()
    sys.stdout.write(plot.text())


if __name__ == "__main__":
    main()
