"""The plots that bench/compare makes. They are the same at each call.

A made plot has a name, a page in plotter units of 0.025 mm, the width of its pen in hundredths of a
millimetre, the lines that it draws, and what writes them as text. The lines are lists of places, or
None if they are not straight lines between the places of the text.
"""

import collections
import math
import random

A4, A3, GREATEST = (11880, 8400), (16800, 11880), (65536, 65536)

Made = collections.namedtuple("Made", "name page pen lines text")


def turned_back(place, way, end):
    """The coordinate after a way from a place, the other way if that leaves the page."""
    return place + way if 0 <= place + way <= end else place - way


def even(width, height, count, length):
    """Strokes of one length, anywhere and in any direction."""
    for _ in range(count):
        x, y = random.randrange(width), random.randrange(height)
        angle = random.uniform(0, math.tau)
        to_x = turned_back(x, round(length * math.cos(angle)), width)
        yield [(x, y), (to_x, turned_back(y, round(length * math.sin(angle)), height))]


def diagonals(width, height, count, step):
    """Strokes from the left side to the right that rise and fall by turns, steeper by and by."""
    for i in range(count):
        low, high = (0, height) if i % 2 == 0 else (height, 0)
        yield [(i * step, low), (width - i * step, high)]


def level(width, height, count, rise):
    """Strokes from the left side to the right that rise or fall a little."""
    for _ in range(count):
        y = random.randint(rise, height - rise)
        yield [(0, y), (width, y + random.randint(-rise, rise))]


def walks(width, height, count, most, at_once=10_000):
    """Polylines of up to so many strokes, each of up to a length."""
    reach = range(-most, most + 1)
    steps = [(x, y) for x in reach for y in reach if 0 < x * x + y * y <= most * most]
    for first in range(0, count, at_once):
        line = [(random.randint(0, width), random.randint(0, height))]
        for dx, dy in random.choices(steps, k=min(at_once, count - first)):
            x, y = line[-1]
            line.append((turned_back(x, dx, width), turned_back(y, dy, height)))
        yield line


def polylines(lines):
    """A PU and a PD for each line."""
    for (x, y), *rest in lines:
        yield f"PU{x},{y};PD{','.join(f'{x},{y}' for x, y in rest)};\n"


def coded(number):
    """A number in base 64, as in a PE: the least digit first, the last digit from byte 191 on."""
    code = 2 * number if number >= 0 else 1 - 2 * number
    digits = ""
    while code > 63:
        digits += chr(63 + code % 64)
        code //= 64
    return digits + chr(191 + code)


def encoded(lines):
    """A PE for each line."""
    for (x, y), *rest in lines:
        yield f"PU{x},{y};PE"
        for to_x, to_y in rest:
            yield coded(to_x - x) + coded(to_y - y)
            x, y = to_x, to_y
        yield ";\n"


def labels(width, height, count, first="!", last="~"):
    """Labels of 20 characters, each from the first to the last, of 1 by 1.4 mm."""
    yield "SI0.1,0.14;"
    for _ in range(count):
        text = "".join(chr(random.randint(ord(first), ord(last))) for _ in range(20))
        yield f"PU{random.randint(0, width - 3000)},{random.randint(100, height - 200)};LB{text}\x03\n"


def circles(width, height, count, most):
    """Circles of 72 chords."""
    for _ in range(count):
        radius = random.randint(10, most)
        x, y = random.randint(most, width - most), random.randint(most, height - most)
        yield f"PU{x},{y};CI{radius};\n"


def lines_plot(name, page, pen, make, *sizes, text=polylines):
    """A plot of lines."""

    def lines():
        random.seed(make.__name__)
        return list(make(*page, *sizes))

    return Made(name, page, pen, lines, lambda: text(lines()))


def other_plot(name, page, pen, make, *sizes):
    """A plot whose lines are not those between the places of its text."""

    def text():
        random.seed(make.__name__)
        return make(*page, *sizes)

    return Made(name, page, pen, None, text)


PLOTS = [
    lines_plot("tiny", A4, 35, walks, 1_000_000, 4),
    lines_plot("short", A3, 35, even, 100_000, 40),
    lines_plot("long", A4, 35, even, 20_000, 2000),
    lines_plot("diagonal", A3, 35, diagonals, 1_000, 2),
    lines_plot("level", A4, 35, level, 1_000, 50),
    lines_plot("wide", A4, 500, even, 1_000, 2000),
    lines_plot("greatest", GREATEST, 35, diagonals, 1, 0),
    lines_plot("empty", A4, 35, even, 0, 0),
    lines_plot("one PD", A4, 35, walks, 500_000, 40, 500_000),
    lines_plot("one PE", A4, 35, walks, 500_000, 40, 500_000, text=encoded),
    other_plot("labels", A4, 25, labels, 20_000),
    other_plot("circles", A4, 35, circles, 20_000, 400),
]


def bytes_of(plot):
    """The text of a made plot."""
    return f"IN;SP1;PW{plot.pen / 100};\n".encode() + "".join(plot.text()).encode("latin-1")
