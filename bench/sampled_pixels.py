"""Whether sampled pixels of a picture are those of the definition.

A pixel is black if its centre lies on the page and within half the drawn width of a line.
"""

import bisect
import math
import random


def read_pbm(path):
    """The columns and the rows of a PBM, and its bits; nothing if it is no PBM, or cut off."""
    with open(path, "rb") as picture:
        if picture.readline() != b"P4\n":
            return None
        columns, rows = map(int, picture.readline().split())
        bits = picture.read()
    return (columns, rows, bits) if len(bits) == rows * ((columns + 7) // 8) else None


class Measure:
    """The sides of a page and the width of its pen, in grains (16 to a plotter unit) divided by the
    dots per inch: so the ends of lines and the centres of pixels are whole numbers."""

    def __init__(self, page, pen, dots):
        self.unit = 16 * dots
        self.width, self.height = (side * self.unit for side in page)
        self.columns, self.rows = ((side * dots + 508) // 1016 for side in page)
        # 640 grains to a millimetre; never under one and a half pixels, of 16256 each.
        self.drawn = max((640 * pen + 50) // 100 * dots, 24384)

    def centre(self, row, column):
        return (2 * column + 1) * 8128, self.height - (2 * row + 1) * 8128

    def pixel(self, x, y):
        """The pixel on the page that is nearest to a place."""
        row, column = int((self.height - y) // 16256), int(x // 16256)
        return min(max(row, 0), self.rows - 1), min(max(column, 0), self.columns - 1)

    def strokes(self, lines):
        """The strokes of lines of places, by their two ends."""
        for line in lines:
            for (ax, ay), (bx, by) in zip(line, line[1:]):
                yield ax * self.unit, ay * self.unit, bx * self.unit, by * self.unit

    def is_covered(self, stroke, x, y):
        """Whether a place is on the page and within half the drawn width of a stroke."""
        if not (0 <= x <= self.width and 0 <= y <= self.height):
            return False
        ax, ay, bx, by = stroke
        vx, vy, wx, wy = bx - ax, by - ay, x - ax, y - ay
        along, square = vx * wx + vy * wy, vx * vx + vy * vy
        if along <= 0:
            return 4 * (wx * wx + wy * wy) <= self.drawn**2
        if along >= square:
            return 4 * ((x - bx) ** 2 + (y - by) ** 2) <= self.drawn**2
        return 4 * (vx * wy - vy * wx) ** 2 <= self.drawn**2 * square


def sampled(measure, strokes, count):
    """Pixels to look at: half of them anywhere, half within a pixel of a stroke's edge."""
    near = count // 2 if strokes else 0
    pixels = {(random.randrange(measure.rows), random.randrange(measure.columns)) for _ in range(count - near)}
    for _ in range(near):
        ax, ay, bx, by = random.choice(strokes)
        part, side = random.random(), math.atan2(by - ay, bx - ax) + random.choice([-0.25, 0.25]) * math.tau
        off = measure.drawn / 2 + random.uniform(-16256, 16256)
        x, y = ax + part * (bx - ax), ay + part * (by - ay)
        pixels.add(measure.pixel(x + off * math.cos(side), y + off * math.sin(side)))
    return pixels


def black_by_definition(measure, strokes, pixels):
    """Those of the pixels that some stroke covers."""
    places = sorted((*reversed(measure.centre(*pixel)), pixel) for pixel in pixels)
    black = set()
    for stroke in strokes:
        # A stroke reaches no row that is farther off than its drawn width.
        low = min(stroke[1], stroke[3]) - measure.drawn
        high = max(stroke[1], stroke[3]) + measure.drawn
        for at in range(bisect.bisect(places, (low,)), bisect.bisect(places, (high,))):
            y, x, pixel = places[at]
            if pixel not in black and measure.is_covered(stroke, x, y):
                black.add(pixel)
    return black


def wrong_pixels(plot, dots, path, count):
    """How many pixels were compared, how many of them are black, and those that are wrong."""
    measure = Measure(plot.page, plot.pen, dots)
    columns, rows, bits = read_pbm(path)
    if (columns, rows) != (measure.columns, measure.rows):
        raise ValueError(f"{columns} columns and {rows} rows, not {measure.columns} and {measure.rows}")
    strokes = list(measure.strokes(plot.lines()))
    pixels = sampled(measure, strokes, count)
    black = black_by_definition(measure, strokes, pixels)
    pitch = (columns + 7) // 8
    shown = {(r, c) for r, c in pixels if bits[r * pitch + c // 8] >> (7 - c % 8) & 1}
    return len(pixels), len(black), sorted(black ^ shown)
