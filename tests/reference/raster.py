"""From shapes to pixels: each pixel asks all shapes.

docs/FORMATS.md, "Pixels". All lengths here are whole numbers, in grains divided by the resolution: an inch
has 16 * 1016 * dots of them, and a side of a pixel 16,256.
"""

from bisect import bisect_right
from typing import NamedTuple

from .fills import BY_ODD_COUNTS
from .shapes import is_area, is_image, strokes_of

PIXEL = 16 * 1016


def count(units, dots):
    """The number of columns or rows of a page that has so many units; there is at least one."""
    return max(1, (units * dots + 508) // 1016)


class Line(NamedTuple):
    """A stroke, or an edge of an area, in these lengths: one end, the way to the other, and its drawn width."""

    ax: int
    ay: int
    vx: int
    vy: int
    width: int

    def is_near(self, y):
        """Whether a height is at most half the width away from those of the line."""
        return 2 * max(min(self.ay, self.ay + self.vy) - y, y - max(self.ay, self.ay + self.vy)) <= self.width

    def covers(self, x, y):
        """Whether a point is at most half the width away."""
        ax, ay, vx, vy, width = self
        wx, wy = x - ax, y - ay
        along, length = vx * wx + vy * wy, vx * vx + vy * vy
        if along <= 0:
            return 4 * (wx * wx + wy * wy) <= width * width
        if along >= length:
            return 4 * ((wx - vx) ** 2 + (wy - vy) ** 2) <= width * width
        return 4 * (vx * wy - vy * wx) ** 2 <= width * width * length

    def is_passed(self, y):
        """Whether points at this height can pass the edge."""
        return min(self.ay, self.ay + self.vy) <= y < max(self.ay, self.ay + self.vy)

    def passing(self, y):
        """The first x at a height at which a point passes the edge."""
        return self.ax - self.vx * (self.ay - y) // self.vy


class Traced(NamedTuple):
    """A shape in these lengths: its window, and its lines, which are a stroke or the edges of an area."""

    shape: object
    window: tuple
    lines: list


def traced(shape, dots):
    window = tuple(dots * length for length in shape.window)
    if is_image(shape):
        return Traced(shape, window, [])
    return Traced(shape, window, [line_of(stroke, dots) for stroke in strokes_of(shape)])


def line_of(stroke, dots):
    (ax, ay), (bx, by) = stroke.a, stroke.b
    # A line is at least one and a half pixels wide.
    return Line(*(dots * length for length in (ax, ay, bx - ax, by - ay)), max(dots * stroke.width, 3 * PIXEL // 2))


class Level(NamedTuple):
    """What a shape has at a height: the ends of its window, the lines that are near, the places where points pass edges of an
    area, and whether the points before each of these places are inside it, and those after the last one."""

    shape: object
    left: int
    right: int
    y: int
    lines: list
    places: list
    insides: list

    def shown(self, x):
        """The shape, if it covers the point at this height, or None."""
        return self.shape if self.covers(x) else None

    def covers(self, x):
        """Whether the shape covers the point at this height."""
        if not self.left <= x <= self.right:
            return False
        return self.insides[bisect_right(self.places, x)] or any(line.covers(x, self.y) for line in self.lines)


class LevelOfImage(NamedTuple):
    """What an image has at a height."""

    image: object
    left: int
    right: int
    y: int
    dots: int

    def shown(self, x):
        """The dot that covers the point at this height, or None."""
        return self.image.dot_at(x, self.y, self.dots) if self.left <= x <= self.right else None


def levels(latest_first, y, dots):
    """What shapes have at a height, those that have something."""
    for shape, (left, bottom, right, top), lines in latest_first:
        if bottom <= y <= top and is_image(shape):
            yield LevelOfImage(shape, left, right, y, dots)
        elif bottom <= y <= top:
            near = [line for line in lines if line.is_near(y)]
            places, insides = insides_of(shape, lines, y) if is_area(shape) else ([], [False])
            if near or any(insides):
                yield Level(shape, left, right, y, near, places, insides)


def insides_of(area, edges, y):
    """The places at a height where points pass edges, and whether the points before each of these are inside, and those after
    the last one. By odd counts a point is inside if it has passed an odd number of edges; by winding, if the upward edges that
    it has passed are not as many as the downward ones."""
    passed = sorted((edge.passing(y), edge.vy > 0) for edge in edges if edge.is_passed(y))
    number, insides = 0, [False]
    for _, is_up in passed:
        number += 1 if is_up or area.rule == BY_ODD_COUNTS else -1
        insides.append(number % 2 == 1 if area.rule == BY_ODD_COUNTS else number != 0)
    return [x for x, _ in passed], insides


def shown(latest_first, x, y, dots):
    """The last shape that covers a point, or the dot of an image, or None."""
    return shown_at(levels(latest_first, y, dots), x)


def shown_at(latest_first, x):
    """The last shape that covers a point of a height, or the dot of an image, or None."""
    return next(filter(None, (level.shown(x) for level in latest_first)), None)


def rows(shapes, page, dots, pens, first):
    """Each row from the first on: the shape that each of its pixels shows at its centre, or None."""
    latest_first = [traced(shape, dots) for shape in reversed(shapes) if shape.pen in pens or is_image(shape)]
    top = 16 * page.height * dots
    columns = range(count(page.width, dots))
    for row in range(first, count(page.height, dots)):
        found = list(levels(latest_first, top - (2 * row + 1) * PIXEL // 2, dots))
        yield row, [shown_at(found, (2 * column + 1) * PIXEL // 2) for column in columns]
