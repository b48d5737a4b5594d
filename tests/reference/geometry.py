"""Scaling, rotation, windows, circles and arcs.

docs/INSTRUCTIONS.md, "Scaling", "Rotation", "Circles and arcs" and "Windows". Coordinates are in millionths,
places in grains.
"""

import math
from fractions import Fraction
from typing import NamedTuple

from .cutting import MILLION, rounded

NO_WINDOW = (1, 1, 0, 0)
SINES = [round(10_000 * math.sin(math.radians(degrees))) for degrees in range(91)]


class Page(NamedTuple):
    """A page in plotter units."""

    width: int
    height: int
    left: int
    below: int


# Scaling, rotation and windows


class Axis(NamedTuple):
    """How coordinates of one axis lie in plotter units: zero at the origin, and so many units a millionth."""

    origin: Fraction
    zero: int
    slope: Fraction

    def units(self, coordinate):
        return self.origin + (coordinate - self.zero) * self.slope

    def coordinate(self, units):
        return nearest(self.zero + (units - self.origin) / self.slope)


UNSCALED = Axis(Fraction(0), 0, Fraction(1, MILLION))


def nearest(fraction):
    return rounded(fraction.numerator, fraction.denominator)


def sign(number):
    return (number > 0) - (number < 0)


def anisotropic(p1, p2, least, most):
    """Type 0: least lies at P1 and most at P2."""
    return Axis(Fraction(p1), least, Fraction(p2 - p1, most - least))


def isotropic(p1, p2, least, most, size, percent):
    """Type 1: a millionth has this size; this percentage of the space that is left over lies next to P1."""
    left_over = abs(p2 - p1) - size * abs(most - least)
    origin = p1 + sign(p2 - p1) * left_over * percent / (100 * MILLION)
    return Axis(origin, least, sign(p2 - p1) * sign(most - least) * size)


def point_factor(p1, least, factor):
    """Type 2: least lies at P1, and a unit is so many plotter units."""
    return Axis(Fraction(p1), least, Fraction(factor, MILLION * MILLION))


def turned(dx, dy, degrees):
    """An offset, turned counterclockwise."""
    return {0: (dx, dy), 90: (-dy, dx), 180: (-dx, -dy), 270: (dy, -dx)}[degrees % 360]


def on_the_page(page, x, y, degrees):
    """The place of a point of the rotated page, whose lower left corner is a corner of the page."""
    left, bottom, right, top = whole_page(page)
    corner = {0: (left, bottom), 90: (right, bottom), 180: (right, top), 270: (left, top)}[degrees]
    dx, dy = turned(x, y, degrees)
    return corner[0] + dx, corner[1] + dy


def on_the_rotated_page(page, place, degrees):
    """The point of the rotated page at a place."""
    corner = on_the_page(page, 0, 0, degrees)
    return turned(place[0] - corner[0], place[1] - corner[1], -degrees)


def whole_page(page):
    """The page as a window: its left, lower, right and upper edge in grains."""
    return 0, 0, 16 * page.width, 16 * page.height


def window_of(page, a, b):
    """The window with these two corners, cut to the page; its edges belong to it."""
    _, _, width, height = whole_page(page)
    left, right = max(0, min(a[0], b[0])), min(width, max(a[0], b[0]))
    bottom, top = max(0, min(a[1], b[1])), min(height, max(a[1], b[1]))
    return (left, bottom, right, top) if left <= right and bottom <= top else NO_WINDOW


# Circles and arcs


def sine(angle):
    """The sine of thousandths of a degree, in ten-millionths."""
    angle %= 360_000
    if angle > 180_000:
        return -sine(angle - 180_000)
    if angle > 90_000:
        return sine(180_000 - angle)
    degree, rest = divmod(angle, 1000)
    return SINES[degree] * (1000 - rest) + (SINES[degree + 1] * rest if rest else 0)


def turned_about(centre, point, angle):
    """A point, turned about a centre by thousandths of a degree."""
    x, y = point[0] - centre[0], point[1] - centre[1]
    cosine, its_sine = sine(angle + 90_000), sine(angle)
    return (
        centre[0] + rounded(x * cosine - y * its_sine, 10 * MILLION),
        centre[1] + rounded(x * its_sine + y * cosine, 10 * MILLION),
    )


def turns(sweep, chord):
    """How far the end of each chord of an arc is turned."""
    count = max(1, -(-abs(sweep) // chord))
    return [sign(sweep) * min(k * chord, abs(sweep)) for k in range(1, count + 1)]


def chord_ends(centre, start, sweep, chord):
    """The ends of the chords of an arc."""
    for turn in turns(sweep, chord):
        yield turned_about(centre, start, turn)
