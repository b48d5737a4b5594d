"""Exact directions and lengths, in the profile full.

A direction is a pair of whole numbers, in parts of 2^30. A tick is 1/256 of a grain.
"""

import math

from .cutting import rounded
from .geometry import sign

ONE = 2**30


def root(number):
    """The greatest whole number whose square is at most this."""
    return math.isqrt(number)


def length(dx, dy):
    """The length in ticks of an offset in grains."""
    return root(2**16 * (dx * dx + dy * dy))


def unit(u, v):
    """The direction of (u, v), each part to the nearest whole number; one along an axis is exact."""
    bits = 0
    while max(abs(u), abs(v)) >> bits >= 2**31:
        bits += 1
    u, v = rounded(u, 2**bits), rounded(v, 2**bits)
    square = u * u + v * v
    return tuple(sign(part) * ((root(2**62 * part * part // square) + 1) // 2) for part in (u, v))


def swung(offset, direction):
    """An offset, turned so that what pointed to the right points in a direction."""
    (x, y), (c, s) = offset, direction
    return rounded(x * c - y * s, ONE), rounded(x * s + y * c, ONE)


def moved(place, offset):
    """The place at an offset from a place."""
    return place[0] + offset[0], place[1] + offset[1]
