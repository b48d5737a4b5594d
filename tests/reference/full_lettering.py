"""Labels in the profile full: size, direction, slant, space, path and origin.

A place of a label is a column and a line: so many places on, and so many lines on.
"""

import os
from fractions import Fraction
from itertools import groupby
from typing import NamedTuple

from .characters import BACK, CONTROLS, LINE_FEED, RETURN, TAB
from .cutting import rounded
from .directions import swung
from .geometry import turned

PATHS = ((1, 0), (0, -1), (-1, 0), (0, 1))
# By the path the corner of a letter's box from which the text runs on, and the one above it as the text is read.
CORNERS = (((0, 0), (0, 6)), ((0, 6), (4, 6)), ((4, 6), (4, 0)), ((4, 0), (0, 0)))
IN_THE_MIDDLE = 5
BOX = "0,0 0,6 4,6 4,0 0,0"
FONT = os.path.join(os.path.dirname(os.path.abspath(__file__)), "full_font.txt")


def polylines(text):
    """The polylines of a row of the font, as lists of points."""
    return [[tuple(map(int, point.split(","))) for point in line.split()] for line in text.split("/") if line.strip()]


def read_font():
    """The polylines of each code point that has a row."""
    with open(FONT, encoding="ascii") as rows:
        parts = [row.rstrip("\n").partition(" ") for row in rows if not row.startswith("#")]
    return {int(code, 16): polylines(lines) for code, _, lines in parts}


GLYPHS = read_font()


class Style(NamedTuple):
    """How letters are written. The size is in grains; one of the steps is a whole place or line."""

    size: tuple
    direction: tuple
    slant: Fraction
    steps: tuple  # along x and y, as parts of the usual ones
    path: int  # 0 right, 1 down, 2 left, 3 up
    line: int  # whether lines follow to the right of the path, 0, or to the left, 1
    origin: int  # LO's number, 1 to 19

    def anchor(self):
        """The column, 0 to 2, and the row, 0 to 2, of the label that stands at its start."""
        return divmod(self.origin % 10 - 1, 3) if self.path == 0 else (0, 0)

    def has_gap(self):
        return self.path == 0 and self.origin > 10

    def way(self, columns, lines):
        """So many places and lines on, in twelfths of the width and in eighteenths of the height."""
        along = PATHS[self.path]
        aside = turned(*along, 90 if self.line else -90)
        x, y = (columns * along[axis] + lines * aside[axis] for axis in (0, 1))
        return 18 * self.steps[0] * x, 36 * self.steps[1] * y

    def offset(self, columns, lines):
        """So many places and lines on, as an offset on the page."""
        x, y = self.way(columns, lines)
        return self.swung(times(x, self.size[0], 12), times(y, self.size[1], 18))

    def swung(self, dx, dy):
        return swung((dx, dy), self.direction)

    def strokes(self, signs):
        """The strokes of a label, as offsets from its start."""
        for code, column, line, greatest in printed(signs):
            yield from self.letter(code, column, line, greatest)

    def letter(self, code, column, line, greatest):
        """The strokes of a letter in a part whose greatest column is given."""
        x, y = self.beginning(column, line, greatest)
        for points in GLYPHS.get(code, polylines(BOX)):
            for ends in zip(points, points[1:] or points):
                yield tuple(self.point(x, y, *end) for end in ends)

    def beginning(self, column, line, greatest):
        """Where a letter begins, in twelfths and eighteenths."""
        x, y = self.way(column, line)
        to_the_left, down = self.displacement(greatest)
        return x - to_the_left, y - down

    def lines(self, signs):
        """The code points of each line of a label, with the offsets of its start, its end and the corner above its start."""
        start, top = CORNERS[self.path]
        for has_letters, found in groupby(cells(signs), lambda cell: cell[0] not in CONTROLS):
            if has_letters:
                codes, columns, (line, *_), (greatest, *_) = zip(*found)
                first, after = (self.beginning(column, line, greatest) for column in (columns[0], columns[-1] + 1))
                yield codes, (self.point(*first, *start), self.point(*after, *start), self.point(*first, *top))

    def displacement(self, count):
        """How far a part of so many places lies left of and below its start, in twelfths and eighteenths."""
        column, row = self.anchor()
        x, y = column * (9 * self.steps[0] * (count - 1) + 6), 9 * row
        return (x + 6 * (column - 1), y + 9 * (row - 1)) if self.has_gap() else (x, y)

    def point(self, x, y, i, j):
        """A point of a letter's grid; the letter begins at x twelfths of the width, y eighteenths of the height."""
        width, height = self.size
        dx = times(x + 3 * i, width, 12) + times(self.slant, 3 * j * height, 18)
        return self.swung(dx, times(y + 3 * j, height, 18))

    def free_point(self, i, j):
        """A point of a label of one character, in fourths of the width and eighths of the height, which may be fractions."""
        x, y = self.beginning(0, 0, 1)
        width, height = self.size
        dx = times(x + 3 * i, width, 12) + times(self.slant * j, height, 8)
        return self.swung(dx, times(y + Fraction(9, 4) * j, height, 18))

    def end(self, signs):
        """Where the pen is after a label, as an offset."""
        column = 0
        for sign in signs:
            column = next_column(column, sign)
        share = Fraction(2 - self.anchor()[0], 2)
        return self.offset(column * share, signs.count(LINE_FEED))


def times(number, length, parts):
    """So many parts of a length, to the nearest whole number; the number may be a fraction."""
    return rounded(number.numerator * length, number.denominator * parts)


def size_of(percents, d, e):
    """The size in grains that is so many millionths of a percent of the distances from P1 to P2."""
    return tuple(rounded(16 * side * percent, 100_000_000) for side, percent in zip((d, e), percents))


def next_column(column, sign):
    """The column after a sign."""
    if sign == RETURN:
        return 0
    if sign == BACK:
        return column - 1
    if sign == TAB:
        return 8 * (column // 8 + 1)
    return column if sign == LINE_FEED else column + 1


def parts_of(signs):
    """The parts of a label, which returns separate."""
    parts = [[]]
    for sign in signs:
        if sign == RETURN:
            parts.append([])
        else:
            parts[-1].append(sign)
    return parts


def printed(signs):
    """Each printed code point with its column, its line, and the greatest column of its part, at least 1."""
    return (cell for cell in cells(signs) if cell[0] not in CONTROLS)


def cells(signs):
    """Each sign with its column, its line, and the greatest column of its part, at least 1. A return follows each part."""
    line = 0
    for part in parts_of(signs):
        columns = [0]
        for sign in part:
            columns.append(next_column(columns[-1], sign))
        greatest = max(1, *columns)
        for sign, column in zip(part, columns):
            yield sign, column, line, greatest
            line += sign == LINE_FEED
        yield RETURN, columns[-1], line, greatest
