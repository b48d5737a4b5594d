"""Labels as texts: what documents have of them beside their strokes.

A label is what an LB or a PB draws. Its printed characters are lines, which returns, line feeds, backs and tabs separate.
"""

import re
from fractions import Fraction
from typing import NamedTuple

from .cutting import rounded
from .directions import moved

# A number of a place is cut to this range, on both sides of 0.
FARTHEST = 8_388_607 * 16
REPLACEMENT = 0xFFFD
# Code points that XML has not, and the first one that a font of a PDF has not.
NOT_IN_XML = (0xFFFE, 0xFFFF)
NOT_IN_PDF = 0x10000
# A letter of Courier is 0.6 of its size wide; its capitals are 0.5625 of it high here.
THOUSAND_ADVANCES, THOUSAND_HEIGHTS = Fraction(5000, 3), Fraction(16_000, 9)


class Row(NamedTuple):
    """A line of a label: its code points, and three places in grains."""

    codes: tuple
    start: tuple  # the corner of its first letter from which the text runs on
    end: tuple  # the same corner of the cell after its last letter
    top: tuple  # the corner above the start

    def text_of_pdf(self):
        return "".join(chr(code if code < NOT_IN_PDF else REPLACEMENT) for code in self.codes)

    def text_of_svg(self):
        return "".join(chr(REPLACEMENT if code in NOT_IN_XML else code) for code in self.codes)

    def matrix(self):
        """The matrix of a PDF's text: what a letter's size along the line and above it is, and where the line starts."""
        along, above = (tuple(n - m for n, m in zip(place, self.start)) for place in (self.end, self.top))
        scales = [THOUSAND_ADVANCES * n / len(self.codes) for n in along] + [THOUSAND_HEIGHTS * n for n in above]
        return *(Fraction(away_from_0(scale), 1000) for scale in scales), *self.start


def away_from_0(number):
    """The nearest whole number; halves go to the greater absolute value."""
    whole = rounded(abs(number.numerator), number.denominator)
    return whole if number > 0 else -whole


def rows_of(style, place, signs):
    """The lines of a label that begins at a place."""
    return [
        Row(tuple(codes), *(cut(moved(place, offset)) for offset in corners)) for codes, corners in style.lines(signs)
    ]


def cut(place):
    return tuple(max(-FARTHEST, min(FARTHEST, number)) for number in place)


def rows_at(rows, place_of):
    """The lines of a label, whose places are where a function puts them."""
    return [Row(row.codes, *(cut(place_of(place)) for place in row[1:])) for row in rows]


def rows_moved(rows, dx, dy):
    """The lines of a label, moved by an offset."""
    return rows_at(rows, lambda place: moved(place, (dx, dy)))


class Group(NamedTuple):
    """A label in an SVG: its text, and its strokes as the numbers of the first one on its sheet and of the one after the
    last."""

    sheet: int
    first: int
    after: int
    text: str

    def __str__(self):
        return f"label {self.text!r} of lines {self.first} to {self.after}"


class Text(NamedTuple):
    """A line of a label in a PDF: its text, and the six numbers of its matrix."""

    sheet: int
    text: str
    matrix: tuple

    def __str__(self):
        return "text {!r} by {}".format(self.text, " ".join(map(str, self.matrix)))


def groups_of(sheet, spans, labels):
    """The labels of a sheet as an SVG has them, by the number of each label with those of its strokes."""
    return [Group(sheet, first, after, "\n".join(row.text_of_svg() for row in labels[it])) for it, first, after in spans]


def lines_of_texts(texts):
    """The lines of texts, with a replacement for each character that one of the documents has not."""
    return [re.sub("[\ufffe-\U0010ffff]", chr(REPLACEMENT), line) for text in texts for line in text.split("\n")]


def texts_of(sheet, spans, labels):
    """The lines of the labels of a sheet as a PDF has them."""
    return [Text(sheet, row.text_of_pdf(), row.matrix()) for it, *_ in spans for row in labels[it]]
