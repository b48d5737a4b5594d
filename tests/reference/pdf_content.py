"""The operators of a PDF's page, read one after another, by ISO 32000-1: the lines that they draw, the areas that they fill, and
the texts that they write invisibly after these, or why they are wrong."""

import re
from fractions import Fraction
from typing import NamedTuple

from .fills import BY_ODD_COUNTS, BY_WINDING
from .reading import must
from .vectors import LEAST_WIDTH, MOST_IN_A_PATH, Line, FilledPath

WHOLE = re.compile(rb"0|-?[1-9][0-9]*")
PART = re.compile(rb"0(?:\.[0-9]{0,2}[1-9])?|1")
DECIMAL = re.compile(rb"0|-?(?:[1-9][0-9]*|0(?=\.))(?:\.[0-9]{0,2}[1-9])?")
FONT = re.compile(rb"/F(0|[1-9][0-9]*) 1")
CODES = re.compile(rb"<((?:[0-9a-f]{2})+)>")
INVISIBLE = b"3"
SCALE = re.compile(rb"(0\.[0-9]{12}) 0 0 \1 0 0")
# A grain in points, rounded to twelve decimals, and a part of a colour, rounded to three.
GRAIN = Fraction(9, 2032)
ROUNDED_GRAIN = Fraction(1, 2 * 10**12)
ROUNDED_PART = Fraction(1, 2000)


class Set(NamedTuple):
    """What is set for what is drawn; before that nothing is. What is filled is an area."""

    colour: tuple = None
    width: int = None
    window: tuple = None
    filling: tuple = None


class Row(NamedTuple):
    """A line of text: its matrix, and its pieces, each as the number of a font and the codes of characters in it."""

    matrix: tuple
    pieces: list


def shapes_of(content, width, height, unit):
    """The lines and areas that the operators of a page of so many plotter units, whose own unit is so many points, draw, and the
    lines of text that they write."""
    must(content.endswith(b"\n"), "no end of the last line")
    page = Content((0, 0, 16 * width, 16 * height), GRAIN / unit)
    for line in content[:-1].split(b"\n"):
        operands, _, operator = line.rpartition(b" ")
        must(operator in OPERATORS, f"the operator {line[:60]}")
        OPERATORS[operator](page, operands)
    must(page.begun == {"cm", "J", "j"} and page.pen is None, "how a page begins, or a layer that does not end")
    must(page.rows is None or page.is_text_ended, "a text that does not end")
    return page.painted, page.rows or []


def numbers(operands, count):
    found = operands.split(b" ")
    must(len(found) == count and all(map(WHOLE.fullmatch, found)), f"the numbers {operands}")
    return tuple(map(int, found))


def colour_of(operands):
    """A colour by its parts, rounded to three decimals."""
    parts = operands.split(b" ")
    must(len(parts) == 3 and all(map(PART.fullmatch, parts)), f"the colour {operands}")
    found = [Fraction(part.decode()) for part in parts]
    colour = tuple(round(part * 255) for part in found)
    must(all(abs(part - Fraction(it, 255)) <= ROUNDED_PART for part, it in zip(found, colour)), f"the colour {operands}")
    return colour


class Content:
    """What operators have set and drawn."""

    def __init__(self, whole, grain):
        self.whole, self.grain = whole, grain
        self.begun = set()
        self.pen, self.set, self.saved = None, Set(), None
        self.rectangle, self.is_clip = None, False
        self.start, self.place, self.ends, self.is_moved, self.is_closed = None, None, [], False, False
        self.painted, self.is_painted = [], False
        self.rows, self.is_invisible, self.is_text_ended, self.font = None, False, False, None

    def begin(self, name, holds):
        """An operator that comes once, before all layers."""
        must(holds and name not in self.begun and not self.painted and self.pen is None, f"a wrong {name}")
        self.begun.add(name)

    def scale(self, operands):
        found = SCALE.fullmatch(operands)
        self.begin("cm", found and abs(Fraction(found[1].decode()) - self.grain) <= ROUNDED_GRAIN)

    def line_ends(self, operands):
        self.begin("J", operands == b"1")

    def line_joins(self, operands):
        self.begin("j", operands == b"1")

    def layer(self, operands):
        found = re.fullmatch(rb"/OC /P([1-9][0-9]{0,2})", operands)
        must(found and self.pen is None and self.rows is None, f"the layer {operands}")
        self.pen = int(found[1])

    def end_layer(self, operands):
        must(not operands and self.pen is not None and self.saved is None, "the end of no layer")
        self.pen = None

    def save(self, operands):
        must(not operands and self.pen is not None and self.saved is None, "more is saved than once in a layer")
        self.saved, self.is_painted = self.set, False

    def restore(self, operands):
        must(not operands and self.saved is not None and self.is_painted, "nothing is saved, or nothing was painted")
        self.set, self.saved = self.saved, None

    def clip_rectangle(self, operands):
        x, y, width, height = numbers(operands, 4)
        must(self.saved is not None and self.rectangle is None and self.set.window is None, "a second window")
        must(width >= 0 and height >= 0 and self.place is None and not self.is_painted, "a rectangle of lines")
        self.rectangle = x, y, x + width, y + height

    def clip(self, operands):
        must(not operands and self.rectangle is not None and not self.is_clip, "what clips is no rectangle")
        self.is_clip = True

    def no_paint(self, operands):
        must(not operands and self.is_clip, "a path that neither clips nor is painted")
        must(self.rectangle != self.whole, "a window that is the page")
        self.set = self.set._replace(window=self.rectangle)
        self.rectangle, self.is_clip = None, False

    def colour(self, operands):
        self.change("colour", colour_of(operands))

    def filling(self, operands):
        found = colour_of(operands)
        must(found == self.set.colour and self.set.width == LEAST_WIDTH, "edges of another colour, or wide ones")
        self.change("filling", found)

    def width(self, operands):
        width, = numbers(operands, 1)
        must(width >= LEAST_WIDTH, f"a width of {width}")
        self.change("width", width)

    def change(self, name, value):
        """Sets something once in a layer, before its lines."""
        must(self.saved is not None and self.rectangle is None and self.place is None, f"{name} at a wrong place")
        must(getattr(self.set, name) is None, f"{name} is set twice")
        self.set = self.set._replace(**{name: value})

    def move(self, operands):
        must(None not in (self.saved, self.set.colour, self.set.width) and self.rectangle is None, "lines of nothing")
        must(not self.is_moved and not self.is_painted, "a move without a line, or after what is painted")
        must(not self.ends or self.is_chain_whole(), "an area with a chain that is not closed")
        self.start = self.place = numbers(operands, 2)
        self.is_moved, self.is_closed = True, False

    def line(self, operands):
        must(self.place is not None and not self.is_closed, "a line from nowhere")
        to = numbers(operands, 2)
        self.ends.append((self.place, to))
        self.place, self.is_moved = to, False

    def close(self, operands):
        must(not operands and self.ends and not self.is_moved and not self.is_closed, "nothing is closed")
        self.is_closed = True

    def is_chain_whole(self):
        """Whether the last chain of lines is closed if it leads back within an area, and only then."""
        return self.is_closed == (self.set.filling is not None and self.place == self.start)

    def stroke(self, operands):
        must(self.set.filling is None and len(self.ends) <= MOST_IN_A_PATH, f"{len(self.ends)} lines in a path, or an area")
        self.paint(operands, [Line(self.pen, self.set.colour, self.set.width, self.set.window, *ends) for ends in self.ends])

    def fill_by_odd_counts(self, operands):
        self.fill(operands, BY_ODD_COUNTS)

    def fill_by_winding(self, operands):
        self.fill(operands, BY_WINDING)

    def fill(self, operands, rule):
        must(self.set.filling is not None, "an area of no colour")
        self.paint(operands, [FilledPath(self.pen, self.set.colour, rule, self.set.window, tuple(self.ends))])

    def paint(self, operands, shapes):
        must(not operands and self.ends and not self.is_moved, "a path without a line at its end")
        must(self.is_chain_whole(), "a chain that is closed, or is not")
        self.painted += shapes
        self.start, self.place, self.ends, self.is_closed, self.is_painted = None, None, [], False, True

    def begin_text(self, operands):
        must(not operands and self.pen is None and self.rows is None and self.painted, "text that is not after all lines")
        self.rows = []

    def way_of_text(self, operands):
        must(operands == INVISIBLE and self.rows == [] and not self.is_invisible, f"the way of text {operands}")
        self.is_invisible = True

    def matrix(self, operands):
        parts = operands.split(b" ")
        must(len(parts) == 6 and all(map(DECIMAL.fullmatch, parts)), f"the matrix {operands}")
        must(all(map(WHOLE.fullmatch, parts[4:])), f"the place {operands}")
        must(self.is_row_whole() and not self.is_text_ended, "a line of no text, or before text begins")
        self.rows.append(Row(tuple(Fraction(part.decode()) for part in parts), []))

    def is_row_whole(self):
        """Whether text is invisible, and the last line has text in its last font."""
        return self.is_invisible and self.font is None and (not self.rows or bool(self.rows[-1].pieces))

    def choose_font(self, operands):
        found = FONT.fullmatch(operands)
        must(found and self.rows and self.font is None and not self.is_text_ended, f"the font {operands}")
        self.font = int(found[1])
        must(not self.rows[-1].pieces or self.rows[-1].pieces[-1][0] != self.font, "a font that is chosen already")

    def show(self, operands):
        found = CODES.fullmatch(operands)
        must(found and self.font is not None, f"the text {operands}")
        self.rows[-1].pieces.append((self.font, bytes.fromhex(found[1].decode())))
        self.font = None

    def end_text(self, operands):
        must(not operands and self.rows and self.is_row_whole() and not self.is_text_ended, "the end of no text")
        self.is_text_ended = True


OPERATORS = {
    b"cm": Content.scale, b"J": Content.line_ends, b"j": Content.line_joins, b"BDC": Content.layer, b"EMC": Content.end_layer,
    b"q": Content.save, b"Q": Content.restore, b"re": Content.clip_rectangle, b"W": Content.clip, b"n": Content.no_paint,
    b"RG": Content.colour, b"rg": Content.filling, b"w": Content.width, b"m": Content.move, b"l": Content.line,
    b"h": Content.close, b"S": Content.stroke, b"B*": Content.fill_by_odd_counts, b"B": Content.fill_by_winding,
    b"BT": Content.begin_text, b"Tr": Content.way_of_text, b"Tm": Content.matrix, b"Tf": Content.choose_font,
    b"Tj": Content.show, b"ET": Content.end_text,
}
