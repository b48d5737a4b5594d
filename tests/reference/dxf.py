"""DXF documents of R12: what one has of a plot's lines, areas and labels.

docs/FORMATS.md, "dxf". Places are in parts, ten-millionths of a millimetre, of which a grain has 15,625.
"""

import math
from fractions import Fraction
from itertools import groupby
from typing import NamedTuple

from .cutting import rounded
from .dxf_colours import number_of
from .labels import REPLACEMENT
from .vectors import LEAST_WIDTH, Line, holds_a_place

GRAIN = 15_625
WHOLE_TURN = 3_600_000
MOST_OBLIQUE = 850_000
WITH_ESCAPES = "%\\^"


class Layer(NamedTuple):
    """A layer: its sheet, or None if a sheet is by itself, its pen, and the number of its colour."""

    sheet: int
    pen: int
    colour: int


class Drawn(NamedTuple):
    """Lines from place to place, which lead back if they are closed. One place is a point, and two are a line, which have no
    width."""

    layer: Layer
    colour: int
    width: int
    is_closed: bool
    places: tuple


class Written(NamedTuple):
    """A line of a label: where it starts, its height, its angles in ten-thousandths of a degree, how wide its letters are for
    their height in ten-thousandths, and where it ends, or None if it runs nowhere."""

    layer: Layer
    colour: int
    text: str
    start: tuple
    height: int
    rotation: int
    factor: int
    oblique: int
    is_mirrored: bool
    end: tuple


class Dxf(NamedTuple):
    """A document: the sides of its page in plotter units, its layers, and what is in them, in order."""

    width: int
    height: int
    layers: list
    entities: list

    def of_sheet(self, sheet=None):
        """What is on a sheet, which is numbered in a document of several."""
        return [it for it in self.entities if it.layer.sheet == sheet]

    def texts(self, sheet=None):
        return [it.text for it in self.of_sheet(sheet) if isinstance(it, Written)]

    def without_texts(self):
        return self._replace(entities=[it for it in self.entities if isinstance(it, Drawn)])


def drawing_of(page, sheets, labels, are_numbered):
    """The document of sheets of shapes on a page, and of the lines of all labels, or of None, if labels are drawn as strokes."""
    layers, entities = [], []
    for number, shapes in enumerate(sheets, 1):
        shown = [shape for shape in shapes if holds_a_place(shape.window)]
        own = layers_of(number if are_numbered else None, shown)
        layers += own.values()
        entities += drawn(shown, page, own) if labels is None else entities_of(parts_of(shown, labels), page, own)
    return Dxf(page.width, page.height, layers, entities)


def parts_of(shapes, labels):
    """The shapes between labels, and those of a label with its lines of text."""
    several = groupby(shapes, lambda it: (it.labels, it.label))
    return [(list(own), [] if label is None else labels[label]) for (_, label), own in several]


def layers_of(sheet, shapes):
    """The layer of each pen of a sheet, which has the colour of its first line or area."""
    colours = {}
    for shape in shapes:
        colours.setdefault(shape.pen, number_of(shape.colour))
    return {pen: Layer(sheet, pen, colours[pen]) for pen in sorted(colours)}


def entities_of(parts, page, layers):
    """What a sheet has of its parts: lines and areas between labels, or those of a label with its lines of text, which come
    instead."""
    found = []
    for shapes, rows in parts:
        pen, colour = shapes[0][:2]
        found += [written(layers[pen], number_of(colour), row) for row in rows] or drawn(shapes, page, layers)
    return found


# ---- lines and areas


def drawn(shapes, page, layers):
    found = []
    for are_areas, several in groupby(shapes, lambda it: hasattr(it, "edges")):
        for area in several if are_areas else []:
            found += outlines_of(area, page, layers)
        found += [] if are_areas else chains_of(several, page, layers)
    return found


def outlines_of(area, page, layers):
    """An area: its polygons, closed, if all of it is in its window; if not, what is there of its edges."""
    if not all(is_in(end, window_of(area, page)) for edge in area.edges for end in edge):
        edges = [Line(area.pen, area.colour, LEAST_WIDTH, area.window, *edge) for edge in area.edges]
        return chains_of(edges, page, layers)
    polygons = []
    for a, b in area.edges:
        if not polygons or polygons[-1][-1] != a:
            polygons.append([a])
        polygons[-1].append(b)
    look = layers[area.pen], number_of(area.colour), LEAST_WIDTH
    return [closed(*look, list(map(in_parts, places))) for places in polygons]


def closed(layer, colour, width, places):
    """Edges of which each begins where the last one ends; the last one may lead back."""
    if len(places) == 2:
        return chain_of(layer, colour, width, places)
    places = places[:-1] if places[0] == places[-1] else places
    return Drawn(layer, colour, GRAIN * width, True, tuple(places))


def chains_of(lines, page, layers):
    """What lines show in their windows: those that are drawn alike and follow one another are one."""
    chains = []
    for line in lines:
        part, how = part_in(line, window_of(line, page)), (line.pen, line.colour, line.width)
        if part is None:
            continue
        if chains and chains[-1][0] == how and chains[-1][1][-1] == part[0]:
            chains[-1][1].append(part[1])
        else:
            chains.append((how, list(part)))
    return [chain_of(layers[pen], number_of(colour), width, places) for (pen, colour, width), places in chains]


def chain_of(layer, colour, width, places):
    """Several lines, or one, which has no width and may be a point."""
    if len(places) == 2:
        width, places = 0, places[:1] if places[0] == places[1] else places
    return Drawn(layer, colour, GRAIN * width, False, tuple(places))


def window_of(shape, page):
    return (0, 0, 16 * page.width, 16 * page.height) if shape.window is None else shape.window


def is_in(place, window):
    left, bottom, right, top = window
    return left <= place[0] <= right and bottom <= place[1] <= top


def part_in(line, window):
    """The ends of the part of a line in a window, whose edges belong to it, to the nearest part; None if there is no part."""
    along = [b - a for a, b in zip(line.a, line.b)]
    least, most = Fraction(0), Fraction(1)
    for low, high, a, by in zip(window[:2], window[2:], line.a, along):
        if by == 0 and not low <= a <= high:
            return None
        if by:
            near, far = sorted((Fraction(low - a, by), Fraction(high - a, by)))
            least, most = max(least, near), min(most, far)
    if least > most:
        return None
    return tuple(tuple(nearest(GRAIN * (a + times * by)) for a, by in zip(line.a, along)) for times in (least, most))


def nearest(fraction):
    return rounded(fraction.numerator, fraction.denominator)


def in_parts(place):
    return tuple(GRAIN * number for number in place)


# ---- labels


def written(layer, colour, row):
    """A line of a label as a text, by how far it runs and where the place above its start is. Lengths are cut off to parts."""
    along, above = (tuple(n - m for n, m in zip(place, row.start)) for place in (row.end, row.top))
    cross, dot = along[0] * above[1] - along[1] * above[0], along[0] * above[0] + along[1] * above[1]
    if cross:
        height = math.isqrt((GRAIN * cross) ** 2 // sum(n * n for n in along)) or GRAIN
        rotation, oblique = degrees_of(*along) % WHOLE_TURN, degrees_of(abs(cross), dot)
    else:
        height, oblique = length_of(above) or GRAIN, 0
        rotation = (degrees_of(*above) - WHOLE_TURN // 4) % WHOLE_TURN if any(above) else 0
    factor = max(1, 10_000 * length_of(along) // (len(row.codes) * height))
    oblique = max(-MOST_OBLIQUE, min(MOST_OBLIQUE, oblique))
    text = "".join(map(spelled, row.codes))
    end = in_parts(row.end) if cross else None
    return Written(layer, colour, text, in_parts(row.start), height, rotation, factor, oblique, cross < 0, end)


def length_of(offset):
    return math.isqrt(GRAIN * GRAIN * sum(number * number for number in offset))


def degrees_of(x, y):
    """The direction of an offset in ten-thousandths of a degree."""
    return round(10_000 * math.degrees(math.atan2(y, x)))


def spelled(code):
    """A code point in a text: ASCII is written as it is, but for three characters, and all others have an escape."""
    if 32 <= code <= 126 and chr(code) not in WITH_ESCAPES:
        return chr(code)
    is_none = code < 32 or 127 <= code < 160 or 0xD800 <= code < 0xE000 or code >= 0xFFFE
    return "\\U+%04X" % (REPLACEMENT if is_none else code)
