"""From items to strokes and notes: what each instruction does.

docs/INSTRUCTIONS.md, "What is drawn". Each instruction that is followed by numbers has a method of its
name. Coordinates and numbers are in millionths, places on the page in grains.
"""

from fractions import Fraction
from typing import NamedTuple

from . import lettering, messages
from .carousel import EMPTY
from .cutting import MILLION, items, rounded
from .geometry import (
    UNSCALED, anisotropic, chord_ends, isotropic, nearest, on_the_page, on_the_rotated_page, point_factor, turned,
    whole_page, window_of,
)

LONGEST_PLOT = 67_108_864
MOST_STROKES = 4_194_304
FARTHEST = 65_536 * 16  # that a place of the profile core may lie from the page's corner
FARTHEST_END = 8_388_607 * 16  # that an end of a line of any plot may
USUAL_WIDTH = 224
USUAL_SIZE = (1216, 1728)
USUAL_CHORD = 5_000
BLACK = (0, 0, 0)
COLOURS = {
    2: (255, 0, 0), 3: (0, 255, 0), 4: (255, 255, 0), 5: (0, 0, 255), 6: (255, 0, 255), 7: (0, 255, 255),
}


class Stroke(NamedTuple):
    """A line to draw; its width, its window and its ends in grains."""

    pen: int
    colour: tuple
    width: int
    window: tuple
    a: tuple
    b: tuple
    sheet: int = 1
    label: int = None  # the number of the label that it is part of, from 0 on
    labels: int = 0  # how many labels come before it


class Note(NamedTuple):
    """A record that something was skipped, bad, stray, open, or along no axis."""

    at: int
    kind: str
    has: object  # the instruction's letters, or the stray byte


class Refused(Exception):
    """The plot is refused, for this reason, and with this exit status."""

    status = 1


class Bad(Exception):
    """The numbers of an instruction are bad."""


def draw(plot, page, carousel=EMPTY):
    """The strokes and the notes of a plot."""
    if len(plot) > LONGEST_PLOT:
        raise Refused(messages.text("too-long"))
    plotter = Plotter(page, carousel)
    for item in items(plot):
        plotter.obey(item)
        if len(plotter.strokes) > MOST_STROKES:
            raise Refused(messages.text("too-many-strokes", item.at))
    return plotter.strokes, plotter.notes


def listed(numbers, *counts):
    """The numbers of an instruction that takes so many; those past the greatest count are ignored."""
    numbers = numbers[: counts[-1]]
    if len(numbers) not in counts:
        raise Bad
    return numbers


def whole(number, least, most):
    """A number rounded to a whole one, which has a range."""
    return within(rounded(number, MILLION), least, most)


def within(number, least, most):
    if not least <= number <= most:
        raise Bad
    return number


class Plotter:
    """A plotter: what is set, where its pen is, and what it has drawn and noted."""

    farthest = FARTHEST

    def __init__(self, page, carousel=EMPTY):
        self.page, self.carousel, self.strokes, self.notes = page, carousel, [], []
        self.rotation = 0
        self.IN([])

    def obey(self, item):
        """Does what an item asks for, and notes what there is to note."""
        self.at = item.at
        if item.kind == "stray":
            self.note(item.at, "stray", item.has)
        elif item.kind in ("skipped", "bad"):
            self.note(item.at, item.kind, item.code)
        elif item.kind == "label":
            self.write(item.has)
        elif item.kind == "polyline":
            self.follow(item.has)
        elif item.kind == "numbers":
            try:
                worth_a_note = getattr(self, item.code)(item.has)
            except Bad:
                worth_a_note = "bad"
            if worth_a_note:
                self.note(item.at, worth_a_note, item.code)
        if item.is_open:
            self.note(item.at, "open", item.code)

    def note(self, at, kind, has):
        self.notes.append(Note(at, kind, has))

    # Settings

    def IN(self, _):
        """All settings are those at the start, and the pen is up at (0,0)."""
        self.rotation = 0
        self.pen, self.is_down = 1, False
        self.widths = [USUAL_WIDTH] * 256
        self.colours = [COLOURS.get(pen, BLACK) for pen in range(256)]
        self.set_corners_of_the_page()
        self.set_defaults()
        self.coordinates = (0, 0)
        self.place = self.place_of(0, 0)

    def DF(self, _):
        """The defaults that leave rotation, P1, P2, pen, widths and colours as they are."""
        self.set_defaults()
        self.recompute()

    def set_defaults(self):
        self.is_absolute = True
        self.scaling = None
        self.window = whole_page(self.page)
        self.size, self.direction = USUAL_SIZE, 0
        self.set_axes()

    def IP(self, numbers):
        """P1 and P2; with one pair P2 keeps its distance; without any they are corners of the rotated page."""
        numbers = [rounded(n, MILLION) for n in listed(numbers, 0, 2, 4)]
        if not numbers:
            self.set_corners_of_the_page()
        else:
            x, y = numbers[:2]
            x2, y2 = numbers[2:] or (x + self.p2[0] - self.p1[0], y + self.p2[1] - self.p1[1])
            self.p1, self.p2 = (x, y), (x2 + (x2 == x), y2 + (y2 == y))
        self.recompute()

    def set_corners_of_the_page(self):
        page = self.page
        width, height = (page.width, page.height) if self.rotation % 180 == 0 else (page.height, page.width)
        self.p1, self.p2 = (-page.left, -page.below), (width - page.left, height - page.below)

    def SC(self, numbers):
        """Scaling, of three types; without numbers it is off."""
        if numbers:
            numbers = listed(numbers, 4, 5, 6, 7)
            x, x2, y, y2 = numbers[:4]
            kind = whole(numbers[4], 0, 2) if len(numbers) > 4 else 0
            if kind == 2 and (x2 == 0 or y2 == 0) or kind != 2 and (x == x2 or y == y2):
                raise Bad
            percents = (numbers[5:] + [50 * MILLION] * 2)[:2]
            if kind == 1:
                percents = [within(percent, 0, 100 * MILLION) for percent in percents]
            self.scaling = (kind, x, x2, y, y2, percents)
        else:
            self.scaling = None
        self.recompute()

    def set_axes(self):
        """The axes of P1, P2 and the scaling."""
        if self.scaling is None:
            self.axes = (UNSCALED, UNSCALED)
            return
        kind, x, x2, y, y2, percents = self.scaling
        (left, bottom), (right, top) = self.p1, self.p2
        if kind == 0:
            self.axes = (anisotropic(left, right, x, x2), anisotropic(bottom, top, y, y2))
        elif kind == 1:
            size = min(Fraction(abs(right - left), abs(x2 - x)), Fraction(abs(top - bottom), abs(y2 - y)))
            self.axes = (
                isotropic(left, right, x, x2, size, percents[0]),
                isotropic(bottom, top, y, y2, size, percents[1]),
            )
        else:
            self.axes = (point_factor(left, x, x2), point_factor(bottom, y, y2))

    def RO(self, numbers):
        """The rotation of the coordinate system."""
        numbers = listed(numbers, 0, 1)
        degrees = rounded(numbers[0], MILLION) if numbers else 0
        if degrees not in (0, 90, 180, 270):
            raise Bad
        self.rotation = degrees
        self.recompute()

    def IW(self, numbers):
        """The window, by two corners; without numbers the page."""
        numbers = listed(numbers, 0, 4)
        if numbers:
            self.window = window_of(self.page, self.place_of(*numbers[:2]), self.place_of(*numbers[2:]))
        else:
            self.window = whole_page(self.page)

    def SP(self, numbers):
        """The pen; without a number pen 0, which draws nothing."""
        numbers = listed(numbers, 0, 1)
        self.pen = whole(numbers[0], 0, 255) if numbers else 0

    def PW(self, numbers):
        """The width in millimetres of one pen, or of all."""
        numbers = listed(numbers, 0, 1, 2)
        width = rounded(640 * within(numbers[0], 0, 20 * MILLION), MILLION) if numbers else USUAL_WIDTH
        if len(numbers) == 2:
            self.widths[whole(numbers[1], 0, 255)] = width
        else:
            self.widths = [width] * 256

    def PC(self, numbers):
        """The colour of one pen; without a colour its default, without a pen the defaults of all."""
        numbers = [whole(n, 0, 255) for n in listed(numbers, 0, 1, 4)]
        if not numbers:
            self.colours = [COLOURS.get(pen, BLACK) for pen in range(256)]
        else:
            pen, *colour = numbers
            self.colours[pen] = tuple(colour) or COLOURS.get(pen, BLACK)

    def SI(self, numbers):
        """The size of characters in centimetres, kept in grains."""
        width, height = listed(numbers, 0, 2) or (None, None)
        if width is None:
            self.size = USUAL_SIZE
            return
        for length in (width, height):
            if length == 0:
                raise Bad
            within(length, -40 * MILLION, 40 * MILLION)
        self.size = (rounded(6400 * width, MILLION), rounded(6400 * height, MILLION))

    def DI(self, numbers):
        """The direction of labels: the nearest axis, the run's if both are as near."""
        run, rise = listed(numbers, 0, 2) or (MILLION, 0)
        if run == rise == 0:
            raise Bad
        if abs(run) >= abs(rise):
            self.direction = 0 if run > 0 else 180
        else:
            self.direction = 90 if rise > 0 else 270
        return "axis" if run and rise else None

    # Places

    def place_of(self, x, y):
        """The place of coordinates: rounded once to grains, and then turned."""
        page = self.page
        across = nearest(16 * (self.axes[0].units(x) + page.left))
        up = nearest(16 * (self.axes[1].units(y) + page.below))
        return on_the_page(page, across, up, self.rotation)

    def recompute(self):
        """Recomputes the pen's coordinates from its place, by the frame as it is now."""
        self.set_axes()
        page = self.page
        across, up = on_the_rotated_page(page, self.place, self.rotation)
        self.coordinates = (
            self.axes[0].coordinate(Fraction(across, 16) - page.left),
            self.axes[1].coordinate(Fraction(up, 16) - page.below),
        )

    def in_range(self, place):
        if max(abs(place[0]), abs(place[1])) > self.farthest:
            raise Refused(messages.text("off-range", self.at))
        return place

    def ink(self, a, b):
        """Draws a stroke, if the pen is not pen 0; one more than may be is enough."""
        if self.pen and len(self.strokes) <= MOST_STROKES:
            self.strokes.append(Stroke(self.pen, self.colour(), self.width(), self.window, a, b))

    def colour(self):
        """The colour that the pen draws in."""
        return self.carousel.colours.get(self.pen, self.colours[self.pen])

    def width(self):
        """The width that the pen draws in, in grains."""
        by_option = self.carousel.widths.get(self.pen)
        return self.width_that_is_set() if by_option is None else by_option

    def width_that_is_set(self):
        """The width that the plot has set for the pen, in grains."""
        return self.widths[self.pen]

    def line(self, a, b):
        """Draws a line from place to place, which is one stroke."""
        self.ink(a, b)

    def figure(self, places):
        """Draws lines from place to place; all places must be in range."""
        for place in places:
            self.in_range(place)
        for a, b in zip(places, places[1:]):
            self.line(a, b)

    # Moves

    def reach(self, place):
        """Moves the pen to a place, and draws if it is down."""
        if self.is_down:
            self.line(self.place, place)
        self.place = place

    def move(self, x, y):
        """Moves the pen to coordinates."""
        self.reach(self.in_range(self.place_of(x, y)))
        self.coordinates = (x, y)

    def offset(self, x, y):
        """Coordinates, given relative to the pen's."""
        return self.coordinates[0] + x, self.coordinates[1] + y

    def moves(self, numbers):
        """Moves by pairs; a last coordinate without its partner is dropped and noted."""
        for x, y in zip(numbers[::2], numbers[1::2]):
            self.move(*(x, y) if self.is_absolute else self.offset(x, y))
        return "bad" if len(numbers) % 2 else None

    def PU(self, numbers):
        """The pen goes up."""
        self.is_down = False
        return self.moves(numbers)

    def PD(self, numbers):
        """The pen goes down; if it was up and does not move, it draws a dot."""
        if not self.is_down and len(numbers) < 2:
            self.dot()
        self.is_down = True
        return self.moves(numbers)

    def dot(self):
        self.ink(self.place, self.place)

    def PA(self, numbers):
        """Coordinates are absolute."""
        self.is_absolute = True
        return self.moves(numbers)

    def PR(self, numbers):
        """Coordinates are relative."""
        self.is_absolute = False
        return self.moves(numbers)

    def follow(self, entries):
        """PE: the pen goes down or up for each pair, and stays so."""
        for entry in entries:
            if entry.kind == "pen":
                self.pen = entry.has
            elif entry.kind == "pair":
                pair = entry.has
                self.is_down = not pair.is_up
                self.move(*(pair.x, pair.y) if pair.is_absolute else self.offset(pair.x, pair.y))
            else:
                self.note(entry.at, entry.kind, "PE" if entry.kind == "bad" else entry.has)

    # Figures

    def EA(self, numbers):
        """The edge of a rectangle, up to a corner."""
        self.edge(*listed(numbers, 2))

    def ER(self, numbers):
        """The edge of a rectangle, up to a corner relative to the pen."""
        self.edge(*self.offset(*listed(numbers, 2)))

    def edge(self, x, y):
        self.figure(self.rectangle(x, y))

    def rectangle(self, x, y):
        """The places of a rectangle, from the pen round to the pen."""
        own_x, own_y = self.coordinates
        corners = [self.place_of(x, own_y), self.place_of(x, y), self.place_of(own_x, y)]
        return [self.place, *corners, self.place]

    def CI(self, numbers):
        """A circle about the pen, from the point on its right on."""
        self.figure(self.circle(*listed(numbers, 1, 2)))

    def circle(self, radius, *chord):
        start = self.offset(radius, 0)
        ends = chord_ends(self.coordinates, start, 360_000, self.chord(chord))
        return [self.place_of(*point) for point in (start, *ends)]

    def chord(self, numbers):
        """The angle of a chord in thousandths of a degree; 5 degrees if none is given."""
        return within(rounded(numbers[0], 1000), 500, 180_000) if numbers else USUAL_CHORD

    def AA(self, numbers):
        """An arc about a centre, from the pen on."""
        x, y, *rest = listed(numbers, 3, 4)
        self.arc((x, y), rest)

    def AR(self, numbers):
        """An arc about a centre relative to the pen."""
        x, y, *rest = listed(numbers, 3, 4)
        self.arc(self.offset(x, y), rest)

    def arc(self, centre, numbers):
        sweep, *rest = numbers
        sweep = within(rounded(sweep, 1000), -360_000, 360_000)
        ends = list(chord_ends(centre, self.coordinates, sweep, self.chord(rest)))
        self.reach_all([self.place_of(*point) for point in ends])
        self.coordinates = ends[-1]

    def reach_all(self, places):
        """Moves the pen along a curve; all places must be in range."""
        for place in places:
            self.in_range(place)
        for place in places:
            self.reach(place)

    # Labels

    def write(self, text):
        """LB: the strokes of each character; the pen ends where the next one would begin."""
        column = line = 0
        for byte in text:
            if byte == 13:
                column = 0
            elif byte == 10:
                line += 1
            elif 32 <= byte <= 126:
                # Grid points are a quarter of the width and a sixth of the height apart; a small
                # letter has two thirds of this.
                part = 2 if chr(byte).islower() else 3
                for ends in lettering.strokes(byte):
                    self.ink(*(self.in_range(self.spot(column, line, part * i, part * j)) for i, j in ends))
                column += 1
        self.place = self.in_range(self.spot(column, line, 0, 0))
        self.recompute()

    def spot(self, column, line, i, j):
        """The place of a point, i twelfths of the width and j eighteenths of the height from a character's start."""
        dx = rounded((18 * column + i) * self.size[0], 12)
        dy = rounded((j - 36 * line) * self.size[1], 18)
        dx, dy = turned(dx, dy, self.direction + self.rotation)
        return self.place[0] + dx, self.place[1] + dy
