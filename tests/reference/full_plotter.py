"""From items to shapes and notes, in the profile full: what is drawn, and what polygons take.

Three calls make all strokes: `ink` draws a stroke, `line` draws one in the line type, and `reach` moves the pen. Letters,
symbols, ticks and the dot of a PD are ink; moves, figures, edges and hatching are lines. Areas are solid fills.
"""

from fractions import Fraction
from itertools import chain
from typing import NamedTuple

from . import curves, fills, line_types, messages
from .carousel import EMPTY
from .characters import LINE_FEED, selected_after
from .cutting import MILLION, rounded
from .directions import length, moved
from .full_cutting import items
from .full_lettering import IN_THE_MIDDLE
from .full_settings import (
    CROSS_HATCHING, HATCHING, MOST_TICKS, SHADING, SOLID, TICKS_OF_A_GRAIN, WIDEST, FullSettings,
)
from .geometry import sign, turned, turned_about, turns, whole_page
from .images import Rtl, form_of
from .labels import rows_of
from .plotter import FARTHEST_END, LONGEST_PLOT, MOST_STROKES, USUAL_WIDTH, Bad, Refused, Stroke, listed, whole
from .polygons import Buffer
from .shapes import Area

BAD_IN_POLYGONS = "EA ER LB PB CP UC XT YT EP FP RA RR EW WG".split()
# The number that puts the pen of a character down, or, below 0, up; and how far a point of one may be, in millionths.
PEN_OF_CHARACTERS, FARTHEST_POINT = 99 * MILLION, 2**53
TICKS_OF_A_UNIT = 16 * TICKS_OF_A_GRAIN


def draw(plot, page, carousel=EMPTY, most=MOST_STROKES, characters=None):
    """The shapes of all sheets and the notes of a plot; it is refused if it has more strokes and edges than most."""
    plotter = after(plot, page, carousel, most, characters)
    return plotter.shapes_drawn(), plotter.notes


def after(plot, page, carousel=EMPTY, most=MOST_STROKES, characters=None):
    """The plotter after a plot. The image that is open after its last item closes at its end."""
    if len(plot) > LONGEST_PLOT:
        raise Refused(messages.text("too-long"))
    plotter = FullPlotter(page, carousel, most)
    plotter.characters = characters
    for item in items(plot):
        plotter.obey(item)
        if plotter.has_too_much():
            raise Refused(messages.text("too-many-strokes", item.at))
    plotter.rtl.at = len(plot)
    plotter.rtl.close()
    return plotter


class Dashes(NamedTuple):
    """The strokes of a dashed line."""

    line: Stroke  # from end to end
    long: int
    dashes: object

    def __iter__(self):
        a, b = self.line.a, self.line.b
        for first, last in self.dashes:
            ends = {"a": line_types.point(a, b, first, self.long), "b": line_types.point(a, b, last, self.long)}
            yield self.line._replace(**ends)


class FullPlotter(FullSettings):
    """A plotter of the profile full."""

    farthest = FARTHEST_END

    def __init__(self, page, carousel=EMPTY, most=MOST_STROKES):
        self.most = most  # the most strokes and edges
        self.sheet, self.is_sheet_empty = 1, True
        self.parts = []  # what is drawn: each has shapes
        self.sum = 0  # of strokes, and of what counts as strokes: edges of areas, places that are filled or edged, and texts of PB
        self.labels, self.label = [], None  # the lines of each label that has strokes, and which one is written now
        self.rtl = Rtl(whole_page(page), self.add_image)
        super().__init__(page, carousel)

    def shapes_drawn(self):
        """The shapes of all sheets."""
        return list(chain.from_iterable(self.parts))

    def set_defaults(self):
        super().set_defaults()
        self.is_in_polygon, self.buffer = False, Buffer()

    def obey(self, item):
        self.at = item.at
        if self.is_in_polygon and item.code in BAD_IN_POLYGONS:
            self.note(item.at, "bad", item.code)
            if item.is_open:
                self.note(item.at, "open", item.code)
        elif item.kind in ("byte", "text"):
            getattr(self, item.code)(item.has)
        elif item.kind == "damaged":
            self.draw_in_part(item)
        elif item.kind == "escape":
            self.escape(item.has)
        elif item.kind == "page":
            self.rtl.at = self.at
            self.end_page()
        elif item.kind != "known":
            super().obey(item)

    def draw_in_part(self, item):
        """Does what an instruction asks for by the numbers before a wrong byte."""
        try:
            getattr(self, item.code)(item.has)
        except Bad:
            pass
        self.note(item.at, "bad", item.code)

    def has_too_much(self):
        return max(self.sum, self.buffer.size) > self.most

    # Images

    def escape(self, commands):
        """Does what the commands of an escape ask for, with one note at most."""
        self.rtl.at = self.at
        notes = [self.command(command) for command in commands]
        for kind in ("bad", "skipped"):
            if kind in notes:
                self.note(self.at, kind, "ESC")
                return

    def command(self, command):
        form = form_of(command)
        if form:
            self.rtl.close()
        if form == "reset":
            self.rtl.reset()
        elif form == "A" and command.rounded() == 1:
            self.rtl.place = self.place
        elif form == "B" and command.rounded() == 1:
            self.place = self.margin = self.in_range(self.rtl.place)
            self.recompute()
        elif (command.group, command.letter) == ("&l", "H") and command.rounded() == 0:
            self.end_page()
        elif not form:
            return self.rtl.obey(command)
        return None

    def end_page(self):
        """Ends the sheet between images."""
        self.rtl.close()
        self.PG([])
        self.rtl.place = (0, 0)

    def add_image(self, image):
        self.parts.append([image._replace(sheet=self.sheet, labels=len(self.labels))])
        self.is_sheet_empty = False

    # Ink, lines and reaches

    def ink(self, a, b, width=None):
        """Draws a stroke, by default with the pen's width."""
        if not self.is_hidden(self.ink_colour()):
            self.add(1, [self.stroke(a, b, self.width() if width is None else width, self.ink_colour())])

    def stroke(self, a, b, width, colour):
        return Stroke(self.pen, colour, width, self.window, a, b, self.sheet, self.label, len(self.labels))

    def ink_colour(self):
        """The colour of lines and letters, of which a screen leaves a part."""
        if self.screen is None:
            return self.colour()
        return tuple(255 - rounded((255 - part) * self.screen, 100 * MILLION) for part in self.colour())

    def is_hidden(self, colour):
        """Whether the pen draws nothing in a colour."""
        return not self.pen or self.hides_white and tuple(colour) == (255, 255, 255)

    def add(self, count, shapes):
        """Draws shapes of so many strokes and edges; after too many the plot is refused, and none are needed."""
        if count and self.sum <= self.most:
            self.parts.append(shapes)
            self.is_sheet_empty = False
        self.sum += count

    def line(self, a, b):
        """Draws a line in the line type."""
        long = length(b[0] - a[0], b[1] - a[1])
        if self.line_type == 0:
            self.ink(b, b)
        elif self.line_type is SOLID or long == 0:
            self.ink(a, b)
        else:
            self.dash(a, b, long)

    def dash(self, a, b, long):
        """Draws a line in a pattern, which goes on where the last line ended."""
        pattern, ticks = self.pattern(), self.ticks_of_the_pattern()
        if self.line_type < 0:
            end, dashes = 0, line_types.Adaptive(pattern, ticks, long)
        else:
            phase = self.run[1] % ticks if self.run and self.run[0] == a else 0
            end, dashes = (phase + long) % ticks, line_types.Fixed(pattern, ticks, phase, long)
        if not self.is_hidden(self.ink_colour()):
            self.add(dashes.count(), Dashes(self.stroke(a, b, self.width(), self.ink_colour()), long, dashes))
        self.run = (b, end)

    def reach(self, place):
        """Moves the pen to a place, which draws a line, or is a place of a polygon."""
        if self.is_in_polygon:
            self.buffer.reach(place, self.is_down)
            self.place = place
        else:
            super().reach(place)
        self.margin = self.place

    def reach_all(self, places):
        if self.is_in_polygon and not self.buffer.open:
            self.buffer.begin(self.place)
        super().reach_all(places)

    def dot(self):
        if not self.is_in_polygon:
            super().dot()

    def move(self, x, y):
        super().move(x, y)
        if self.symbol and not self.is_in_polygon:
            style = self.style()._replace(path=0, line=0, origin=IN_THE_MIDDLE)
            self.write_from_the_pen(style, self.signs(bytes([self.symbol])))

    # Labels and ticks

    def write_from_the_pen(self, style, signs):
        width = self.width_of_letters()
        for ends in style.strokes(signs):
            self.ink(*(self.in_range(moved(self.place, end)) for end in ends), width)

    def width_of_letters(self):
        return min(WIDEST, 2 * self.width()) if self.fonts[self.selected].is_bold else self.width()

    def write(self, text):
        """LB: the strokes of each character; the pen ends as the origin says."""
        style, signs = self.style(), self.signs(text)
        self.write_label(style, signs)
        self.margin = moved(self.margin, style.offset(0, signs.count(LINE_FEED)))
        self.place = self.in_range(moved(self.place, style.end(signs)))
        self.recompute()
        self.selected = selected_after(text, self.selected)

    def write_label(self, style, signs):
        """The strokes of a label, which is kept if it has some."""
        before, self.label = len(self.parts), len(self.labels)
        self.write_from_the_pen(style, signs)
        self.label = None
        if len(self.parts) > before:
            self.labels.append(rows_of(style, self.place, signs))

    def PB(self, _):
        """Writes the text that BL has kept."""
        self.sum += len(self.text)
        self.write(self.text)

    def CP(self, numbers):
        """Moves the pen by places and lines; without numbers to the margin, a line on."""
        numbers = listed(numbers, 0, 2)
        style = self.style()
        if numbers:
            columns, up = (Fraction(n, MILLION) for n in numbers)
            self.place = self.in_range(moved(self.place, style.offset(columns, -up)))
            self.margin = moved(self.margin, style.offset(0, -up))
        else:
            self.margin = self.place = self.in_range(moved(self.margin, style.offset(0, 1)))
        self.recompute()

    def UC(self, numbers):
        """A character by the moves of its own pen; then the pen is on as after a letter. Without numbers nothing."""
        if not numbers:
            return None
        style, is_down, point, rest = self.style(), False, (0, 0), list(numbers)
        while rest:
            first = rest.pop(0)
            if abs(first) >= PEN_OF_CHARACTERS:
                is_down = first > 0
            elif rest:
                before, point = point, (point[0] + first, point[1] + rest.pop(0))
                self.move_in_a_character(style, before, point, is_down)
            else:
                rest = None
        self.place = self.in_range(moved(self.place, style.end([ord("A")])))
        self.recompute()
        return "bad" if rest is None else None

    def move_in_a_character(self, style, before, point, is_down):
        if max(map(abs, point)) > FARTHEST_POINT:
            raise Refused(messages.text("off-range", self.at))
        ends = [self.in_range(moved(self.place, style.free_point(*(Fraction(n, MILLION) for n in at)))) for at in (before, point)]
        if is_down:
            self.ink(*ends, self.width_of_letters())

    def XT(self, _):
        """A tick along y."""
        self.mark(*((0, by) for by in self.reaches_of_a_tick(1)))

    def YT(self, _):
        """A tick along x."""
        self.mark(*((by, 0) for by in self.reaches_of_a_tick(0)))

    def reaches_of_a_tick(self, axis):
        """Down and up, in grains."""
        up, down = (rounded(16 * self.distances()[axis] * n, 100 * MILLION) for n in self.tick)
        return -down, up

    def mark(self, *offsets):
        self.ink(*(self.in_range(moved(self.place, turned(*by, self.rotation))) for by in offsets))

    # Polygons and figures

    def PM(self, numbers):
        """Polygon mode: begins, closes a polygon, or ends."""
        mode = whole(*(listed(numbers, 0, 1) or [0]), 0, 2)
        if mode and not self.is_in_polygon:
            raise Bad
        if mode:
            self.buffer.close(self.is_down)
            self.is_in_polygon = mode == 1
        else:
            self.is_in_polygon, self.buffer = True, Buffer()
            self.buffer.begin(self.place)

    def keep(self, places):
        """The buffer is one figure."""
        for place in places:
            self.in_range(place)
        self.buffer = Buffer()
        self.buffer.put(places)
        return places

    def edge(self, x, y):
        self.figure(self.keep(self.rectangle(x, y)))

    def CI(self, numbers):
        places = self.circle(*listed(numbers, 1, 2))
        if self.is_in_polygon:
            for place in places:
                self.in_range(place)
            self.buffer.close(self.is_down)
            self.buffer.put(places)
        else:
            self.figure(places)

    def EW(self, numbers):
        """The edge of a wedge about the pen."""
        self.figure(self.keep(self.wedge(*listed(numbers, 3, 4))))

    def WG(self, numbers):
        """A filled wedge about the pen."""
        self.keep(self.wedge(*listed(numbers, 3, 4)))
        self.FP([])

    def wedge(self, radius, start, sweep, *chord):
        """The places of a wedge; those of a whole turn are without its centre."""
        start, sweep = rounded(start, 1000), rounded(sweep, 1000)
        sweep = sign(sweep) * min(abs(sweep), 360_000)
        centre, right = self.coordinates, self.offset(radius, 0)
        angles = [start, *(start + turn for turn in turns(sweep, self.chord(chord)))]
        places = [self.place_of(*turned_about(centre, right, angle)) for angle in angles]
        return places if abs(sweep) == 360_000 else [self.place, *places, self.place]

    def RA(self, numbers):
        """A filled rectangle, up to a corner."""
        self.keep(self.rectangle(*listed(numbers, 2)))
        self.FP([])

    def RR(self, numbers):
        """A filled rectangle, up to a corner relative to the pen."""
        self.keep(self.rectangle(*self.offset(*listed(numbers, 2))))
        self.FP([])

    def EP(self, _):
        """The edges of the buffer that are drawn."""
        self.sum += self.buffer.size
        for a, b, is_drawn in self.buffer.edges():
            if is_drawn:
                self.line(a, b)

    # Fills

    def FP(self, numbers):
        """Fills the buffer."""
        rule = whole(*(listed(numbers, 0, 1) or [0]), 0, 1)
        self.sum += self.buffer.size
        is_hatched = self.fill_type in (HATCHING, CROSS_HATCHING)
        if self.is_hidden(self.ink_colour() if is_hatched else self.colour()):
            return
        edges = [(a, b) for a, b, _ in self.buffer.edges()]
        if is_hatched:
            angle = self.angle + 1000 * self.rotation
            for more in (0, 90_000)[: 1 if self.fill_type == HATCHING else 2]:
                self.fill(fills.Lines(angle + more, self.distance_of_hatching(), self.anchor), edges, rule, self.line)
        elif self.fill_type == SHADING and self.level < 100 * MILLION:
            if self.level:
                apart = min(MOST_TICKS, rounded(100 * USUAL_WIDTH * TICKS_OF_A_GRAIN * MILLION, self.level))
                self.fill(fills.Lines(45_000, apart, (0, 0)), edges, rule, self.shade)
        else:
            self.add(len(edges), [Area(self.pen, self.colour(), self.window, tuple(edges), rule, self.sheet, len(self.labels))])

    def shade(self, a, b):
        self.add(1, [self.stroke(a, b, USUAL_WIDTH, self.colour())])

    def fill(self, lines, edges, rule, drawn):
        """Draws each span, by a call; one that gives no stroke counts as one."""
        if fills.count_of_crossings(lines, edges) > 2 * self.most:
            # There are at least half as many spans.
            self.sum += self.most + 1
            return
        for a, b in lines.spans(edges, rule):
            before = self.sum
            drawn(a, b)
            self.sum = max(self.sum, before + 1)

    def distance_of_hatching(self):
        """How far lines of hatching are apart, in ticks: no denser than half the pen's width."""
        if self.spacing:
            slope = abs(self.axes[0].slope)
            ticks = rounded(TICKS_OF_A_UNIT * slope.numerator * self.spacing, slope.denominator)
        else:
            ticks = self.percent(MILLION)
        return min(max(ticks, TICKS_OF_A_UNIT, TICKS_OF_A_GRAIN // 2 * self.width()), MOST_TICKS)

    # Curves

    def AT(self, numbers):
        """An arc from the pen through a point to an end."""
        x, y, x2, y2, *chord = listed(numbers, 4, 5)
        self.arc_through((x, y), (x2, y2), chord)

    def RT(self, numbers):
        """The same, with both points relative to the pen."""
        x, y, x2, y2, *chord = listed(numbers, 4, 5)
        self.arc_through(self.offset(x, y), self.offset(x2, y2), chord)

    def arc_through(self, point, end, chord):
        self.chord(chord)
        places = [self.in_range(self.place_of(*at)) for at in (point, end)]
        self.reach_all(curves.arc(self.place, *places))
        self.coordinates = end

    def BZ(self, numbers):
        """Bezier curves."""
        return self.beziers(numbers, lambda x, y: (x, y))

    def BR(self, numbers):
        """Bezier curves, each with its points relative to its beginning."""
        return self.beziers(numbers, self.offset)

    def beziers(self, numbers, point_of):
        count = len(numbers) // 6
        if not count:
            raise Bad
        for at in range(0, 6 * count, 6):
            points = [point_of(*numbers[i : i + 2]) for i in range(at, at + 6, 2)]
            places = [self.in_range(self.place_of(*point)) for point in points]
            self.reach_all(curves.bezier(self.place, *places))
            self.coordinates = points[-1]
        return "bad" if len(numbers) % 6 else None

    # Sheets

    def PG(self, _):
        """Ends a sheet that has a shape."""
        if not self.is_sheet_empty:
            self.sheet, self.is_sheet_empty = self.sheet + 1, True

    AF = AH = NR = FR = PG
