"""What is set in the profile full, by the core's instructions and the further ones.

Each instruction has a method of its name. Percentages and what depends on P1 and P2 are kept as their numbers.
"""

from fractions import Fraction
from typing import NamedTuple

from . import characters, line_types
from .cutting import MILLION, rounded
from .directions import root, unit
from .full_lettering import Style, size_of
from .geometry import turned
from .plotter import USUAL_CHORD, USUAL_WIDTH, Bad, Plotter, listed, whole, within

WIDEST = 12_800
SOLID = None
REMEMBERED_AGAIN = 99
# The length of a pattern and the distance of hatching lines, in ticks.
TICKS_OF_A_GRAIN, MOST_TICKS = 256, 2**40
TICKS_OF_A_MILLIMETRE = 640 * TICKS_OF_A_GRAIN
USUAL_LENGTH = (4 * MILLION, 0)
USUAL_RANGES = ((0, 255),) * 3
USUAL_TICK = (MILLION // 2, MILLION // 2)
ORIGINS = (*range(1, 10), *range(11, 20), 21)
# The standard and the alternate set and font.
STANDARD, ALTERNATE = 0, 1
SET, SPACING, PITCH, HEIGHT, POSTURE, WEIGHT = 1, 2, 3, 4, 5, 6
# How much more an italic font is slanted.
ITALIC_SLANT = 200_000
# Screens of SV that are not drawn.
OTHER_SCREENS = 2, 11, 21, 22
SOLID_FILLS, HATCHING, CROSS_HATCHING, SHADING, PATTERNS = (1, 2), 3, 4, 10, (11, 21, 22)


class Percent(NamedTuple):
    """A width in millionths of a percent of the distance from P1 to P2."""

    number: int


class Direction(NamedTuple):
    run: int
    rise: int
    is_relative: bool  # to the distances from P1 to P2


class Font(NamedTuple):
    """The pitch is in millionths of characters an inch, the height in millionths of a point."""

    is_proportional: bool = False
    pitch: int = 9 * MILLION
    height: int = 11_500_000
    is_italic: bool = False
    is_bold: bool = False

    def size(self):
        """The width and the height of a capital in grains."""
        width = (1980 * self.height, 23 * MILLION) if self.is_proportional else (10_944 * MILLION, self.pitch)
        return rounded(*width), rounded(3456 * self.height, 23 * MILLION)


class FullSettings(Plotter):
    """The settings of a plotter of the profile full; characters is how texts are read, or None if the plot chooses."""

    characters = None

    def IN(self, numbers):
        self.is_percent = False  # how PW is read
        self.ranges = USUAL_RANGES
        super().IN(numbers)
        self.margin = self.place

    def BP(self, numbers):
        """Begin plot."""
        self.IN(numbers)

    def set_defaults(self):
        super().set_defaults()
        self.line_type = self.remembered = SOLID
        self.pattern_length, self.patterns = USUAL_LENGTH, {}
        self.run = None  # the place where the last dashed line ended, and its phase there
        self.is_sized, self.relative_size = False, None
        self.sets, self.fonts, self.selected = [characters.ROMAN_8] * 2, [Font()] * 2, STANDARD
        self.direction = Direction(MILLION, 0, False)
        self.slant, self.space, self.origin, self.path, self.symbol = 0, (0, 0), 1, (0, 0), None
        self.text = b""
        self.tick = USUAL_TICK
        self.fill_type, self.spacing, self.angle, self.level = 1, 0, 0, 50 * MILLION
        self.anchor = (0, 0)
        self.are_chords_usual = False
        self.hides_white, self.screen = False, None

    # Line types

    def LT(self, numbers):
        """The line type and the length of its pattern; without numbers solid."""
        numbers = listed(numbers, 0, 1, 2, 3)
        if not numbers:
            self.remembered = self.remembered if self.line_type is SOLID else self.line_type
            self.line_type = SOLID
        elif rounded(numbers[0], MILLION) == REMEMBERED_AGAIN:
            self.line_type = self.remembered if self.line_type is SOLID else self.line_type
        else:
            line_type = whole(numbers[0], -8, 8)
            if len(numbers) > 1:
                self.pattern_length = (above_0(numbers[1]), whole(numbers[2], 0, 1) if len(numbers) > 2 else 0)
            self.line_type = line_type
        self.run = None

    def UL(self, numbers):
        """The gaps of a pattern; without gaps the fixed ones, and without numbers those of all patterns."""
        numbers = listed(numbers, *range(22))
        if not numbers:
            self.patterns = {}
        else:
            index, gaps = abs(whole(numbers[0], -8, 8)), numbers[1:]
            if index == 0 or gaps and (min(gaps) < 0 or max(gaps) == 0):
                raise Bad
            self.patterns.pop(index, None)
            if gaps:
                self.patterns[index] = gaps
        self.run = None

    def pattern(self):
        usual = line_types.FIXED if self.line_type > 0 else line_types.ADAPTIVE
        return self.patterns.get(abs(self.line_type)) or usual[abs(self.line_type)]

    def ticks_of_the_pattern(self):
        number, is_in_millimetres = self.pattern_length
        ticks = rounded(TICKS_OF_A_MILLIMETRE * number, MILLION) if is_in_millimetres else self.percent(number)
        return min(max(ticks, TICKS_OF_A_GRAIN), MOST_TICKS)

    # Distances from P1 to P2

    def distances(self):
        """From P1 to P2, in plotter units along x and y."""
        return self.p2[0] - self.p1[0], self.p2[1] - self.p1[1]

    def diagonal(self):
        """From P1 to P2, in ticks."""
        d, e = self.distances()
        return root(2**24 * (d * d + e * e))

    def percent(self, number, divisor=1):
        """Millionths of a percent of the diagonal, in ticks or a greater unit."""
        return rounded(self.diagonal() * number, 100 * MILLION * divisor)

    # Widths and colours

    def WU(self, numbers):
        """Whether widths are percentages; all widths are the usual ones."""
        self.is_percent = choice(numbers) == 1
        self.widths = [Percent(MILLION // 10) if self.is_percent else USUAL_WIDTH] * 256

    def PW(self, numbers):
        if not self.is_percent:
            super().PW(numbers)
            return
        numbers = listed(numbers, 0, 1, 2)
        width = Percent(within(numbers[0], 0, 100 * MILLION) if numbers else MILLION // 10)
        if len(numbers) == 2:
            self.widths[whole(numbers[1], 0, 255)] = width
        else:
            self.widths = [width] * 256

    def PT(self, numbers):
        """The width of the pen in millimetres."""
        numbers = listed(numbers, 0, 1) or [300_000]
        self.widths[self.pen] = rounded(640 * within(numbers[0], 0, 20 * MILLION), MILLION)

    def width_that_is_set(self):
        width = self.widths[self.pen]
        return min(WIDEST, self.percent(width.number, TICKS_OF_A_GRAIN)) if isinstance(width, Percent) else width

    def CR(self, numbers):
        """The numbers of black and white for red, green and blue."""
        numbers = [rounded(n, MILLION) for n in listed(numbers, 0, 6)]
        ranges = tuple(zip(numbers[::2], numbers[1::2])) or USUAL_RANGES
        if any(black == white for black, white in ranges):
            raise Bad
        self.ranges = ranges

    def PC(self, numbers):
        numbers = listed(numbers, 0, 1, 4)
        if len(numbers) < 4 or self.ranges == USUAL_RANGES:
            super().PC(numbers)
        else:
            pen, *colour = numbers
            self.colours[whole(pen, 0, 255)] = tuple(map(part_of_colour, colour, self.ranges))

    # P1 and P2

    def IR(self, numbers):
        """P1 and P2 in percent of the rotated page."""
        numbers = [within(n, -1000 * MILLION, 1000 * MILLION) for n in listed(numbers, 0, 2, 4)]
        page = self.page
        sides = (page.width, page.height) if self.rotation % 180 == 0 else (page.height, page.width)
        self.IP([
            MILLION * (rounded(n * sides[i % 2], 100 * MILLION) - (page.left, page.below)[i % 2])
            for i, n in enumerate(numbers)
        ])

    # Letters

    def CS(self, numbers):
        """The standard set."""
        return self.set_by(STANDARD, characters.BY_HP_NUMBER, *(listed(numbers, 0, 1) or [0]))

    def CA(self, numbers):
        """The alternate set."""
        return self.set_by(ALTERNATE, characters.BY_HP_NUMBER, *(listed(numbers, 0, 1) or [0]))

    def set_by(self, which, rows, number):
        """The set of a number; without a row it stays, which is worth a note."""
        name = rows.get(rounded(number, MILLION))
        self.sets[which] = name or self.sets[which]
        return None if name else "skipped"

    def SS(self, _):
        """Selects the standard set and font."""
        self.selected = STANDARD

    def SA(self, _):
        """Selects the alternate set and font."""
        self.selected = ALTERNATE

    def SD(self, numbers):
        """The standard font, by kinds and values."""
        return self.set_font(STANDARD, numbers)

    def AD(self, numbers):
        """The alternate font, by kinds and values."""
        return self.set_font(ALTERNATE, numbers)

    def set_font(self, which, numbers):
        if len(numbers) % 2:
            raise Bad
        pairs = [(rounded(kind, MILLION), value) for kind, value in zip(numbers[::2], numbers[1::2])]
        font = self.fonts[which] if pairs else Font()
        for kind, value in pairs:
            if kind == SPACING:
                font = font._replace(is_proportional=whole(value, 0, 1) == 1)
            elif kind == PITCH:
                font = font._replace(pitch=within(value, MILLION // 10, 1500 * MILLION))
            elif kind == HEIGHT:
                font = font._replace(height=within(value, MILLION // 10, 1500 * MILLION))
            elif kind == POSTURE:
                font = font._replace(is_italic=rounded(value, MILLION) in (1, 2))
            elif kind == WEIGHT:
                font = font._replace(is_bold=3 <= rounded(value, MILLION) <= 7)
        self.fonts[which] = font
        numbers_of_sets = [value for kind, value in pairs if kind == SET] if pairs else [277 * MILLION]
        notes = [self.set_by(which, characters.BY_SYMBOL_SET, number) for number in numbers_of_sets]
        return "skipped" if any(notes) else None

    def signs(self, text):
        """The signs of a text, by what is set."""
        if self.characters == characters.UTF_8:
            return list(characters.signs_of_utf_8(text))
        if self.characters:
            return list(characters.signs(text, [self.characters] * 2, STANDARD))
        return list(characters.signs(text, self.sets, self.selected))

    def SI(self, numbers):
        super().SI(numbers)
        self.is_sized, self.relative_size = numbers != [], None

    def SR(self, numbers):
        """The size of characters in percent of the distances from P1 to P2."""
        numbers = listed(numbers, 0, 2) or [750_000, 1_500_000]
        if 0 in numbers:
            raise Bad
        self.relative_size = tuple(within(n, -1000 * MILLION, 1000 * MILLION) for n in numbers)

    def DI(self, numbers):
        self.set_direction(numbers, False)

    def DR(self, numbers):
        """The direction of labels, in percent of the distances from P1 to P2."""
        self.set_direction(numbers, True)

    def set_direction(self, numbers, is_relative):
        run, rise = listed(numbers, 0, 2) or (MILLION, 0)
        if run == rise == 0:
            raise Bad
        self.direction, self.margin = Direction(run, rise, is_relative), self.place

    def SL(self, numbers):
        """The tangent of the slant."""
        self.slant = within(*(listed(numbers, 0, 1) or [0]), -1000 * MILLION, 1000 * MILLION)

    def ES(self, numbers):
        """Space added to places and to lines."""
        numbers = listed(numbers, 0, 1, 2) + [0, 0]
        self.space = tuple(within(n, -100 * MILLION, 100 * MILLION) for n in numbers[:2])

    def LO(self, numbers):
        """The origin of labels."""
        origin = rounded(*(listed(numbers, 0, 1) or [MILLION]), MILLION)
        if origin not in ORIGINS:
            raise Bad
        self.origin, self.margin = 1 if origin == 21 else origin, self.place

    def DV(self, numbers):
        """The path of labels, and the side of its lines."""
        path, line = (listed(numbers, 0, 1, 2) + [0, 0])[:2]
        self.path, self.margin = (whole(path, 0, 3), whole(line, 0, 1)), self.place

    def SM(self, byte):
        """The symbol that is written at each place of a move."""
        self.symbol = byte

    def BL(self, text):
        """A text for PB."""
        self.text = text

    def style(self):
        """How letters are written now."""
        d, e = self.distances()
        run, rise, is_relative = self.direction
        direction = unit(d * run, e * rise) if is_relative else unit(run, rise)
        font = self.fonts[self.selected]
        size = self.size if self.is_sized else font.size()
        return Style(
            size_of(self.relative_size, d, e) if self.relative_size else size,
            turned(*direction, self.rotation),
            Fraction(self.slant + ITALIC_SLANT * font.is_italic, MILLION),
            tuple(1 + Fraction(n, MILLION) for n in self.space),
            *self.path,
            self.origin,
        )

    def TL(self, numbers):
        """How far ticks reach up and down, in percent of the distances from P1 to P2."""
        up, down = (*(listed(numbers, 0, 1, 2) or USUAL_TICK), 0)[:2]
        self.tick = tuple(within(n, -1000 * MILLION, 1000 * MILLION) for n in (up, down))

    # How strokes show

    def TR(self, numbers):
        """Whether white strokes and areas are not there."""
        self.hides_white = whole(*(listed(numbers, 0, 1) or [MILLION]), 0, 1) == 1

    def SV(self, numbers):
        """How much of a pen's colour strokes have."""
        kind, *rest = listed(numbers, 0, 1, 2) or [0]
        kind = rounded(kind, MILLION)
        if kind not in (0, 1, *OTHER_SCREENS):
            raise Bad
        level = within(*(rest or [50 * MILLION]), 0, 100 * MILLION) if kind == 1 else None
        self.screen = level
        return "skipped" if kind in OTHER_SCREENS else None

    # Fills and chords

    def FT(self, numbers):
        """The type of fills."""
        numbers = listed(numbers, 0, 1, 2, 3) or [MILLION]
        fill_type, rest = rounded(numbers[0], MILLION), numbers[1:]
        if fill_type in (HATCHING, CROSS_HATCHING):
            if rest and rest[0] < 0:
                raise Bad
            self.spacing = rest[0] if rest else self.spacing
            self.angle = rounded(rest[1], 1000) if len(rest) > 1 else self.angle
        elif fill_type == SHADING:
            self.level = within(rest[0], 0, 100 * MILLION) if rest else self.level
        elif fill_type not in SOLID_FILLS + PATTERNS:
            raise Bad
        self.fill_type = fill_type
        return "skipped" if fill_type in PATTERNS else None

    def AC(self, numbers):
        """The place through which a line of hatching goes."""
        numbers = listed(numbers, 0, 2)
        self.anchor = self.in_range(self.place_of(*numbers)) if numbers else (0, 0)

    def CT(self, numbers):
        """Whether all chords are 5 degrees."""
        self.are_chords_usual = choice(numbers) == 1

    def chord(self, numbers):
        return USUAL_CHORD if self.are_chords_usual else super().chord(numbers)


def choice(numbers):
    """A number 0 or 1; without one 0."""
    return whole(*(listed(numbers, 0, 1) or [0]), 0, 1)


def above_0(number):
    if number <= 0:
        raise Bad
    return number


def part_of_colour(number, black_and_white):
    """Red, green or blue from 0 to 255."""
    black, white = black_and_white
    return min(255, max(0, rounded(255 * (number - black * MILLION), (white - black) * MILLION)))
