"""Images within a plot of the profile full, by HP RTL: what commands of escapes do, and the images that they make.

Places are in grains. A row of an image runs along y, and the next row lies in the direction of x, as on a plotter.
"""

import re
from typing import NamedTuple

from . import messages
from .cutting import MILLION, rounded
from .escapes import Command
from .image_rows import plane_of
from .plotter import FARTHEST_END, Bad, Refused, within

INCH = 16 * 1016
FORMS_OF_MODES = re.compile(rb"\x1b(?:E|%(-?)([0-9]*)([A-Za-z@]))")
MOST_WIDTH = 1_048_576
MOST_BITS = 2**31
BLACK, WHITE = (0, 0, 0), (255, 255, 255)
CORNERS = [tuple(255 * (n >> bit & 1) for bit in range(3)) for n in range(8)]
COMPRESSIONS = (0, 1, 2, 3, 9)
# Groups and commands that have no effect on a plot.
WITHOUT_EFFECT = ("", "*l", "*o", "*t", "%")
ENDS_OF_IMAGES = [("*r", "B"), ("*r", "C"), ("*p", "X"), ("*p", "Y"), ("&a", "H"), ("&a", "V")]


class Coding(NamedTuple):
    """How dots are coded: by planes of bits or by pixels, and the colours of their numbers."""

    planes: int  # how many planes a row has
    bits: int  # how many bits a dot has in a plane
    is_direct: bool  # whether three bytes of a dot are its colour
    is_cmy: bool
    palette: tuple

    def bytes_for(self, width):
        return -(-width * self.bits // 8)

    def dots_in(self, count):
        """How many dots so many bytes of a plane have."""
        return count // 3 if self.is_direct else 8 * count // self.bits

    def colour(self, planes, dot):
        """The colour of a dot, by the planes of its row."""
        if self.is_direct:
            parts = planes[0][3 * dot : 3 * dot + 3].ljust(3, b"\0")
            return tuple(255 - part if self.is_cmy else part for part in parts)
        return self.palette[sum(bits_at(plane, dot, self.bits) << number for number, plane in enumerate(planes))]


def bits_at(plane, dot, bits):
    """The bits of a dot; they begin at the highest bit of a byte."""
    at = dot * bits // 8
    return plane[at] >> (8 - bits - dot * bits % 8) & ((1 << bits) - 1) if at < len(plane) else 0


def by_planes(number):
    """The coding that *r..U chooses."""
    if number in (1, -1):
        return Coding(1, 1, False, False, (WHITE, BLACK))
    if number == 3:
        return Coding(3, 1, False, False, tuple(CORNERS))
    if number == -3:
        return Coding(3, 1, False, True, tuple(map(complement, CORNERS)))
    if number == -4:
        # The first plane is black, whatever the others have.
        return Coding(4, 1, False, True, tuple(BLACK if n & 1 else complement(CORNERS[n >> 1]) for n in range(16)))
    raise Bad


def complement(colour):
    return tuple(255 - part for part in colour)


def configured(data):
    """The coding that *v..W chooses by its bytes, and of how many bits each part of a palette's colour is."""
    if len(data) < 6:
        raise Bad
    space, encoding, bits, *parts = data[:6]
    is_cmy = within(space, 0, 1) == 1
    if not all(1 <= part <= 8 for part in parts):
        raise Bad
    if encoding == 0 and 1 <= bits <= 8:
        coding = Coding(bits, 1, False, is_cmy, first_palette(bits, is_cmy))
    elif encoding == 1 and bits in (1, 2, 4, 8):
        coding = Coding(1, bits, False, is_cmy, first_palette(bits, is_cmy))
    elif encoding == 2 and parts == [1, 1, 1]:
        coding = by_planes(-3 if is_cmy else 3)
    elif encoding == 3 and parts == [8, 8, 8]:
        coding = Coding(1, 24, True, is_cmy, ())
    else:
        raise Bad
    return coding, tuple(parts) if encoding < 2 else None


def first_palette(bits, is_cmy):
    if bits == 1:
        return WHITE, BLACK
    if bits == 2:
        return (WHITE, (0, 255, 255), (255, 0, 255), BLACK) if is_cmy else (BLACK, (255, 0, 0), (0, 255, 0), WHITE)
    corners = [complement(it) for it in CORNERS] if is_cmy else CORNERS
    return tuple(corners[n] if n < 8 else BLACK for n in range(2**bits))


class Image(NamedTuple):
    """Rows of dots: each its planes, or None if it was passed over. Its window is the page."""

    corner: tuple
    per_inch: int
    width: int
    coding: Coding
    rows: tuple
    is_opaque: bool
    window: tuple
    sheet: int = 1
    labels: int = 0
    across: tuple = (1, 0)  # where the next row lies
    along: tuple = (0, 1)  # where the next dot of a row lies

    pen, label, colour = 0, None, None

    def dot_at(self, x, y, dots):
        """The dot at a place, in grains times a resolution, as it is shown; None if there is none."""
        by = x - self.corner[0] * dots, y - self.corner[1] * dots
        row, dot = ((by[0] * way[0] + by[1] * way[1]) * self.per_inch // (INCH * dots) for way in (self.across, self.along))
        if not (0 <= row < len(self.rows) and 0 <= dot < self.width) or self.rows[row] is None:
            return None
        colour = self.coding.colour(self.rows[row], dot)
        return Dot(0, colour) if self.is_opaque or colour != WHITE else None

    def dots_shown(self):
        """The dots that are shown, row by row, each with its row, its place in the row, and its colour."""
        for number, row in enumerate(self.rows):
            for dot in range(self.width if row is not None else 0):
                colour = self.coding.colour(row, dot)
                if self.is_opaque or colour != WHITE:
                    yield number, dot, tuple(colour)

    def far_corner(self):
        """The corner after the last dot, rounded outwards."""
        far, wide = (-(-count * INCH // self.per_inch) for count in (len(self.rows), self.width))
        return tuple(at + far * a + wide * b for at, a, b in zip(self.corner, self.across, self.along))

    def placed(self, place_of, window):
        """The image where a function puts its places, in a window."""
        corner = place_of(self.corner)
        ways = [place_of(tuple(map(sum, zip(self.corner, way)))) for way in (self.across, self.along)]
        across, along = (tuple(end - at for end, at in zip(way, corner)) for way in ways)
        return self._replace(corner=corner, across=across, along=along, window=window)


class Dot(NamedTuple):
    """A dot of an image as it is shown."""

    pen: int
    colour: tuple


class Open:
    """An image that is open: where it begins, and what has come so far."""

    def __init__(self, corner):
        self.corner, self.rows, self.planes = corner, [], []
        self.settings = None  # those of the whole image, from its first data on
        self.sent = 0  # how many rows there are up to the last one that was sent


class Rtl:
    """The place, the settings and the open image of HP RTL, and the images that are closed."""

    def __init__(self, window, add):
        self.window, self.add = window, add
        self.bits = 0  # how many bits all planes have
        self.open = None
        self.place = (0, 0)
        self.at = 0  # which item of the plot is obeyed
        self.reset()

    def reset(self):
        self.close()
        self.place, self.unit = (0, 0), 300
        self.per_inch, self.width, self.height = 300, None, None
        self.coding, self.parts_of, self.parts = by_planes(1), None, [0, 0, 0]
        self.is_opaque, self.compression, self.seeds = False, 0, []

    def obey(self, command):
        """Does what a command asks for; answers by which note it is told, or None."""
        key = command.group, command.letter
        if key in ENDS_OF_IMAGES:
            self.close()
        call = COMMANDS.get(key)
        if call:
            try:
                return call(self, command)
            except Bad:
                return "bad"
        if command.group[:1] in ("&", "(", ")") or command.group in WITHOUT_EFFECT or key in SILENT:
            return None
        return "skipped"

    def is_set(self):
        """Whether the settings of the open image are fixed."""
        return self.open is not None and self.open.settings is not None

    # Places

    def along(self, command):
        self.move(1, command, self.unit)

    def across(self, command):
        self.move(0, command, self.unit)

    def along_in_720ths(self, command):
        self.move(1, command, 720)

    def across_in_720ths(self, command):
        self.move(0, command, 720)

    def move(self, axis, command, unit):
        by = rounded(INCH * command.value, unit * MILLION)
        place = list(self.place)
        place[axis] = by + (place[axis] if command.sign else 0)
        self.place = self.near(tuple(place))

    def near(self, place):
        if max(map(abs, place)) > FARTHEST_END:
            raise Refused(messages.text("off-range", self.at))
        return place

    def set_unit(self, command):
        self.unit = within(command.rounded(), 10, 9600)

    # Settings

    def set_resolution(self, command):
        if not self.is_set():
            self.per_inch = within(command.rounded(), 10, 2400)

    def set_width(self, command):
        if not self.is_set():
            self.width = min(max(0, command.rounded()), MOST_WIDTH) or None

    def set_height(self, command):
        if not self.is_set():
            self.height = max(0, command.rounded()) or None

    def set_planes(self, command):
        if not self.is_set():
            self.coding, self.parts_of = by_planes(command.rounded()), None

    def configure(self, command):
        if not self.is_set():
            self.coding, self.parts_of = configured(command.data)

    def set_transparency(self, command):
        if not self.is_set():
            self.is_opaque = within(command.rounded(), 0, 1) == 1

    def set_part(self, command):
        self.parts["ABC".index(command.letter)] = command.rounded()

    def set_entry(self, command):
        """An entry of a palette that may be changed, by parts of so many bits."""
        number, parts, self.parts = command.rounded(), self.parts, [0, 0, 0]
        if not 0 <= number < len(self.coding.palette):
            raise Bad
        if self.parts_of is None:
            return
        channels = [min(255, max(0, rounded(255 * part, 2**bits - 1))) for part, bits in zip(parts, self.parts_of)]
        colour = tuple(255 - it if self.coding.is_cmy else it for it in channels)
        palette = list(self.coding.palette)
        palette[number] = colour
        self.coding = self.coding._replace(palette=tuple(palette))

    def set_compression(self, command):
        self.compression = command.rounded()
        return None if self.compression in COMPRESSIONS else "skipped"

    # Images

    def start(self, command):
        if self.open:
            return
        at = within(command.rounded(), 0, 3)
        self.open = Open(self.place if at % 2 else (self.place[0], 0))
        self.seeds = []

    def end(self, command):
        if command.letter == "C":
            self.compression = 0

    def close(self):
        """Closes the image that is open; the place is then where its next row would begin."""
        image, self.open = self.open, None
        if image is None:
            return
        settings = image.settings or self.fixed()
        self.place = self.near(self.row_begin(image.corner, len(image.rows), settings))
        whole = self.image_of(image, settings)
        if whole:
            self.add(whole)

    def fixed(self):
        return Settings(self.per_inch, self.width, self.height, self.coding, self.is_opaque)

    def row_begin(self, corner, rows, settings):
        return corner[0] + rounded(INCH * rows, settings.per_inch), corner[1]

    def plane(self, command):
        self.begin()
        return self.put(command.data)

    def row(self, command):
        """The last plane of a row; those that are missing count as sent with no bytes."""
        self.begin()
        worth_a_note = self.put(command.data)
        image = self.open
        for _ in range(len(image.planes), image.settings.coding.planes):
            worth_a_note = self.put(b"") or worth_a_note
        self.end_row(None if self.compression not in COMPRESSIONS else tuple(image.planes))
        return worth_a_note

    def begin(self):
        if not self.open:
            self.open, self.seeds = Open((self.place[0], 0)), []
        if not self.open.settings:
            self.open.settings = self.fixed()

    def put(self, data):
        """A plane of the row; planes too many are dropped."""
        image, settings = self.open, self.open.settings
        number = len(image.planes)
        if number == settings.coding.planes or self.compression not in COMPRESSIONS or self.is_past():
            return None
        width = None if settings.width is None else settings.coding.bytes_for(settings.width)
        seed = self.seeds[number] if number < len(self.seeds) else b""
        plane, is_broken = plane_of(self.compression, data, seed, width)
        image.planes.append(plane)
        self.bits += 8 * len(plane)
        if self.bits > MOST_BITS:
            raise Refused(messages.text("too-many-strokes", self.at))
        self.seeds[number : number + 1] = [plane]
        return "bad" if is_broken else None

    def is_past(self):
        """Whether the row lies past the height."""
        return self.open.settings.height is not None and len(self.open.rows) >= self.open.settings.height

    def end_row(self, planes):
        image = self.open
        image.planes = []
        if planes is None:
            self.seeds = []
        if self.is_past():
            return
        image.rows.append(planes)
        if planes is not None:
            image.sent = len(image.rows)
        self.near_image()

    def near_image(self):
        """Refuses an image whose far corner is too far away."""
        image = self.image_of(self.open, self.open.settings)
        if image:
            self.near(image.far_corner())

    def image_of(self, image, settings):
        """An image as far as it is, or None if it has no row."""
        rows = image.rows[: image.sent]
        longest = max((len(plane) for row in rows if row for plane in row), default=0)
        width = settings.width or settings.coding.dots_in(longest)
        if not rows:
            return None
        return Image(image.corner, settings.per_inch, width, settings.coding, tuple(rows), settings.is_opaque, self.window)

    def move_rows(self, command):
        """Moves on by rows without dots; the seeds are empty then."""
        count = max(0, command.rounded())
        self.seeds = []
        if self.open:
            settings = self.open.settings or self.fixed()
            left = count if settings.height is None else max(0, min(count, settings.height - len(self.open.rows)))
            self.near(self.row_begin(self.open.corner, len(self.open.rows) + left, settings))
            self.open.rows += [None] * left
            self.open.planes = []


class Settings(NamedTuple):
    """The settings of a whole image."""

    per_inch: int
    width: int
    height: int
    coding: Coding
    is_opaque: bool


# Settings of images that are passed over.
SILENT = [("*r", "F"), ("*r", "L"), ("*r", "Q")]
COMMANDS = {
    ("*p", "X"): Rtl.along, ("*p", "Y"): Rtl.across, ("&a", "H"): Rtl.along_in_720ths, ("&a", "V"): Rtl.across_in_720ths,
    ("&u", "D"): Rtl.set_unit, ("*t", "R"): Rtl.set_resolution, ("*r", "S"): Rtl.set_width, ("*r", "T"): Rtl.set_height,
    ("*r", "A"): Rtl.start, ("*r", "B"): Rtl.end, ("*r", "C"): Rtl.end, ("*r", "U"): Rtl.set_planes,
    ("*v", "W"): Rtl.configure, ("*v", "A"): Rtl.set_part, ("*v", "B"): Rtl.set_part, ("*v", "C"): Rtl.set_part,
    ("*v", "I"): Rtl.set_entry, ("*v", "N"): Rtl.set_transparency, ("*b", "M"): Rtl.set_compression,
    ("*b", "V"): Rtl.plane, ("*b", "W"): Rtl.row, ("*b", "Y"): Rtl.move_rows,
}


def is_rtl_after(command, text, end, is_rtl):
    """Whether the mode after a command is RTL, which changes between instructions and images."""
    form = form_of(command)
    if form == "reset":
        behind = (form_of_match(found) for found in FORMS_OF_MODES.finditer(text, end))
        return is_rtl or next(filter(None, behind), None) == "B"
    if (command.group, command.letter) == ("*r", "A"):
        return True
    return form == "A" if form else is_rtl


def form_of(command):
    """Which form a command is of those that change the mode, or None."""
    if command.group == "" and command.letter == "E" or command[:3] == ("%", "X", -12345 * MILLION):
        return "reset"
    return command.letter if command.group == "%" and command.letter in "AB" else None


def form_of_match(found):
    """The same of bytes."""
    if found[3] is None:
        return "reset"
    size = int(found[2] or b"0")
    return form_of(Command("%", found[3].decode().upper(), (-size if found[1] else size) * MILLION))
