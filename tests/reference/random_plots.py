"""Random plots of every kind, with random options.

A case follows from its seed alone. Most plots are mostly good and mostly on the page, since what is bad
or off the page shows little.
"""

from typing import NamedTuple

from .cutting import MILLION
from .outputs import FORMS
from .random_numbers import Numbers, coded, spelled
from .raster import PIXEL, count

# Marks and reports show most.
OUTPUTS = ("marks", "marks", *FORMS, "png", "png", "report", "report", "report")
# Pixels whose centres are whole grains, and others.
DOTS = (127, 127, 127, 254, 508, 1016, 100, 75, 150, 300, 10, 33, 64, 96, 600, 1200)
MOST_PIXELS = 1200
WIDTHS_OF_LINES = (0, 0, 1, 100_000, 350_000, 400_000, 1_000_000, 3_000_000, 20_000_000)
# Directions of whole length: a line beside a pixel is a whole number of grains away.
DIRECTIONS = ((1, 0, 1), (0, 1, 1), (3, 4, 5), (4, 3, 5), (5, 12, 13), (8, 15, 17), (4, -3, 5), (12, -5, 13))
BETWEEN = (
    b";", b" ", b"\r\n", b"\t", b";;", b"\x1b%-1B", b"\x1b%0A", b"\x1b%b", b"\x1b.(", b"\x1b.I80;;17:", b"\x1b.;;",
    b"\x1bE", b"\x1be", b"\x1b", b"\x1b%-", b"\x1b%-12345X", b"\x1b%+1A", b"\x1b.", b"@PJL SET\n", b"@PJL",
    b"@A\rPD;\n", b"!", b",", b"5", b"\xff", b"\0", b"\x0b", b"\x0c", b"A1",
)
SKIPPED = (
    b"ZZ1,2;", b'CO"a;b";', b'CO"PD5;', b'CO"a"b;', b"SM*;", b'SM";', b"SM;", b"SMP;", b"SM", b"BLabc\x03", b"BL",
    b"LT2,4;", b"PG;", b"VS", b"bp5,1", b"FT3\x1bE", b"PM0;PM2;EP", b"WU0", b"CR0,9",
)
# How a plot may break off.
ENDS = (
    b"DT", b"DT$", b"LB", b"LBa", b"SM", b"BL", b"PE", b"PE:", b"PE>!", b"PE<?", b"PE\xc1 ", b"PE\xc1!\xc1", b"PE??????",
    b"PE7???????", b"PE7??????", b"\x1b", b"\x1b%", b"\x1b%-1", b"\x1b.", b"@", b'CO"', b"P", b"PD1", b"PD1,2,-", b"PU.",
)
CONTROLS = b"\r" * 8 + b"\n" * 8 + bytes(range(32)) + b"\x7f\x80\xff"
LETTERS = b"PUDASCIRWELBTO0123456789,;.-:<=\""
# What a plot is about: its instructions come from one of these lists. Words in small letters are pieces of
# other kinds.
THEMES = [
    theme.split()
    for theme in (
        "IP SC RO IW DF PU PD PD PA PR EA CI AA LB units units units",
        "PD PR PR AR ER CI IW LB units units bad",
        "LB LB LB LB SI SI DI DI DT DT RO DF IN SC PU PD PR PE BL",
        "LB LB LB LB SI SI DI RO",
        "coarse coarse coarse RO DF EA ER AA PR",
        "PC PC PC SP PW PD PD PU IN DF LB EA tie",
        "PE PE PE PE PD PU PR SC SP",
        "CI CI AA AA AR AR EA ER PU PD SC RO PE",
        "IW IW IP RO SC PD PD PU EA tie tie edge",
        "tie tie tie tie tie PC SP edge",
        "between between skipped PD PD PU PA SP DT LB IN",
        "IN DF IP SC RO IW SP PW PC PU PD PA PR PE EA ER CI AA AR LB DT SI DI BL SM",
        "IN DF IP SC RO IW SP PW PC PU PD PA PR PE EA ER CI AA AR LB DT SI DI BL SM",
    )
]
DRAWING = ("PD", "PD", "PD", "PR", "PE", "EA", "ER", "CI", "AA", "AR", "LB")


ROTATIONS = 8 * ("90", "180", "270") + ("0", "360", "+90")


class Case(NamedTuple):
    """What a program is given."""

    form: str
    options: dict
    plot: bytes


def random_case(seed):
    """The case of a seed."""
    return Writer(seed).case()


class Writer(Numbers):
    """Writes one case."""

    themes, drawing = THEMES, DRAWING

    def __init__(self, seed):
        super().__init__(seed)
        self.is_relative = False  # coordinates of moves
        self.terminator = b"\x03"  # of labels

    def case(self):
        form, options = self.settings()
        kind = self.upto(99)
        if kind < 3:
            plot = self.random.randbytes(self.upto(120))
        elif kind < 7:
            plot = bytes(self.random.choice(LETTERS) for _ in range(self.upto(200)))
        else:
            plot = self.plot(self.upto(14) + 1)
            if self.is_wild and self.chance(50):
                plot = self.mutated(plot)
            if self.is_wild and self.chance(12):
                plot += self.pick(*ENDS)
        return self.turned_case(Case(form, options, plot))

    def turned_case(self, case):
        """The case, one in four with `--rotate`. Then the first row is one of the page as it lies, and perhaps a dot that a window
        hides is as far away as it may be for the turn, or farther."""
        if not self.chance(25):
            return case
        options = {**case.options, "rotate": self.pick(*ROTATIONS)}
        if "from" in options and options["rotate"] in ("90", "270"):
            columns, rows = count(self.height, self.dots), count(self.width, self.dots)
            options["from"] = str(self.random.randint(max(0, rows - max(1, MOST_PIXELS // columns)), rows))
        if self.chance(70):
            return case._replace(options=options)
        x, y = (self.far_place(side) - left for side, left in ((self.width, self.left), (self.height, self.below)))
        return case._replace(options=options, plot=b"IW0,0,1,1;PU%d,%d;PD;IW;PU0,0;" % (x, y) + case.plot)

    def far_place(self, side):
        """A place on an axis, in units: mostly at the end of the range, or where a turn puts it there."""
        far = self.pick(*self.farthest)
        return self.pick(0, side, far, -far, -far, side - far, side - far - 1, side - far - 1, side - far + 1)

    # Options

    def settings(self):
        form = self.pick(*OUTPUTS)
        self.dots = self.pick(75, 75, 150, 600) if form == "pcl" else self.pick(*DOTS)
        if form == "report":
            self.width, self.height = self.length(), self.length()
        else:
            self.width, self.height = self.side(), self.side()
        self.left, self.below = (self.pick(0, 0, 0, 0, 0, 1, 20, 32, 100, self.upto(65536)) for _ in range(2))
        options = {"width": self.width, "height": self.height, "left": self.left, "below": self.below}
        if form != "report":
            options.update(self.picture_settings(form))
        if form == "pcl" and self.chance(4):
            options["dots"] = self.pick(*DOTS)
        if self.chance(0.5):
            name = self.pick("width", "left", "dots", "from", "rows", "band", "smooth")
            options[name] = self.pick("0", "-1", "+70", "65537", "x", "")
        return form, {name: str(value) for name, value in options.items() if str(value) != "0" or self.chance(20)}

    def length(self):
        """A side of a page, in plotter units."""
        return self.pick(64, 65, 100, 128, 200, 1000, 11880, 65535, 65536, 64 + self.upto(2000))

    def side(self):
        """A side of a page of a few pixels."""
        pixels = self.pick(1, 4, 8, 8, 8, 9, 10, 15, 16, 17, 30)
        return min(65536, max(64, pixels * 1016 // self.dots + self.pick(0, 0, 0, 1, self.upto(40))))

    def picture_settings(self, form):
        options = {"dots": self.dots}
        columns, rows = count(self.width, self.dots), count(self.height, self.dots)
        if form in ("png", "ppm") and self.chance(50):
            options["smooth"] = self.smoothing(columns * rows)
        most = max(1, MOST_PIXELS // max(1, columns))
        if form == "png":
            return self.pens_settings(options)
        if rows > most:
            options["from"] = self.random.randint(rows - most, rows)
        elif self.chance(15):
            options["from"] = min(99999, self.upto(rows + 1))
        if self.chance(25):
            options["band"] = self.pick(1, 2, 3, 5, 64, 4096)
        if self.chance(15):
            options["rows"] = self.pick(1, 1, 2, 3, 5, 7, 1 + self.upto(rows), 400_000)
        return self.pens_settings(options)

    def smoothing(self, pixels):
        """How much finer a picture is painted: mostly as the resolution allows, and not too fine for the reference."""
        if self.chance(2):
            return self.pick(0, 1, 8, 9)
        allowed = [times for times in range(1, 9) if times * self.dots <= 1200 and times * times * pixels <= 4 * MOST_PIXELS]
        return self.pick(*allowed or [1])

    def pens_settings(self, options):
        if self.chance(15):
            options["pens"] = self.pick("all", "1", "2", "1,3", "2-255", "001-003,9", "1,1,2", "1-4,250-255")
        if self.chance(1.5):
            options["pens"] = self.pick("3-1", "0-2", "1,", "256", "", "1-2-3", "-1", " 1", "1 ", "0001", "ALL", "+1")
        return options

    # Plots

    def plot(self, pieces):
        theme = self.random.choice(self.themes)
        self.pen, has_pens = 0, self.chance(40)
        plot = b"PU" + self.pair_of(self.centre()) + b";" if self.chance(70) else b""
        for _ in range(pieces):
            if self.is_wild and self.chance(5):
                plot += self.piece(self.pick("between", "skipped"))
            if has_pens:
                # A report tells strokes of different pens from one another.
                self.pen = self.pen % 255 + 1
                plot += b"SP%d;" % self.pen
            plot += self.piece(self.random.choice(theme))
            if self.is_far and self.chance(5):
                plot += self.piece("far")
            if self.chance(40):
                plot += self.piece(self.pick(*self.drawing))
        return plot

    def piece(self, name):
        """An instruction, or a piece of another kind."""
        others = {
            "between": lambda: self.pick(*BETWEEN),
            "skipped": lambda: self.pick(*SKIPPED),
            "bad": lambda: self.pick(b"SP256;", b"RO5;", b"IW1;", b"DI0,0;", b"RO360;", b"SI0,1;"),
            "units": self.units,
            "coarse": self.coarse_units,
            "far": self.far_label,
            "tie": self.tie,
            "edge": self.edge_of_the_window,
        }
        if name in others:
            return others[name]()
        code = (name.lower() if self.chance(5) else name).encode()
        texts = {
            "PE": self.polyline,
            "LB": self.label,
            "DT": self.new_terminator,
            "BL": lambda: b"ab" + self.pick(self.terminator, b"\x03"),
            "SM": lambda: b"*;",
        }
        if name in texts:
            return code + texts[name]()
        return code + self.numbers(getattr(self, "of_" + name)())

    def units(self):
        """Units of the plot's own, with a line."""
        names = self.pick("IP SC", "RO IP", "RO IP SC", "SC RO", "SC IP", "IP IP SC", "SC LB", "SC DF").split()
        return b"".join(self.piece(name) for name in (*names, self.pick("PD", "PU"), "PR", "PD"))

    def coarse_units(self):
        """Units in which a millionth is some grains, and a figure from a place that has no coordinates."""
        self.scale = ((0, self.pick(1, 3, 5) * self.width), (0, self.pick(1, 3, 7) * self.height))
        scaling = [number for ends in self.scale for number in ends]
        figure = self.piece(self.pick("EA", "ER", "AA", "AR", "CI", "PR"))
        label = b"SI.101,.103;LB " + self.terminator
        self.scale = None
        return b"SC" + self.numbers(scaling) + label + b"SP%d;" % (255 - self.upto(200)) + figure + b"SC;"

    def far_label(self):
        """A label that ends near the edge of the range."""
        self.scale, self.is_relative = None, False
        x, y = (self.pick(-1, 1) * (1_048_576 - self.pick(0, 1823, 1824, 1825, 3456)) for _ in range(2))
        return b"SC;PA;PU" + self.pair_of((x, y)) + b";" + self.pick(b"", b"SI;") + b"LB" + self.label()

    def of_IN(self):
        self.scale, self.is_relative, self.terminator = None, False, b"\x03"
        return []

    of_DF = of_IN

    def of_IP(self):
        if self.chance(40):
            return []
        if self.chance(35):
            return self.plotter_units()
        corner = self.plotter_units()
        other = self.plotter_units()
        if self.chance(25):
            # P2 on a level with P1, or above it, or both.
            other = [self.pick(corner[0], other[0]), self.pick(corner[1], other[1])]
        return corner + other

    def plotter_units(self):
        x, y = self.upto(self.width), self.upto(self.height)
        return [MILLION * x + self.pick(0, 0, 0, 500_000, 499_999), self.pick(MILLION * y, MILLION * y, -500_000, -1_500_000)]

    def of_SC(self):
        if self.chance(15):
            self.scale = None
            return []
        x, y = self.span(), self.span()
        numbers = [*x, *y]
        kind = self.pick(0, 0, 1, 1, 2)
        if kind == 2:
            factors = [self.pick(1, 2, 8, -4, 16) * MILLION // self.pick(1, 1, 2, 3) for _ in range(2)]
            if self.chance(20):
                factors[0] = x[0] or factors[0]
            numbers = [x[0], factors[0], y[0], factors[1]]
            x, y = ((at, at + side * MILLION * MILLION // factor) for at, side, factor in
                    ((x[0], self.width, factors[0]), (y[0], self.height, factors[1])))
        self.scale = (x, y)
        if kind or self.chance(30):
            numbers.append(kind * MILLION if self.chance(95) else self.pick(-1, 3, 500_000, 1_499_999, -500_000, -500_001))
            if self.chance(50):
                numbers += [self.percent() for _ in range(self.pick(1, 2, 2))]
        return numbers

    def percent(self):
        if self.is_wild and self.chance(30):
            return self.pick(100_400_000, 100_000_001, -400_000, -1, 101 * MILLION, -MILLION)
        return self.pick(0, 100, 50, 33, 7) * MILLION

    def span(self):
        """The coordinates of two corners on an axis."""
        kind = self.upto(99)
        if kind < 70 or kind >= 85 and not self.is_wild:
            first = self.pick(0, 0, 0, -1, 5) * MILLION
            return first, first + self.pick(8, 3, 7, 100, 1, -8, -3, 1000) * MILLION
        if kind < 85:
            # A millionth is about a grain.
            first = self.pick(0, 0, -300, MILLION)
            return first, first + self.width * self.pick(16, 10, 5, 35, -12)
        return self.pick(
            (-8_388_607_000_000, 8_388_607_000_000), (0, 1), (1, 0), (5, 5), (-500_000, 250_000), (0, 123_456_789),
            (MILLION, 1),
        )

    def of_RO(self):
        if self.chance(10):
            return []
        if self.is_wild and self.chance(15):
            return [self.pick(0, 90, 270, 45, 360, -90, -180) * MILLION + self.pick(0, 499_999, -500_000, 500_000)]
        return [self.pick(0, 90, 90, 180, 270, 270) * MILLION]

    def of_IW(self):
        return [] if self.chance(20) else self.place() + self.place()

    def of_SP(self):
        return self.pen_number() if self.chance(90) else []

    def pen_number(self):
        pen = self.pick(1, 1, 2, 2, 3, 4, 5, 6, 7, 8, 255, *((0, 256, -1) if self.is_wild else ()))
        return [pen * MILLION + self.pick(0, 0, 0, 0, 0, 499_999, 500_000, -500_000)]

    def of_PW(self):
        width = self.pick(*WIDTHS_OF_LINES, self.upto(2 * MILLION))
        if self.is_wild and self.chance(20):
            width = self.pick(20_000_001, -1, 781, 782)
        return self.pick([], [width], [width], [width] + self.pen_number())

    def of_PC(self):
        colour = [self.part_of_colour() for _ in range(3)]
        return self.pick([], self.pen_number(), self.pen_number() + colour, self.pen_number() + colour)

    def part_of_colour(self):
        if self.is_wild and self.chance(10):
            return self.pick(-1_000_000, 256_000_000, 255_500_000, -500_000)
        return self.pick(0, 255, 10, 128, self.upto(255)) * MILLION + self.pick(0, 0, 499_999)

    def of_PD(self):
        pair = self.step if self.is_relative != self.chance(4) else self.place
        return sum((pair() for _ in range(self.pick(0, 1, 1, 1, 2, 3))), [])

    of_PU = of_PD

    def of_PA(self):
        self.is_relative = False
        return self.of_PD()

    def of_PR(self):
        self.is_relative = True
        return self.of_PD()

    def step(self):
        """A small relative move."""
        if self.scale:
            return [(self.scale[i][1] - self.scale[i][0]) // self.pick(1, 2, 3, 8, -3) for i in range(2)]
        return [self.random.randint(-300, 300) * self.pick(62_500, 100_000, 31_250, 333_333) for _ in range(2)]

    def of_EA(self):
        return self.place()

    def of_ER(self):
        return self.step()

    def length_of_chord(self):
        angle = self.pick(45, 60, 30, 90, 180, 7) * MILLION + self.pick(0, 0, 0, 499, 500, -500)
        if self.is_wild and self.chance(20):
            angle = self.pick(499_500, 499_499, 500_000, 180_000_499, 180_000_500, 0)
        return [] if self.chance(20) else [angle]

    def of_CI(self):
        return [self.pick(*self.step(), 0, 16 * MILLION, 7_500_000)] + self.length_of_chord()

    def of_AA(self):
        return self.place() + self.sweep() + self.length_of_chord()

    def of_AR(self):
        return self.step() + self.sweep() + self.length_of_chord()

    def sweep(self):
        angle = self.pick(90, -90, 37, 180, 270, 359, -359, 0, 1, *((360, -360) if self.is_wild else ())) * MILLION
        return [angle + self.pick(0, 0, 0, 500_000, 499, 500, 12_345, self.upto(MILLION))]

    def of_SI(self):
        sizes = (190_000, 100_000, -100_000, self.upto(300_000), self.upto(300_000), -self.upto(200_000))
        if self.is_wild and self.chance(20):
            sizes = (100_000, 78, 79, 1, 0, 40_000_000, 40_000_001)
        return [] if self.chance(15) else [self.pick(*sizes), self.pick(*sizes)]

    def of_DI(self):
        if self.chance(10):
            return []
        run, rise = self.pick(-3, -1, 0, 0, 1, 1), self.pick(-1, -1, 0, 0, 1, 2)
        return [run * self.pick(1, MILLION), rise * MILLION]

    def new_terminator(self):
        byte = self.pick(b"$", b"$", b"\x03", b"A", b'"', b"5", b";", b" ", b"\r", b"\t")
        if self.is_wild and self.chance(30):
            byte = self.pick(b"\0", b"\n", b"\x1b", b"")
        elif self.chance(70):
            self.terminator = b"\x03" if byte == b";" else byte
        return byte + self.pick(b"", b";", b";", b",1;", b"5", b'"x;y";')

    def label(self):
        size = self.pick(0, 1, 1, 2, 2, 3, 4, 6)
        if self.chance(5):
            return b" " * size + self.terminator
        text = bytes(self.pick(*CONTROLS) if self.chance(15) else self.random.randint(32, 126) for _ in range(size))
        return text + (self.pick(b"\x03", b"\x03$", b"$", b"") if self.chance(15) else self.terminator)

    # Encoded polylines

    def polyline(self):
        base = 64
        text = b""
        fraction = 0
        for _ in range(self.pick(0, 1, 1, 2, 4)):
            kind = self.upto(99)
            if kind < 12:
                base, text = 32, text + b"7"
            elif kind < 22:
                fraction = self.pick(0, 1, 4, 5, 7, 10, 26, 27, -1)
                text += b">" + self.stray() + coded(fraction, base)
                fraction = min(26, max(0, fraction))
            elif kind < 32:
                text += b":" + self.stray() + coded(self.pick(1, 2, 3, 0, 255, 256, -1), base)
            elif kind < 40:
                text += self.stray() + self.pick(b":", b">", b"_", b"?", b"~", b"\xbf", b"A" * 6, b"A" * 7) + self.stray()
            text += self.pick(b"", b"", b"<", b"=", b"<=", b"=<") + self.pair(base, fraction)
        return text + self.pick(b";", b";", b";", b";", b";", b"", b"\x03;")

    def pair(self, base, fraction):
        """Two numbers: a place or a step."""
        numbers = self.pick(self.place, self.step, self.step)()
        whole = [min(2**33, max(-(2**33), number * 2**fraction // MILLION)) for number in numbers]
        if self.chance(15):
            # With 7 bits after the point these are ties between millionths, on both sides of 0.
            whole = [self.pick(-1, 1, -3, 3) for _ in whole]
        if base == 64 and self.chance(3):
            # The code 1 is 0 too.
            return b"\xc0" + self.stray() + coded(whole[1], base)
        length = self.pick(3, 5, 6, 7, 8) if self.is_wild and self.chance(20) else 1
        return coded(whole[0], base, length) + self.stray() + coded(whole[1], base)

    def stray(self):
        if not self.is_wild or self.chance(85):
            return b""
        return self.pick(b" ", b"\n", b"!", b"5", b"\x7f", b"\xff", b"@", b"\xb0", b'"', b"7")

    # What is hard to hit by chance

    def centre(self):
        """The centre of a pixel in grains, if it is whole."""
        columns, rows = count(self.width, self.dots), count(self.height, self.dots)
        column, row = self.upto(max(0, columns - 1)), self.upto(max(0, rows - 1))
        right, down = ((2 * at + 1) * PIXEL // 2 // self.dots for at in (column, row))
        return right, 16 * self.height - down

    def pair_of(self, place):
        """A place on the page as a pair of plotter units."""
        x, y = place
        return f"{spelled(x * 62_500 - self.left * MILLION)},{spelled(y * 62_500 - self.below * MILLION)}".encode()

    def tie(self):
        """A line whose edge goes through the centre of a pixel, or misses it by a grain."""
        dx, dy, length = self.pick(*DIRECTIONS)
        least = -(-12192 // self.dots)
        half = self.pick(least, length * (self.upto(12) + 1), length * (-(-least // length)))
        aside = half // length
        x, y = self.centre()
        x, y = x - dy * aside + self.pick(0, 0, 0, 1, -1), y + dx * aside
        first, last = self.pick((-20, 20), (0, 20), (0, 0), (-20, 0), (1, 30), (-400, 400))
        if self.chance(30):
            # The line's round end reaches the centre.
            dx, dy, first, last = -dy, dx, 0, abs(last)
        width = spelled(2 * half * MILLION // 640).encode()
        ends = [self.pair_of((x + k * dx, y + k * dy)) for k in (first, last)]
        scaling = b"" if self.scale is None else b"SC;"
        self.scale, self.is_relative = None, False
        return scaling + b"PW" + width + b";PA;PU" + ends[0] + b";PD" + ends[1] + b";"

    def edge_of_the_window(self):
        """A window whose edges go through centres of pixels."""
        self.scale = None
        return b"SC;IW" + self.pair_of(self.centre()) + b"," + self.pair_of(self.centre()) + b";"

    # Mutations

    def mutated(self, plot):
        for _ in range(self.pick(1, 1, 2, 5)):
            at, to = sorted((self.upto(len(plot)), self.upto(len(plot))))
            kind = self.upto(5)
            if kind == 0:
                plot = plot[:at]
            elif kind == 1:
                plot = plot[:at] + self.random.randbytes(1) + plot[at + 1 :]
            elif kind == 2:
                plot = plot[:at] + bytes([self.random.choice(LETTERS)]) + plot[at:]
            elif kind == 3:
                plot = plot[:at] + plot[at + 1 :]
            elif kind == 4:
                plot = plot[:to] + plot[at:]
            else:
                plot = plot[:at] + self.pick(*BETWEEN, *SKIPPED) + plot[at:]
        return plot
