"""Random plots of the profile full, with random options.

Instructions of the core come among the further ones. Most hatching and dashed lines are small, since a pixel asks every
stroke.
"""

from .carousel import EMPTY
from .cutting import MILLION
from .full_cutting import items
from .full_plotter import FullPlotter
from .geometry import Page
from .plotter import Refused
from .random_areas import AreaWriter
from .random_plots import Writer

# The names of --characters.
NAMES = ("roman-8", "latin-1", "windows-1252", "pc-8", "ascii", "utf-8", "utf-8")
# The most strokes.
MOST_OF_A_REPORT, MOST_OF_A_PICTURE = 2000, 200
SHEETS = ("0", "0", "0", "1", "2", "3")
# What sets how letters are written, beside their size, path and origin.
LETTERS = "DI DR SL ES"
# Pieces in small letters are of other kinds.
THEMES = [
    theme.split()
    for theme in (
        "LT LT UL dashes PD PD PR PU AA CI EA ER PE IP mirrored SP",
        "dashes run LT EP polygon FP RR hatching PD PU AC",
        "WU WU PW PW PT SP PD PR IP mirrored PE hatching RR",
        "CR CR PC PC SP PD DF IN BP",
        "white white TR TR SV SV SP PD LB RR FT EP edge PC DF",
        "restored restored restored PD LB RR",
        "kept kept kept kept PD LB",
        f"LB LB LB SR SI {LETTERS} LO LO DV CP CP RO mirrored IP DF PU",
        f"UC UC UC UC SR SI SD {LETTERS} LO LO DV CP LT RO mirrored IP PU PM SP",
        "lines lines LB BL PB LO DV ES CP CP SR DT SC PD",
        "SM SM PU PD PA PR PE LB LO DV SI",
        "TL XT YT RO mirrored IP PU SP",
        "polygon polygon PM EP FP FT RO SC IP CI PD AA",
        "PM PM PD PU PR PA PE CI AA AT RT BZ BR EP FP EA LB SM IN DF",
        "FT FT RA RR WG FP AC hatching hatching mirrored RO SC IP PW SP",
        "shading shading FT RR WG polygon FP SP PC PW AC",
        "solid solid solid solid SP PC PD FP EP PG edge",
        "solid solid RR WG polygon LB hatching PW SP IW sheet",
        "EW WG CT CI AA AR RT AT RO SC PD",
        "AT RT BZ BR PD PU SC RO PR mirrored LT PM EP flat",
        "sheet sheet PD LB RR SP PC IN BP",
        "known comment WD CO BL SM PG between skipped PD LB DT",
        "IR IR SC RO IP PD PU RR EA LB AC hatching",
        "characters characters characters text text CS CA SD AD SS SA DT PD",
        "text text SD AD SI SR CP LO ES DV DI PD SM SL PW PT characters",
        "CS CA SA SS text BL PB DT LB DF IN BP SM PD IP mirrored",
        f"LT UL WU PW PT PC CR IR SR {LETTERS} LO DV CP BL PB SM TL XT YT PM EP FP FT AC RR EW WG AT RT BZ BR CT UC sheet",
        "LT PD LB FP PM EP FT RR SM IN DF IP SC RO IW SP PU PD PA PR PE EA ER CI AA AR LB DT SI DI",
        "PD PD PR AR ER CI IW LB units units bad",
    )
]
DRAWING = ("PD", "PD", "PR", "PE", "EA", "ER", "CI", "AA", "LB", "RR", "EP", "FP", "BZ", "AT", "WG", "YT", "solid")
KNOWN = (
    b"PS100,200;", b"NP8;", b"LA1,4,2,4;", b"MC1;", b"PP", b"VS20",
    b"OE;", b"OI", b"DP", b"GM;", b"FN2", b"ST", b"RF1,1,1,0;", b"LM1;", b"TD1", b'QL"PD;"', b"EC", b"ow",
)
# Numbers of sets in SD and AD, and in CS and CA; the last two of each have no set.
SYMBOL_SETS = (277, 14, 629, 341, 21, 85, 37, 39, 38, 6, 9, 83, 147, 115, 19, 4, 36, 11, 9999, -1)
HP_NUMBERS = (0, 1, 2, 3, 4, 6, 7, 9, *range(30, 40), 5, -1)
# What may follow the byte of a DT: the mode 0 or another one.
MODES = (b"", b",0", b",0", b",1", b",2", b", 0", b" ,0", b",.4", b",-.5", b",.5", b",,0", b",0x", b",+0", b",00", b",8388608")
# What a label's text has beside printed characters of any kind: CR, LF, back, tab, shifts, parts of UTF-8.
CONTROLS_OF_TEXTS = (b"\r", b"\n", b"\b", b"\b", b"\t", b"\x0e", b"\x0f", b"\x0e|", b"\x7f", b"\x1b", b"\0")
UTF_8_PARTS = (
    "ü".encode(), "µ".encode(), "€".encode(), "\x85".encode(), "丼".encode(), "😀".encode(), b"\xc3", b"\xc0\x80", b"\xed\xa0\x80",
    b"\xe2\x82", b"\xf4\x90\x80\x80", b"\x80", b"\xf0\x9f\x98",
)
COMMENTS = (
    b'COa "PD9,9" x;', b'CO"a;b" c;', b'CO "PD;', b"CO;", b"CO PD5,5;", b"CO", b"WDPD9,9;\x03", b"WDab;", b"UF1,2;", b"ZZ1;",
)
# Escapes of HP RTL and PCL, and what is between them; after each instructions are read.
ESCAPES = (
    b"\x1b%0A;PD9,9;\x1b%0B", b"\x1b*r1A\x1b*b2WPD\x1b*rC\x1b%0B", b"\x1b*b3m4V\xff\0\x1b%2W..\x1b%0B", b"\x1b%0A\x0cPD\x1b%-1B",
    b"\x1b&l0H", b"\x1b&l1o0H", b"\x1b*t5R", b"\x1b*t600R", b"\x1b*c5P", b"\x1b&p3XPD9", b"\x1b(s9W;PA1,1;;;", b"\x1b*b5M",
    b"\x1b9",
    b"\x1b*r9a1G\x1b%0B", b"\x1b*b", b"\x1b&u9D", b"\x1bEPD9;\x1b%0B", b"\x1b%-12345X@PJL\n\x1b%0B", b"\x1b*v2N", b"\x1b*v6W;;;;;;",
)
WITHOUT_NUMBERS = (b"", b";", b";", b"1,2;", b"!,9;", b'"PD;";', b"-\x1bE")


def random_full_case(seed):
    """The case of a seed in the profile full, without the item that brings it to too many strokes, and what follows."""
    return light_case(FullWriter(seed))


def light_case(writer):
    case = writer.case()
    page = Page(writer.width, writer.height, writer.left, writer.below)
    return case._replace(plot=light(case.plot, page, MOST_OF_A_REPORT if case.form == "report" else MOST_OF_A_PICTURE))


def light(plot, page, most, carousel=EMPTY):
    """A plot without the item that brings it to more than so many strokes, and what follows."""
    plotter = FullPlotter(page, carousel, most)
    try:
        for item in items(plot):
            plotter.obey(item)
            if plotter.has_too_much():
                return plot[: item.at]
    except Refused:
        pass
    return plot


class FullWriter(AreaWriter):
    """Writes one case of the profile full; it may have very many strokes."""

    themes, drawing = THEMES, DRAWING
    farthest = (65_536, 8_388_607, 8_388_607)

    def settings(self):
        form, options = super().settings()
        options["profile"] = "full" if self.chance(99) else self.pick("core", "FULL", "")
        if self.chance(60):
            options["sheet"] = self.pick(*SHEETS)
        elif self.is_wild and self.chance(5):
            options["sheet"] = self.pick("4194304", "4194305", "-1", "x", "")
        if self.chance(20):
            options["characters"] = self.pick(*NAMES, *(("UTF-8", "german", "") if self.is_wild else ()))
        return form, options

    def piece(self, name):
        others = {
            "polygon": self.polygon,
            "dashes": self.dashes,
            "hatching": self.hatching,
            "solid": self.solid,
            "shading": self.shading,
            "mirrored": self.mirrored,
            "lines": self.lines,
            "run": self.interrupted_run,
            "restored": self.restored,
            "kept": self.kept,
            "flat": self.flat_arc,
            "white": lambda: self.pick(b"PC1,255,255,255;", b"PC1,255,255,254;SP1;", b"SP;PC0,9,9,9;", b"TR;PC1,255,255,255;"),
            "between": lambda: self.pick(*ESCAPES) if self.chance(50) else super(FullWriter, self).piece("between"),
            "sheet": lambda: self.pick(b"PG", b"AF", b"AH", b"NR", b"FR", b"pg") + self.pick(*WITHOUT_NUMBERS),
            "known": lambda: self.pick(*KNOWN),
            "characters": self.chosen_characters,
            "text": self.text,
            "SS": lambda: b"SS" + self.pick(*WITHOUT_NUMBERS),
            "SA": lambda: b"SA" + self.pick(*WITHOUT_NUMBERS),
            "DT": self.terminator_and_mode,
            "comment": lambda: self.pick(*COMMENTS),
            "SM": self.symbol,
            "BL": lambda: b"BL" + self.label(),
            "WD": lambda: b"WD" + self.label(),
            "CO": lambda: self.pick(*COMMENTS),
            "PG": lambda: b"PG" + self.pick(*WITHOUT_NUMBERS),
            "BP": lambda: b"BP" + self.pick(*WITHOUT_NUMBERS),
            "PB": lambda: b"PB" + self.pick(*WITHOUT_NUMBERS),
        }
        if name in ("RA", "FP") and self.height > 2000:
            name = "RR"
        return others[name]() if name in others else super().piece(name)

    # Pieces of several instructions

    def polygon(self):
        """A polygon of small parts, and what is made of it."""
        plot = b"PM" + self.pick(b"0;", b";", b"")
        for _ in range(self.pick(1, 1, 2, 3)):
            for _ in range(self.pick(1, 2, 3, 4)):
                plot += self.piece(self.pick("PR", "PR", "PR", "ER", "CI", "AR", "RT", "BR", "PU", "PD", "PE"))
            plot += self.pick(b"PM1;", b"PU;PM1;", b"PD;PM1;", b"PD;", b"")
        plot += self.pick(b"PU", b"PD", b"") + self.pick(b"PM2;", b"PM2;", b"PM2", b"PM2;PM2;")
        return plot + b"".join(self.piece(self.pick("EP", "FP", "FT")) for _ in range(self.pick(0, 1, 2)))

    def dashes(self):
        """A pattern whose dashes end on whole grains, with a line from one of its points to another."""
        plot = self.pick(b"IP0,0,300,400;", b"IP300,400,0,0;", b"IP0,0,30,40;IP0,0;", b"")
        kind = self.pick(b"1", b"2", b"3", b"4", b"5", b"6", b"7", b"8", b"-1", b"-2", b"-3", b"-4", b"-7", b"-8", b"0", b"99")
        plot += self.pick(b"", b"UL2,1,1;", b"UL1,0,3,0,1;", b"UL2,0,1,5;") + b"LT" + kind
        plot += self.pick(b"", b",10", b",1", b",.1", b",2.5,0", b",1,1", b",10,1", b",.4,1") + b";"
        self.scale, self.is_relative = None, True
        steps = [self.pick(0, 10, 25, 50, 60, 80, 120, -30) for _ in range(2 * self.pick(1, 1, 2))]
        return plot + b"SC;PR;PD" + ",".join(map(str, steps)).encode() + b";" + self.pick(b"", b"PU;PD;", b"PU1,0;PD9,0;", b"LT;")

    def hatching(self):
        """Hatching whose lines go through corners, or nearly, and what it fills."""
        plot = b"FT" + self.pick(b"3", b"3", b"4") + self.pick(b"", b",0", b",1", b",2.5", b",10", b",7.0625", b",0.01", b",100")
        if plot.count(b","):
            plot += self.pick(b"", b",0", b",90", b",45", b",-30", b",180", b",359.9995", b",26.565", b",0.0004")
        return plot + b";" + self.piece(self.pick("AC", "RR", "RR", "WG", "FP", "polygon", "PW"))

    def mirrored(self):
        """P1 and P2 in turned order, along x or y or both."""
        left, right = self.pick((300, 0), (0, 300), (self.width, -self.left), (5, 5))
        bottom, top = self.pick((0, 400), (400, 0), (self.height, -self.below), (7, 7))
        return b"IP%d,%d,%d,%d;" % (left, bottom, right, top) + self.pick(b"", b"", b"RO90;", b"RO180;", b"RO270;")

    def shading(self):
        """Shading, what it fills, and what would change it if it were hatching."""
        level = self.pick(b"", b",50", b",0", b",100", b",99.5", b",7", b",30")
        return self.pick(b"", b"AC1,2;", b"PW1;") + b"FT10" + level + b";" + self.piece(self.pick("RR", "WG", "polygon"))

    def chosen_characters(self):
        """A set or a font, what selects it, and a text that shows it."""
        plot = self.piece(self.pick("CS", "CA", "SD", "AD", "SD", "AD"))
        return plot + self.pick(b"", b"", b"SA;", b"SS;", b"SA", b"SI;") + self.text()

    def text(self):
        """A label of any bytes."""
        parts = [self.part_of_a_text() for _ in range(self.pick(1, 1, 2, 3, 5))]
        end = self.pick(self.terminator, self.terminator, b"\x03", b"$")
        return self.pick(b"LB", b"LB", b"LB", b"BL", b"lb") + b"".join(parts) + end

    def part_of_a_text(self):
        kind = self.upto(99)
        if kind < 25:
            return self.pick(*CONTROLS_OF_TEXTS)
        if kind < 40:
            return self.pick(*UTF_8_PARTS)
        if kind < 60:
            return self.pick(*(bytes([byte]) for byte in b"#$'@[\\]^`{|}~"))
        return bytes([self.pick(self.random.randint(32, 126), self.random.randint(97, 122), self.random.randint(128, 255))])

    def terminator_and_mode(self):
        self.terminator = self.pick(b"$", b"$", b"#", b"\r", b"\x03", b"\b", b"a", b"\x0e")
        return b"DT" + self.terminator + self.pick(*MODES) + self.pick(b";", b";", b"")

    def of_CS(self):
        number = self.pick(*HP_NUMBERS) * MILLION + self.pick(0, 0, 0, 499_999, -500_000)
        return self.pick([], [number], [number], [number], [number, number])

    of_CA = of_CS

    def of_SD(self):
        pairs, wild = [], (0.099999, 1500, 1500.1, -1) if self.is_wild else ()
        for _ in range(self.pick(0, 1, 1, 1, 2, 3)):
            kind = self.pick(1, 1, 2, 3, 4, 4, 5, 6, 7, *((0, -1, 8) if self.is_wild else ()))
            value = {
                1: self.pick(*SYMBOL_SETS) * MILLION,
                2: self.pick(0, 1, 1, *((2, -1) if self.is_wild else ())) * MILLION,
                5: self.pick(0, 1, 2, 3, -1) * MILLION + self.pick(0, 499_999),
                6: self.pick(-3, 0, 2, 3, 5, 7, 8) * MILLION + self.pick(0, 499_999),
            }.get(kind, round(self.pick(9, 11.5, 18, 23, 4, 40, 0.1, 100, *wild) * MILLION))
            pairs += [kind * MILLION + self.pick(0, 0, 0, 499_999, -500_000), value + self.pick(0, 0, 0, 1)]
        return pairs + ([MILLION] if self.is_wild and self.chance(10) else [])

    of_AD = of_SD

    def of_TR(self):
        wrong = [[2 * MILLION], [-MILLION]] if self.is_wild else []
        return self.pick([], [0], [MILLION], [MILLION, 5 * MILLION], [499_999], *wrong)

    def of_SV(self):
        level = self.pick(0, 100, 50, 12.5, 99.999999, self.upto(100), *((100.000001, -1) if self.is_wild else ()))
        kind = self.pick(0, 1, 1, 1, 1, 2, 11, 21, 22, *((3, -1) if self.is_wild else ())) * MILLION
        return self.pick([], [kind], [kind, round(level * MILLION)], [kind, round(level * MILLION)])

    def symbol(self):
        symbol = self.pick(b"*", b"X", b"a", b".", b"!", b"~", b" ", b"\x7f", b"\xff", b"\x1b", b'"', b"")
        return b"SM" + symbol + self.pick(b";", b";", b"", b",1;") + self.piece(self.pick("PD", "PU", "PR", "PE"))

    def lines(self):
        """A label of several lines with an origin and a space, and what is written below it."""
        plot = self.pick(b"", self.piece("LO"), self.piece("LO") + self.pick(b"ES.5;", b"ES-1,2;", b"ES,1;"), self.piece("DV"))
        parts = [bytes(self.random.randint(33, 126) for _ in range(self.upto(3))) for _ in range(self.pick(2, 2, 3))]
        gap = self.pick(b"\r\n", b"\r\n", b"\n", b"\r", b"\n\r")
        plot += b"LB" + gap.join(parts) + self.terminator
        # What sets the margin, and what does not.
        plot += self.pick(b"", b"DI;", b"DI0,1;", b"DR;", b"LO7;", b"DV;", b"SL;", b"DF;", b"PU;", b"PR0,0;PA;", b"PM;PM2;", b"IN;")
        return plot + self.pick(b"", b"CP;", b"CP;", b"CP1,-1;CP;") + b"LBa" + self.terminator

    def interrupted_run(self):
        """Dashes that go on after something else, which may end the run or change the pattern's length."""
        self.scale, self.is_relative = None, True
        self.terminator = b"\x03"
        plot = b"SC;IP0,0,300,400;PR;LT" + self.pick(b"2,10", b"4,7", b"-4,7", b"1,3", b"5,1,1") + b";PD%d,0;" % self.upto(90)
        plot += self.pick(
            b"", b"PU;", b"PU5,0;", b"SP;", b"SP0;PD30,0;SP1;", b"SP0;PD30,0;SP1;PR-30,0;", b"IP0,0,30,40;", b"IP0,0,3,4;",
            b"LT;PD20,0;LT99;", b"LT99;", b"UL;", b"UL2,1;", b"IN;SP1;PR;", b"DF;PR;", b"BP;PR;", b"LT9;", b"LB\x03",
            b"PU9,0;PU-9,0;", b"PD0,0;", b"WU;", b"RO90;", b"EA;", b"ER0,0;", b"CI5;", b"AA0,0,0;", b"PM;PD9,0;PM2;PU-9,0;",
        )
        return plot + b"PD%d,%d;" % (self.upto(90), self.pick(0, 0, 40)) + self.pick(b"", b"LT;")

    def restored(self):
        """A setting that IN, DF or BP may restore, and what shows it."""
        self.scale, self.is_relative = None, False
        self.terminator = b"\x03"
        setting, shown = self.pick(
            (b"LT2,1,1;", b"PD50,0;"), (b"LT2,1,1;LT;", b"LT99;PD50,0;"), (b"LT2,.5,1;", b"LT2;PD90,0;"),
            (b"UL2,1,3;", b"LT2;PD90,0;"), (b"WU1;PW1;", b"PD9,9;PW2;PD0,9;"), (b"CR0,1,0,1,0,1;", b"PC1,1,0,1;PD9,9;"),
            (b"SR9,9;", b"LBa\x03"), (b"DR1,2;", b"LBa\x03"), (b"SL1;ES1,1;", b"LBab\n\x03"), (b"LO5;", b"LBa\x03"),
            (b"DV1;", b"LBab\x03"), (b"SM*;", b"PD9,9;"), (b"BLab\x03", b"PB;"), (b"TL9,5;", b"XT;YT;"),
            (b"FT3,5,20;", b"RR9,9;"), (b"FT3,5,20;", b"FT3;RR9,9;"), (b"FT10,9;", b"FT10;RR30,30;"),
            (b"AC3,2;", b"FT4,5;RR20,20;"), (b"CT1;", b"CI10,90;"), (b"PM;PD9,9,9,0;", b"PD20,20;EP;"), (b"EA9,9;", b"EP;FP;"),
            (b"DT$;", b"LBa\x03b$"), (b"PT2;", b"PD9,9;"), (b"RA5,5;PG;", b"PD9,9;"), (b"PU9,9;LB\n\x03", b"CP;LBa\x03"),
            (b"IR10,10,60,60;", b"FT3;RR30,30;"), (b"SD5,1;AD6,3;", b"LBaa\x0ea\x03"),
            (b"TR;", b"PC1,255,255,255;PD9,9;RR5,5;"), (b"SV1,30;", b"PD9,9;RR5,5;"), (b"IP40,30,0,0;", b"SR;LBa\x03"),
        )
        return setting + self.pick(b"IN;", b"DF;", b"BP", b"BP1;", b"IN,;", b"DF!;", b"IN!;", b"") + shown

    def kept(self):
        """Settings that wrong numbers do not change, with what shows them; and the ends of ranges."""
        self.scale, self.is_relative = None, False
        self.terminator = b"\x03"
        return b"PU9,9;" + self.pick(
            b"LT2,10,1;PD150,9;LT9;PD300,9;", b"LT2,10,1;PD150,9;LT2,-1;PD300,9;", b"LT2,10,1;PD90,9;LT2,5,3;PD150,9;",
            b"UL2,1,1,2,2;UL2,-1;LT2,6,1;PD240,9;", b"UL2,1,3;UL0;LT2;PD90,9;", b"UL2,1,3;UL9;LT2;PD90,9;",
            b"LT2,1;LT9;LT;LT99;PD90,9;",
            b"WU1;WU5;PW1;PD99,9;", b"WU1;PW1;PW101;PD99,9;", b"WU1;PW1;IP5;PD99,9;", b"PT1;PT-1;PD99,9;", b"PW1;PW21;PD99,9;",
            b"LO5;LO99;LBab\x03", b"LO14;LO10;LBab\x03", b"DV1;DV9;LBab\x03", b"DI1,2;DI0,0;LBab\x03", b"DR1,2;DR5;LBab\x03",
            b"SI.3,.5;SI0;LBab\x03", b"SR9,9;SI0,1;LBa\x03", b"SR9,9;SR0,1;LBa\x03", b"SR1000,5;LBa\x03", b"SR1001,5;LBa\x03",
            b"SL1;SL1001;LBa\x03", b"ES1,1;ES101;LBab\x03", b"LBa\x03LO99;CP;LBb\x03", b"LBa\x03DV9;CP;LBb\x03",
            b"LBa\x03DI0,0;CP;LBb\x03", b"CR0,9,0,9,0,9;CR1,1,0,9,0,9;PC1,5,0,9;PD99,9;", b"CR9,0,9,0,9,0;PC1,4.5,8.5,.5;PD99,9;",
            b"SP0;PD99,9;PG;SP1;PD99,9;", b"SP0;PG;SM*;PU99,9;PG;SP1;PD;", b"FT3,9,20;FT9;RR30,30;", b"FT10,30;FT10,101;RR30,30;",
            b"AC3,2;AC1;FT3,9;RR30,30;", b"TL9,5;TL101;XT;YT;", b"IR10,10,60,60;IR5;RR9,9;", b"CT1;CT2;CI10,90;",
            b"PM;PD9,30,30,9;PM3;PD0,0;PM2;EP;", b"PM;PD9,30,30,9;EA0,0;XT;PM2;EP;", b"PM1;EP;PM2;EP;", b"AC;RA5;RR,9;EW9;WG;FP2;",
        )

    def flat_arc(self):
        """An arc through three places that are nearly on a line, so that its circle may be too large; or on a corner."""
        self.scale, self.is_relative = None, False
        low = b"PU%d,%d;PD;" % (-self.left, -self.below)
        return b"SC;" + low + self.pick(
            b"RT10000,0,20000,.0625;", b"RT10000,.0625,20000,0;", b"RT100,0,200,.0625;", b"RT300,0,300,.0625;", b"RT9,9,0,0;",
            b"RT0,0,0,0;", b"RT0,0,9,9;", b"RT9,9,9,9;", b"RT16,16,32,0;", b"RT16,-16,32,0;", b"RT20000,0,20001,1;",
            b"BR0,0,16,0,16,16;", b"BR0,16,0,16,0,0;", b"BR8,0,16,0,24,0;", b"BR0,64,64,64,64,0;",
        )

    # Line types, widths and colours

    def of_LT(self):
        if self.chance(20):
            return []
        kind = self.pick(-8, -5, -3, -2, -1, 0, 1, 1, 2, 2, 3, 4, 5, 6, 7, 8, 99, 99) * MILLION
        kind += self.pick(0, 0, 0, 499_999, -500_000)
        if self.is_wild and self.chance(20):
            kind = self.pick(9, -9, 98, 100, 8_500_000, -8_500_000, -8_500_001, 99_499_999, 98_499_999) * self.pick(1, MILLION)
        length = self.pick(4 * MILLION, 10 * MILLION, 1_500_000, 300_000, 50 * MILLION, 333_333)
        if self.is_wild and self.chance(20):
            length = self.pick(0, -1, 1, -MILLION)
        mode = self.pick(0, 0, 1, 499_999, 500_000, -500_000, *((2 * MILLION, -1, -MILLION) if self.is_wild else ()))
        return self.pick([kind], [kind, length], [kind, length], [kind, length, mode * self.pick(1, MILLION)])

    def of_UL(self):
        if self.chance(15):
            return []
        index = self.pick(1, 1, 2, 2, 3, 8, -1, -2, -8, *((0, 9, -9) if self.is_wild else ())) * MILLION + self.pick(0, 0, 499_999)
        count = self.pick(0, 1, 1, 2, 2, 3, 4, 5, 20, *((21, 22) if self.is_wild else ()))
        gaps = [self.pick(0, 0, 10, 20, 50, 3, 1) * self.pick(MILLION, MILLION, 333_333) for _ in range(count)]
        if gaps and self.is_wild and self.chance(20):
            gaps[self.upto(count - 1)] = self.pick(-1, -MILLION)
        return [index, *gaps]

    def of_choice(self):
        """None, 0 or 1."""
        wild = (2 * MILLION, -MILLION, 1_500_000, -500_001) if self.is_wild else ()
        return self.pick([], [0], [MILLION], [self.pick(499_999, 500_000, -500_000, MILLION, *wild)])

    of_WU = of_CT = of_FP = of_choice

    def of_PW(self):
        if self.chance(50):
            return super().of_PW()
        width = self.pick(0, 100_000, 1_000_000, 350_000, *((100 * MILLION, 100_000_001, -1) if self.is_wild else ()))
        return [width] + self.pick([], self.pen_number())

    def of_PT(self):
        return self.pick([], [300_000], [500_000], [0], [self.pick(20_000_000, 20_000_001, -1, 782)])

    def of_CR(self):
        if self.chance(15):
            return []
        ends = [self.pick((0, 1), (0, 100), (0, 255), (255, 0), (-5, 63), (3, 10)) for _ in range(3)]
        if self.is_wild and self.chance(20):
            ends[self.upto(2)] = self.pick((5, 5), (0, 0))
        return [MILLION * end + self.pick(0, 0, 0, 499_999, 500_000) for pair in ends for end in pair]

    def part_of_colour(self):
        if self.chance(60):
            return super().part_of_colour()
        return self.pick(0, 1, 50, 100, 63, 127, -3, 300) * self.pick(MILLION, MILLION, 500_000, 333_333)

    # P1, P2 and letters

    def percents(self, count):
        wild = (-1000, 1000, 1001, 0) if self.is_wild else ()
        return [self.pick(0, 25, 50, 75, 100, 100, 33, -10, *wild) * MILLION + self.pick(0, 0, 0, 333_333) for _ in range(count)]

    def of_IR(self):
        return self.percents(self.pick(0, 2, 4, 4, 4))

    def of_SR(self):
        sizes = (750_000, 1_500_000, 3 * MILLION, -2 * MILLION, 10 * MILLION, self.upto(5 * MILLION))
        if self.is_wild and self.chance(20):
            sizes = (0, 1, MILLION, 1000 * MILLION, 1_000_000_001)
        return [] if self.chance(15) else [self.pick(*sizes), self.pick(*sizes)]

    def of_DI(self):
        return super().of_DI() if self.chance(40) else self.of_DR()

    def of_DR(self):
        if self.chance(10):
            return []
        parts = (-4, -3, -1, 0, 1, 2, 3, 5, 12)
        run, rise = (self.pick(*parts) * self.pick(1, MILLION, MILLION, 333_333, 8_388_607 * MILLION // 12) for _ in range(2))
        return [run or (0 if self.is_wild else MILLION), rise]

    def of_SL(self):
        tangents = (0, 1, -1, 0.364, -0.5, 3, *((1000, 1000.1, -1000) if self.is_wild else ()))
        return [] if self.chance(15) else [round(self.pick(*tangents) * MILLION)]

    def of_ES(self):
        spaces = (0, 0, 1, -1, 0.5, -0.333333, 2, -2, *((100, 100.1, -101) if self.is_wild else ()))
        return [round(self.pick(*spaces) * MILLION) for _ in range(self.pick(0, 1, 2, 2))]

    def of_LO(self):
        origin = self.pick(*range(1, 10), *range(11, 20), 21, *((0, 10, 20, 22, -1) if self.is_wild else ()))
        return [] if self.chance(10) else [origin * MILLION + self.pick(0, 0, 0, 499_999, -500_000)]

    def of_DV(self):
        path = self.pick(0, 1, 2, 3, *((4, -1) if self.is_wild else ())) * MILLION + self.pick(0, 0, 499_999)
        return self.pick([], [path], [path], [path, self.pick(0, 1, 1, 2 if self.is_wild else 1) * MILLION])

    def of_CP(self):
        return [round(self.pick(0, 1, -1, 2.5, 0.333333, -3) * MILLION) for _ in range(self.pick(0, 2, 2))]

    def of_TL(self):
        return self.percents(self.pick(0, 1, 2, 2))

    def of_XT(self):
        return self.pick([], [], [MILLION])

    of_YT = of_EP = of_XT

    # Polygons, fills and curves

    def of_PM(self):
        if self.chance(20):
            return []
        mode = self.pick(0, 0, 1, 1, 2, 2, *((3, -1) if self.is_wild else ()))
        return [mode * MILLION + self.pick(0, 0, 0, 499_999, -500_000)]

    def of_FT(self):
        kind = self.pick(1, 2, 3, 3, 4, 4, 10, 10, 11, 21, 22, *((0, 5, -1, 23) if self.is_wild else ()))
        spacing = self.pick(0, 1, 2, 4, 10, 0.5, 0.333333, *((-1, -0.000001, 8_000_000) if self.is_wild else ()))
        angle = self.pick(0, 0, 45, 90, 30, -45, 180, 12.3456, 400)
        if kind == 10:
            spacing = self.pick(0, 100, 50, 5, 99.999999, 0.000001, *((-1, 101) if self.is_wild else ()))
        numbers = [kind * MILLION + self.pick(0, 0, 499_999, -500_000), round(spacing * MILLION), round(angle * MILLION)]
        return numbers[: self.pick(0, 1, 2, 2, 3, 3, 3)]

    def of_AC(self):
        return [] if self.chance(25) else self.place()

    of_RA = Writer.of_EA
    of_RR = Writer.of_ER

    def of_EW(self):
        radius = self.pick(*self.step(), 0, 10 * MILLION, 16 * MILLION, -7_500_000)
        start = self.pick(0, 90, 45, -30, 180, 360, 725, 8_388_607) * MILLION + self.pick(0, 0, 499, 500, 12_345)
        sweep = self.pick(90, -90, 45, 180, 360, -360, 359.9995, 359.9994, 0, 0.0004, 400, -500, 1)
        return [radius, start, round(sweep * MILLION)] + self.length_of_chord()

    of_WG = of_EW

    def of_AT(self):
        if self.chance(60):
            points = self.place() + self.place()
        else:
            # Often on one line, or with two places the same.
            point = self.place()
            points = point + self.pick(point, self.place(), [2 * at for at in point], [point[0], -point[1]])
        return points + self.length_of_chord()

    def of_RT(self):
        point = self.step()
        end = self.pick(self.step(), [2 * at for at in point], [0, 0], point, [point[1], -point[0]], [at + 62_500 for at in point])
        return point + end + self.length_of_chord()

    def of_BZ(self):
        return sum((self.place() for _ in range(3 * self.pick(1, 1, 1, 2))), []) + self.number_too_many()

    def of_BR(self):
        return sum((self.step() for _ in range(3 * self.pick(1, 1, 1, 2))), []) + self.number_too_many()

    def of_UC(self):
        """Moves of a few units, with the pen down for most, and now and then a number alone, or numbers of any size."""
        numbers = []
        for _ in range(self.pick(0, 1, 2, 3, 5, 9)):
            if self.chance(50):
                numbers.append(self.pick(99, 99, 99, -99, 100, -8_388_607, 98.999999, -98.999999))
            numbers += [self.pick(0, 1, -1, 2, 4, -4, 0.5, -0.333333), self.pick(0, 2, -2, 4, 8, -8, 1.25, 99, -99)]
        if self.chance(5):
            numbers.append(self.pick(1, 99, -99, 8_388_607))
        return [round(number * MILLION) for number in numbers]

    def number_too_many(self):
        return [MILLION] * self.pick(1, 2, 5) if self.is_wild and self.chance(20) else []
