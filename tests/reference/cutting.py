"""From the bytes of a plot to its items.

docs/INSTRUCTIONS.md, "How a plot is cut".
"""

import re
from typing import NamedTuple

BLANKS = " \t\r\n"
END_OF_TEXT = 3
LARGEST_WHOLE = 8_388_607
MILLION = 1_000_000

# Instructions that are followed by numbers.
WITH_NUMBERS = "IN DF IP SC RO IW SP PW PC PU PD PA PR EA ER CI AA AR SI DI".split()

SILENT = re.compile(rb"[ \t\r\n;]|\x1b%-?[0-9]*[A-Za-z]|\x1b\..[0-9;-]*:?|\x1bE|@[^\n]*\n?", re.S)
MNEMONIC = re.compile(rb"[A-Za-z]{2}")
# What is skipped: up to its `;`, or up to a letter or ESC, outside double quotes.
SKIPPED = re.compile(rb'(?:"[^"]*(?:"|\Z)|[^";A-Za-z\x1b])*;?')
SEPARATORS = re.compile(rb"[, \t\r\n]*")
NUMBER = re.compile(rb"([+-]?)(?:([0-9]+)\.?([0-9]*)|\.([0-9]+))")
END_OF_NUMBERS = re.compile(rb";|(?=[A-Za-z\x1b])|\Z")


class Item(NamedTuple):
    """An instruction with what it has, or a stray byte."""

    at: int  # the place of its first byte
    code: str  # its two letters in capitals; of a stray nothing
    kind: str  # numbers, label, polyline, terminator, skipped, bad or stray
    has: object = None  # the numbers in millionths, the text, the entries or the byte
    is_open: bool = False  # a label or a polyline without its end


class Entry(NamedTuple):
    """What a PE has: a pen, a pair of coordinates, a bad place or a stray byte."""

    at: int
    kind: str  # pen, pair, bad or stray
    has: object = None


class Pair(NamedTuple):
    x: int
    y: int
    is_up: bool
    is_absolute: bool


class BadFrom(Exception):
    """An instruction is bad, and it is skipped from this place on; the numbers before it may count."""

    def __init__(self, place, numbers=()):
        super().__init__(place)
        self.place, self.numbers = place, list(numbers)


def items(plot):
    """The items of a plot."""
    place, terminator = 0, END_OF_TEXT
    while place < len(plot):
        silent = SILENT.match(plot, place)
        if silent:
            place = silent.end()
        elif MNEMONIC.match(plot, place):
            item, place = instruction(plot, place, terminator)
            terminator = terminator_after(item, terminator)
            yield item
        else:
            yield Item(place, "", "stray", plot[place])
            place += 1


def terminator_after(item, terminator):
    """The byte that ends the labels after an item."""
    if item.kind == "terminator":
        return item.has
    if item.kind == "numbers" and item.code in ("IN", "DF", "BP"):
        return END_OF_TEXT
    return terminator


def instruction(plot, at, terminator):
    """The instruction at a place, and the place after it."""
    code, place = plot[at : at + 2].decode().upper(), at + 2
    try:
        if code in WITH_NUMBERS:
            has, place = numbers(plot, place)
            return Item(at, code, "numbers", has), place
        if code == "LB":
            text, place, is_open = label(plot, place, terminator)
            return Item(at, code, "label", text, is_open), place
        if code == "PE":
            entries, place, is_open = polyline(plot, place)
            return Item(at, code, "polyline", entries, is_open), place
        if code == "DT":
            has, place = new_terminator(plot, place)
            return Item(at, code, "terminator", has), place
    except BadFrom as bad:
        return Item(at, code, "bad"), SKIPPED.match(plot, bad.place).end()
    if code == "BL":
        return Item(at, code, "skipped"), label(plot, place, terminator)[1]
    if code == "SM" and plot[place : place + 1] != b";":
        place += 1
    return Item(at, code, "skipped"), SKIPPED.match(plot, place).end()


def numbers(plot, place):
    """The numbers of an instruction, in millionths, and the place after them."""
    found = []
    while True:
        place = SEPARATORS.match(plot, place).end()
        end = END_OF_NUMBERS.match(plot, place)
        if end:
            return found, end.end()
        try:
            number, place = one_number(plot, place)
        except BadFrom as bad:
            raise BadFrom(bad.place, found) from None
        found.append(number)


def one_number(plot, place):
    """The number at a place, in millionths, and the place after it."""
    number = NUMBER.match(plot, place)
    whole = number[2].lstrip(b"0") if number and number[2] else b""
    if not number or len(whole) > 7 or int(whole or 0) > LARGEST_WHOLE:
        raise BadFrom(place)
    decimals = (number[3] or number[4] or b"")[:6].ljust(6, b"0")
    size = int(whole or 0) * MILLION + int(decimals)
    return -size if number[1] == b"-" else size, number.end()


def label(plot, place, terminator):
    """A label's text, the place after its terminator, and whether there is none."""
    end = plot.find(terminator, place)
    if end < 0:
        return plot[place:], len(plot), True
    return plot[place:end], end + 1, False


def new_terminator(plot, place):
    """The terminator that a DT chooses, and the place after the instruction."""
    chosen = plot[place : place + 1]
    if chosen == b";":
        return END_OF_TEXT, place + 1
    if chosen in (b"", b"\0", b"\n", b"\x1b"):
        raise BadFrom(place + len(chosen))
    return chosen[0], SKIPPED.match(plot, place + 1).end()


# The text of a PE


class BadPart(Exception):
    """A PE is bad from this place on."""


class Cut(Exception):
    """The plot ends within a coded number."""


class Coding(NamedTuple):
    """How coded numbers are written."""

    base: int
    last: int  # the byte of a last digit 0
    most: int  # the most digits


SIXTY_FOUR, THIRTY_TWO = Coding(64, 191, 6), Coding(32, 95, 7)


def begins_number(byte, coding):
    """Whether a coded number may begin with this byte."""
    return 63 <= byte <= 126 or coding.last <= byte < coding.last + coding.base


def coded(plot, at, coding):
    """The coded number at a place, and the place after it."""
    code = 0
    for i in range(coding.most):
        if at + i == len(plot):
            raise Cut
        byte = plot[at + i]
        if coding.last <= byte < coding.last + coding.base:
            code += (byte - coding.last) * coding.base**i
            return -(code // 2) if code % 2 else code // 2, at + i + 1
        if not 63 <= byte < 63 + coding.base:
            break
        code += (byte - 63) * coding.base**i
    raise BadPart(at)


def polyline(plot, place):
    """The entries of a PE, by place; the place after its `;`; and whether there is none."""
    reader = PolylineReader()
    try:
        end = reader.read(plot, place)
    except Cut:
        end = -1
    except BadPart as bad:
        # What follows the bad place is dropped.
        at = bad.args[0]
        reader.entries = [entry for entry in reader.entries if entry.at < at] + [Entry(at, "bad")]
        end = plot.find(b";", at)
    entries = sorted(reader.entries, key=lambda entry: entry.at)
    return (entries, len(plot), True) if end < 0 else (entries, end + 1, False)


class PolylineReader:
    """Reads the text of a PE, piece by piece."""

    def __init__(self):
        self.entries = []
        self.coding, self.fraction = SIXTY_FOUR, 0
        self.is_up = self.is_absolute = False
        # What waits: a flag and its place for its number, or a number and its place for its partner.
        self.flag = self.first = None

    def read(self, plot, place):
        """Reads up to the `;`, and gives its place; -1 if there is none."""
        while place < len(plot):
            at, byte, sign = place, plot[place], chr(plot[place])
            place += 1
            if sign in ";7><:=":
                waits = self.flag or self.first
                if waits:
                    raise BadPart(waits[0])
                if sign == ";":
                    return at
                self.take_flag(at, sign)
            elif begins_number(byte, self.coding):
                number, place = coded(plot, at, self.coding)
                self.take_number(at, number)
            elif sign not in BLANKS:
                self.entries.append(Entry(at, "stray", byte))
        return -1

    def take_flag(self, at, sign):
        if sign == "7":
            self.coding = THIRTY_TWO
        elif sign == "<":
            self.is_up = True
        elif sign == "=":
            self.is_absolute = True
        else:
            self.flag = (at, sign)

    def take_number(self, at, number):
        if self.flag:
            flag_at, sign = self.flag
            if not 0 <= number <= (255 if sign == ":" else 26):
                raise BadPart(flag_at)
            if sign == ":":
                self.entries.append(Entry(flag_at, "pen", number))
            else:
                self.fraction = number
            self.flag = None
        elif not self.first:
            self.first = (at, number)
        else:
            at, x = self.first
            x, y = (rounded(n * MILLION, 2**self.fraction) for n in (x, number))
            self.entries.append(Entry(at, "pair", Pair(x, y, self.is_up, self.is_absolute)))
            self.first, self.is_up, self.is_absolute = None, False, False


def rounded(dividend, divisor):
    """A quotient, rounded to the nearest whole number; halves are rounded up."""
    return (2 * dividend + divisor) // (2 * divisor)
