"""Random numbers and coordinates, and how they are written."""

import random

from .cutting import MILLION


def spelled(number):
    """A number of millionths, in its shortest spelling."""
    whole, decimals = divmod(abs(number), MILLION)
    text = f"{whole}.{decimals:06}".rstrip("0").rstrip(".")
    return "-" + text if number < 0 else text


def coded(number, base, length=1):
    """A whole number, coded for a PE by so many digits at least."""
    code, digits = 2 * abs(number) + (number < 0), []
    while code >= base or len(digits) + 1 < length:
        digits.append(63 + code % base)
        code //= base
    return bytes([*digits, (191 if base == 64 else 95) + code])


class Numbers:
    """Chooses numbers for one plot."""

    # How far places may be from the corner of the page, in units.
    farthest = (65_536,)

    def __init__(self, seed):
        self.random = random.Random(seed)
        # The page, in plotter units; the options of the case set it.
        self.width = self.height = 64
        self.left = self.below = 0
        self.scale = None  # the numbers of the most recent SC: coordinates lie between them
        self.is_wild = self.chance(45)  # whether the plot has what is bad
        self.is_far = self.chance(8)  # whether it has places near the edge of the range

    def chance(self, percent):
        return self.random.random() * 100 < percent

    def pick(self, *choices):
        return self.random.choice(choices)

    def upto(self, most):
        return self.random.randint(0, most)

    def coordinate(self, axis):
        """A coordinate in millionths, along x or y."""
        side, margin = ((self.width, self.left), (self.height, self.below))[axis]
        if self.scale and self.chance(85):
            first, last = self.scale[axis]
            return self.pick(first, last, (first + last) // 2, first + (last - first) * self.upto(24) // 16)
        if self.is_far and self.chance(15):
            return self.far_coordinate() - margin * MILLION
        kind = self.upto(96 if self.is_wild else 82)
        if kind < 35:
            units = MILLION * self.upto(side)
        elif kind < 60:
            units = self.upto(16 * side) * 62_500
        elif kind < 68:
            units = (2 * self.upto(16 * side) + 1) * 31_250 + self.pick(0, 0, -1, 1)
        elif kind < 76:
            units = self.pick(0, side, side // 2, -1, side + 1) * MILLION
        elif kind < 88:
            units = self.random.randint(-20 * MILLION, (side + 20) * MILLION)
        else:
            units = MILLION * self.random.randint(-side, 2 * side)
        return units - margin * MILLION

    def far_coordinate(self):
        """A coordinate near the edge of the range, or beyond it."""
        if self.chance(20):
            return self.random.randint(-8_388_607, 8_388_607) * MILLION + self.pick(0, 999_999)
        return self.pick(-1, 1) * self.pick(*self.farthest) * MILLION + self.pick(0, 0, 1, -1, 31_249, 31_250, 31_251, -31_250)

    def place(self):
        return [self.coordinate(0), self.coordinate(1)]

    def number(self, number):
        """A number of millionths as text, sometimes in an odd spelling."""
        text = spelled(number)
        if self.chance(90):
            return text
        if "." in text:
            return text.replace("0.", ".", 1) if self.chance(50) else text.ljust(12, "0") + self.pick("", "9")
        sign, digits = ("-", text[1:]) if number < 0 else (self.pick("", "+"), text)
        if self.is_wild and self.chance(5):
            sign += self.pick("+", "-")
        return sign + self.pick("", "00", "0" * 9) + digits + self.pick("", ".", ".0", ".0000009")

    def numbers(self, numbers):
        """The numbers of an instruction as text, sometimes too few, too many or not well written."""
        numbers = list(numbers)
        if self.is_wild and self.chance(6):
            numbers = numbers[: self.upto(len(numbers))]
        elif self.is_wild and self.chance(4):
            numbers += [MILLION * self.upto(9) for _ in range(self.upto(3))]
        text = ""
        for number in numbers:
            word = self.number(number)
            gap = self.pick(",", ",", ",", " ", ", ", "\n", ",,", " ,\t") if text else self.pick("", "", "", " ", ",")
            text += ("" if text and word[0] in "-+" and self.chance(30) else gap) + word
        if self.is_wild and self.chance(4):
            text += self.pick(",", " ", "-", ".", "+", "e3", "!", ",8388608", ",8388607", '"', "..5", ",\x1b", "@", ",1,2")
        return text.encode() + self.pick(b";", b";", b";", b";", b"", b"\n")
