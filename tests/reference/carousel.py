"""Pens whose colours and widths are said by option: they hold whatever a plot sets."""

import re
from typing import NamedTuple

from .cutting import MILLION, rounded
from .pen_lists import pens_of

# The colours of HTML 4, with both spellings of grey.
NAMES = {
    "black": "000000", "silver": "c0c0c0", "gray": "808080", "grey": "808080", "white": "ffffff", "maroon": "800000",
    "red": "ff0000", "purple": "800080", "fuchsia": "ff00ff", "green": "008000", "lime": "00ff00", "olive": "808000",
    "yellow": "ffff00", "navy": "000080", "blue": "0000ff", "teal": "008080", "aqua": "00ffff",
}
MOST_MILLIMETRES = 20
GRAINS_OF_A_MILLIMETRE = 640


class Carousel(NamedTuple):
    """Colours and widths in grains, each by its pen; a pen that is not there has those that the plot sets."""

    colours: dict
    widths: dict


EMPTY = Carousel({}, {})


class BadItem(Exception):
    """An item of a list is bad."""


def colours_of(text):
    return assigned(text, colour_of)


def widths_of(text):
    return assigned(text, width_of)


def assigned(text, value_of):
    """The values of a list such as 2=red,3-7=#00f, each by its pen; of several for a pen the last one counts."""
    values = {}
    for item in text.split(","):
        pens, equals, value = item.partition("=")
        numbers, value = pens_of(pens), value_of(value) if equals else None
        if numbers is None or value is None:
            raise BadItem(item)
        values.update(dict.fromkeys(numbers, value))
    return values


def colour_of(text):
    """Red, green and blue of a colour, or None."""
    if not text.isascii():
        return None
    text = text.lower()
    digits = NAMES.get(text, text.removeprefix("#"))
    if re.fullmatch("#[0-9a-f]{3}", text):
        digits = "".join(2 * digit for digit in digits)
    return tuple(bytes.fromhex(digits)) if re.fullmatch("[0-9a-f]{6}", digits) else None


def width_of(text):
    """The grains of a width in millimetres, or None; digits after the sixth decimal are not read."""
    if not re.fullmatch(r"[0-9]+\.?[0-9]*|\.[0-9]+", text):
        return None
    whole, _, decimals = text.partition(".")
    millionths = int(whole or "0") * MILLION + int(decimals[:6].ljust(6, "0"))
    if millionths > MOST_MILLIMETRES * MILLION:
        return None
    return rounded(GRAINS_OF_A_MILLIMETRE * millionths, MILLION)
