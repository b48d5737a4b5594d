"""From the bytes of a plot to its items, in the profile full.

The core's items, and those of further instructions. An item of the kind `known` has no effect, one of the kind
`byte` has a byte or None, one of the kind `text` has a text, and one of the kind `damaged` has the numbers before a wrong byte.
"""

import re

from . import cutting
from .cutting import END_OF_TEXT, MILLION, SKIPPED, BadFrom, Item, rounded
from .escapes import escape
from .full_settings import FullSettings
from .images import is_rtl_after

# Instructions whose numbers are not read.
WITHOUT_NUMBERS = "PG AF AH NR FR BP PB SS SA".split()
# Further instructions with numbers: these, and those that set something, which are methods of FullSettings.
FURTHER_WITH_NUMBERS = "CP XT YT PM EP FP RA RR EW WG AT RT BZ BR UC".split() + [
    name for name in vars(FullSettings)
    if re.fullmatch("[A-Z]{2}", name) and name not in (*cutting.WITH_NUMBERS, *WITHOUT_NUMBERS, "BL", "SM")
]
# Instructions that draw by the numbers before a wrong byte.
DRAWN_IN_PART = "PU PD PA PR BZ BR".split()
WITHOUT_EFFECT = """
    PS NP LA MC PP MT QL ST VS FS AS AP EC GC GM FN FI SB DS IV CM CF CC LM TD RF MG IM KY
    DC DP OA OC OD OE OF OG OH OI OK OL OO OP OS OT OW
""".split()
# A comment: a quoted text if one comes first, and all up to its `;`.
COMMENT = re.compile(rb'[ \t\r\n]*(?:"[^"]*(?:"|\Z))?[^;]*;?')
ESC, FORM_FEED = 27, 12
BLANKS = re.compile(rb"[ \t\r\n]*")


class Printed(int):
    """A terminator that is the last byte of its text, too."""


def items(plot):
    """The items of a plot. An escape is one of the kind `escape`, with its commands, and a form feed between images one of the
    kind `page`."""
    place, terminator, is_rtl = 0, END_OF_TEXT, False
    while place < len(plot):
        found = escape(plot, place) if plot[place] == ESC else None
        if found:
            commands, end = found
            yield Item(place, "ESC", "escape", commands)
            for command in commands:
                is_rtl = is_rtl_after(command, plot, end, is_rtl)
            place = end
        elif is_rtl:
            if plot[place] == FORM_FEED:
                yield Item(place, "", "page")
            place += 1
        else:
            item, place = next_item(plot, place, terminator)
            if item:
                terminator = cutting.terminator_after(item, terminator)
                yield item


def next_item(plot, place, terminator):
    """The item at a place where no escape is, or None if what is there is silent; and the place after it."""
    silent = cutting.SILENT.match(plot, place)
    if silent:
        return None, silent.end()
    if cutting.MNEMONIC.match(plot, place):
        return instruction(plot, place, terminator)
    return Item(place, "", "stray", plot[place]), place + 1


def instruction(plot, at, terminator):
    """The instruction at a place, and the place after it."""
    code, place = plot[at : at + 2].decode().upper(), at + 2
    if code in FURTHER_WITH_NUMBERS or code in DRAWN_IN_PART:
        try:
            has, end = cutting.numbers(plot, place)
            return Item(at, code, "numbers", has), end
        except BadFrom as bad:
            kind = "damaged" if code in DRAWN_IN_PART else "bad"
            return Item(at, code, kind, bad.numbers), SKIPPED.match(plot, bad.place).end()
    if code in WITHOUT_NUMBERS:
        return Item(at, code, "numbers", []), SKIPPED.match(plot, place).end()
    if code in WITHOUT_EFFECT:
        return Item(at, code, "known"), SKIPPED.match(plot, place).end()
    if code == "CO":
        return Item(at, code, "known"), COMMENT.match(plot, place).end()
    if code in ("BL", "WD"):
        text, end, is_open = cutting.label(plot, place, terminator)
        return Item(at, code, "text" if code == "BL" else "known", whole_text(text, terminator, is_open)), end
    if code == "SM":
        taken = plot[place : place + 1].replace(b";", b"")
        symbol = taken[0] if taken and 33 <= taken[0] <= 126 else None
        return Item(at, code, "byte", symbol), SKIPPED.match(plot, place + len(taken)).end()
    item, end = cutting.instruction(plot, at, terminator)
    if item.kind == "label":
        item = item._replace(has=whole_text(item.has, terminator, item.is_open))
    elif item.kind == "terminator" and plot[place] != ord(";") and is_printed(plot, place + 1):
        item = item._replace(has=Printed(item.has))
    return item, end


def whole_text(text, terminator, is_open):
    """A text with its terminator, if that is printed."""
    return text + bytes([terminator]) if isinstance(terminator, Printed) and not is_open else text


def is_printed(plot, place):
    """Whether the mode of a DT is 0, by what follows its byte: a comma, and a number that rounds to 0."""
    if plot[place : place + 1] != b",":
        return False
    try:
        return rounded(cutting.one_number(plot, BLANKS.match(plot, place + 1).end())[0], MILLION) == 0
    except BadFrom:
        return False
