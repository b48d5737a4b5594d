"""Escapes of HP RTL and PCL within a plot: from the bytes after an ESC to commands.

An escape is a byte from 48 to 126 by itself, or a group: a byte from 33 to 47, a small letter that may be missing, and
commands. Each command is a value and a letter; a small letter says that another command of the group follows. After % is
always one command. Data follow some letters.
"""

import re
from typing import NamedTuple

from .cutting import MILLION

GREATEST = 2_147_483_647
VALUE = re.compile(rb"([+-]?)([0-9]*)(?:\.([0-9]*))?")
LANGUAGE = re.compile(rb"(-?)([0-9]*)([A-Za-z@])")


class Command(NamedTuple):
    """A command: its group with the small letter after it, its letter as a capital, its value in millionths with the sign
    that is written, and its data."""

    group: str
    letter: str
    value: int = 0
    sign: str = ""
    data: bytes = b""

    def rounded(self):
        """The value as a whole number; halves are rounded up."""
        return (2 * self.value + MILLION) // (2 * MILLION)


def escape(text, at):
    """The commands of the escape after an ESC at a place, and the place after it; None if the ESC is a stray."""
    first = text[at + 1 : at + 2]
    if not first:
        return None
    if 48 <= first[0] <= 126:
        return [Command("", chr(first[0]))], at + 2
    if first == b"%":
        return language(text, at + 2)
    if 33 <= first[0] <= 47 and first != b".":
        return chain(text, at + 1)
    return None


def language(text, at):
    """A command after %."""
    found = LANGUAGE.match(text, at)
    if not found:
        return None
    value = min(int(found[2] or b"0"), GREATEST) * MILLION
    command = Command("%", chr(found[3][0]).upper(), -value if found[1] else value, found[1].decode())
    command, end = with_data(command, text, found.end())
    return [command], end


def chain(text, at):
    """The commands of a group that begins at a place; one that breaks off ends after its last whole command."""
    end = at + 2 if 96 <= (text[at + 1 : at + 2] or b"\0")[0] <= 126 else at + 1
    group, commands, goes_on = text[at:end].decode(), [], True
    while goes_on:
        value = VALUE.match(text, end)
        letter = (text[value.end() : value.end() + 1] or b"\0")[0]
        if not 64 <= letter <= 126 or letter == 95:
            break
        goes_on, end = letter >= 96, value.end() + 1
        command = Command(group, chr(letter - 32 if goes_on else letter), millionths(value), value[1].decode())
        command, end = with_data(command, text, end)
        commands.append(command)
    return (commands, end) if commands else None


def with_data(command, text, at):
    """A command with its data, if it has any, which begin at a place, and the place after them."""
    if command.letter == "W" or (command.group, command.letter) in (("*b", "V"), ("&p", "X")):
        data = text[at : at + max(0, command.rounded())]
        return command._replace(data=data), at + len(data)
    return command, at


def millionths(value):
    size = min(int(value[2] or b"0"), GREATEST) * MILLION + int((value[3] or b"")[:6].ljust(6, b"0"))
    return -size if value[1] == b"-" else size
