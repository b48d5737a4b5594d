"""The table of the options in crates/command_line/src/table.rt, from which the program and the documents must not differ."""

import re
from typing import NamedTuple

from shared import read

LINES = ("pdf", "svg", "dxf")
ROWS = ("marks", "pbm", "ppm", "pcl")
RASTERS = ("draw", "png", *ROWS)
PICTURES = (*RASTERS, *LINES)
# The commands of each group.
GROUPS = {"All": (*PICTURES, "report"), "Pictures": PICTURES, "Rasters": RASTERS, "Smoothed": ("draw", "png", "ppm"),
          "Texts": ("draw", "dxf"), "Rows": ROWS, "Draw": ("draw",), "Pcl": ("pcl",)}


class Option(NamedTuple):
    """A row. What it takes is a range, "word" or "flag"; defaults and help are for groups, of which the first counts."""

    name: str
    short: str
    aliases: list
    commands: tuple
    takes: str
    defaults: list
    value_name: str
    help: list

    def default(self, command):
        """What the program gives the option of a command if it is left out."""
        return of_command(self.defaults, command)

    def says(self, command):
        """What help says of it for a command, with its default."""
        default = self.default(command)
        return of_command(self.help, command) + (f" [default: {default}]" if default is not None else "")


def of_command(texts, command):
    return next((text for group, text in texts if command in GROUPS[group]), None)


def of_groups(text):
    """The groups of a field, each with its text."""
    return re.findall(r'\(\s*Group::(\w+),\s*"((?:[^"\\]|\\.)*)",?\s*\)', re.sub(r"\\\n\s*", "", text))


def option_of(row):
    field = dict(re.findall(r"^        (\w+): (.*?),$(?=\n        \w+: |\Z)", row, re.M | re.S))
    number = re.fullmatch(r"Value::Number\((\d+), (\d+)\)", field["value"])
    return Option(
        name="--" + field["name"].strip('"'),
        short="".join(re.findall(r"'(.)'", field["short"])),
        aliases=["--" + it for it in re.findall(r'"(\w+)"', field["aliases"])],
        commands=GROUPS[field["group"].removeprefix("Group::")],
        takes=f"{number[1]} to {number[2]}" if number else field["value"].removeprefix("Value::").lower(),
        defaults=of_groups(field["defaults"]),
        value_name=field["value_name"].strip('"'),
        help=of_groups(field["help"]),
    )


def table():
    """All options, in their order."""
    text = read("crates", "command_line", "src", "table.rt")
    rows = re.findall(r"^    OptionRow \{\n(.*?)\n    \},$", text, re.M | re.S)
    assert len(rows) == int(re.search(r"\[OptionRow<'static>; (\d+)\]", text)[1])
    return [option_of(row) for row in rows]


OPTIONS = table()


def options_of(command):
    """The options of a command, in their order."""
    return [it for it in OPTIONS if command in it.commands]
