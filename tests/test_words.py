"""Runs odd command lines on the built program.

Each generator below gives command lines and what each must end with: an exit status and how standard
error begins, as the manual page says. Beside that, each run ends by itself within some seconds and
without a signal, standard output is empty unless the status is 0, and standard error is empty exactly
if it is 0.

The program runs in a folder with these files: `line.plt`, `--left`, ` line.plt` and `line.plt `, a plot of
one line; `edge.plt`, a dot as far to the left as may be; `far.plt`, a plot that goes too far; `folder`, which is none.
Standard input is an empty plot.
"""

import os
import shutil
import subprocess
import tempfile

import pytest

from reference import messages
from reference.command_line import DOCUMENTS, VECTORS
from reference.outputs import FORMS
from shared import assert_nothing, read, run, write

SECONDS = 10
LINE = b"SP1;PU0,28;PD64,28;"
FILES = {
    "line.plt": LINE, "--left": LINE, " line.plt": LINE, "line.plt ": LINE, "far.plt": b"PA8388607.9,0;",
    "edge.plt": b"PU-8388607,0;PD;",
}

# What a run must end with: the exit status, and how standard error begins.
DONE = (0, b"")
OFF_RANGE = messages.refused("off-range", 0)
USAGE = (2, b"error: ")
NO_TEXT = (2, b"plotraster: words not understood\n")
BAD_LIST = messages.refused("pens")
TOO_FINE = messages.refused("too-fine")
BAD_PAGE = (2, b"plotraster: bad page: use a0 to a5, b4, letter, legal, tabloid, ansi-a to ansi-e, arch-d or arch-e, ")
PAGE_AND_SIDE = messages.refused("page-and-sides")
BAD_PROFILE = messages.refused("profile")
NO_FORM = (2, b"plotraster: no such form of picture: ")
NO_SHADES = messages.refused("smooth-without-shades")
BAD_LABELS = messages.refused("labels")
NO_TEXTS = messages.refused("labels-without-texts")
LABELS_IN_CORE = messages.refused("labels-in-core")
NO_PIXELS = messages.refused("no-pixels")
NO_FIT = messages.refused("margin-without-fit")
BAD_ROTATION = messages.refused("rotation")
TOO_FAR = messages.refused("too-far-to-turn")
TOO_MANY_PIXELS = messages.refused("too-many-pixels")
# Over 400,000 rows.
TALL = ["--profile=full", "--width=64", "--height=523712", "--dots=776"]
NO_FOLDER = messages.refused("no-folder")
BAD_SHEET = (2, b"plotraster: bad sheet: use a number from 0 to 4194304, or each\n")
EACH_OF_A_REPORT = (2, b"plotraster: --sheet each needs a picture\n")
EACH_WITHOUT_A_FOLDER = messages.refused("each-without-folder")
SIZE_AND_DOTS = (2, b"plotraster: --size may not be given with --dots\n")
SIZE_OF_PCL = (2, b"plotraster: --size may not be given with the form pcl\n")
NO_SHEETS = (2, b"plotraster: --sheet needs --profile full\n")
BAD_CHARACTERS = (2, b"plotraster: bad characters: use roman-8, latin-1, windows-1252, pc-8, ascii or utf-8\n")
NO_LONG_PAGE = messages.refused("long-page")
NO_CHARACTERS = (2, b"plotraster: --characters needs --profile full\n")
NOT_OF_PCL = messages.refused("resolution")
PAST_THE_END = messages.refused("first-row")
NOT_READ = messages.refused("read")
NOT_A_FOLDER = messages.refused("output", "line.plt", "not-a-folder")
NOT_WRITTEN = messages.refused("output", "folder", "Is a directory (os error 21)")

COMMANDS = [*DOCUMENTS, *FORMS, "report"]
LONGEST_OF_CORE = 65536
# A page of 64 by 64 units: 6 rows at the default resolution.
SMALL = ["--width=64", "--height=64"]
ROWS = 6
PAGE_RANGES = {
    "--width": (64, 524288), "--height": (64, 524288), "--left": (0, 65536), "--below": (0, 65536),
}
PAPERS = [
    "a0", "a1", "a2", "a3", "a4", "a5", "b4", "letter", "legal", "tabloid",
    "ansi-a", "ansi-b", "ansi-c", "ansi-d", "ansi-e", "arch-d", "arch-e",
]
PICTURE_RANGES = {"--dots": (10, 1200), "--band": (1, 4096), "--from": (0, 399999), "--rows": (1, 400000)}
RANGES = {**PAGE_RANGES, **PICTURE_RANGES}
PCL_DOTS = [75, 100, 150, 200, 300, 600]
# As many letters as Linux lets a word have, nearly.
LONG = 120000


def not_opened(name, reason=None, command="pbm"):
    """What a run must end with if a file cannot be opened. With --verbose the reason is in a second line; of a document it
    is always in the first."""
    if command in DOCUMENTS:
        return messages.refused("not-opened", name, reason or "no-such-file")
    return 3, messages.said("open", name) + (messages.said_why(reason) if reason else b"")


def plain():
    """Each command with its file, and without."""
    for command in COMMANDS:
        yield [command], DONE
        yield [command, "line.plt"], DONE
        yield [command, "far.plt"], OFF_RANGE


def commands():
    """No command, or one that is none."""
    yield [], USAGE
    for word in [
        "", " ", "mark", "markss", "pb", "PBM", "Report", "help", "version", "gif", "pbm ", " pbm", "pbm\n", "pbm,ppm",
        "pbm=1", "pbm\t", "line.plt", "-", "--", "---", "=", "\u00e9", "\U0001f58a", "1", "-1", "p" * LONG,
    ]:
        yield [word], USAGE
        yield [word, "line.plt"], USAGE
    yield ["--", "pbm"], USAGE
    yield ["--", "pbm", "line.plt"], USAGE
    for option in RANGES:
        yield [option, "100", "pbm"], USAGE
    for option, value in [
        ("--page", "a4"), ("--pens", "all"), ("--rotate", "90"), ("--profile", "full"), ("--sheet", "1"), ("--characters", "ascii"),
        ("--output", "o"),
    ]:
        yield [option, value, "pbm"], USAGE


def numbers_in_range():
    """The ends of each range, with and without a sign, zeros before them, and an equals sign."""
    for name, (low, high) in RANGES.items():
        small = [it for it in SMALL if not it.startswith(name)]
        # Only a page of the profile full has the greatest sides.
        small += ["--profile=full"] if high > LONGEST_OF_CORE else []
        for number in [low, low + 1, high]:
            ends = PAST_THE_END if name == "--from" and number > ROWS else DONE
            for text in [f"{number}", f"+{number}", f"000{number}"]:
                yield ["pbm", *small, name, text], ends
                yield ["marks", *small, f"{name}={text}"], ends
        if low == 0:
            yield ["pbm", f"{name}=-0"], DONE
        if name in PAGE_RANGES:
            yield ["report", f"{name}={min(high, LONGEST_OF_CORE)}"], DONE
            yield ["report", "--profile=full", f"{name}={high}"], DONE
            ends = NO_LONG_PAGE if high > LONGEST_OF_CORE else USAGE
            yield ["report", f"{name}={LONGEST_OF_CORE + 1}", "missing.plt"], ends
            yield ["draw", "--profile=core", f"{name}={LONGEST_OF_CORE + 1}", "--margin=1"], ends


def numbers_out_of_range():
    """Numbers beyond the ends of each range, with an equals sign and, if it is no minus, without."""
    for name, (low, high) in RANGES.items():
        for number in [low - 1, high + 1, 2**31, 2**32 + low, 2**63, 2**64 + low, -(2**63) - 1, 10**40]:
            yield ["ppm", f"{name}={number}"], USAGE
        yield ["pcl", name, str(high + 1)], USAGE
        if name in PAGE_RANGES:
            yield ["report", name, str(high + 1)], USAGE
            yield ["report", f"{name}={low - 1}"], USAGE


def no_numbers():
    """Values that are no whole numbers."""
    texts = [
        "", " ", "100 ", " 100", "100\n", "1 0 0", "100.0", "1e2", "0x64", "1_00", "100,", "1,000", "++100", "+-100", "+",
        "--100", "-", "one", "nan", "inf", "all", "\u0661\u0660\u0660", "\uff11\uff10\uff10", "100\u200b", "9" * LONG,
    ]
    for text in texts:
        yield ["pbm", f"--dots={text}"], USAGE
        yield ["report", f"--width={text}"], USAGE


def values_missing():
    """Options without a value, and values that look like options."""
    for name in [*RANGES, "--page", "--pens", "--profile", "--sheet", "--characters", "--margin", "--rotate", "--output", "-o"]:
        yield ["pbm", name], USAGE
        yield ["pbm", "line.plt", name], USAGE
        yield ["pbm", name, "--", "line.plt"], USAGE
        yield ["pbm", name, "--band=8", "line.plt"], USAGE
        yield ["pbm", name, "-5"], USAGE
        yield ["pbm", name, "-x"], USAGE


def options_twice():
    """An option that is given twice, with the same value or another, in both forms."""
    texts = [
        ("--page", "a4", "a5"), ("--pens", "all", "1"), ("--rotate", "90", "180"), ("--profile", "full", "core"),
        ("--characters", "ascii", "utf-8"),
    ]
    for name, value, other in [*((it, "100", "101") for it in [*RANGES, "--sheet", "--margin"]), *texts]:
        yield ["marks", name, value, name, value], USAGE
        yield ["pbm", f"{name}={value}", f"{name}={other}"], USAGE
        yield ["ppm", f"{name}={value}", "line.plt", name, other], USAGE
    for name in [*PAGE_RANGES, "--page", "--sheet", "--characters", "--margin", "--rotate", "--profile", "--output"]:
        yield ["report", name, "100", "line.plt", f"{name}=100"], USAGE
    yield ["report", "--fit", "line.plt", "--fit"], USAGE
    for flag in ["--verbose", "--progress"]:
        yield ["pbm", flag, flag, "line.plt"], USAGE
    yield ["report", "--verbose", "line.plt", "--verbose"], USAGE
    yield ["pcl", "-o", "picture", "line.plt", "--output=picture"], USAGE


def unknown_options():
    """Options that there are not, abbreviations among them."""
    for word in [
        "--dot", "--d", "--pen", "--wid", "--Dots", "--DOTS", "--dots-per-inch", "--dotss", "--dots ", "--version", "-V",
        "--progres", "--progress=1", "-p",
        "--verb", "--verbos", "-v", "-w", "--fi", "--fit=1", "--fit=", "--fits", "--margins=1", "--rot=90", "--turn=90", "--prof",
        "--sheets", "--char",
        "-dots",
        "-1", "-0", "--1", "--=", "--=5", "---", "---dots", "--\u00e9", "-\u00e9", "--" + "w" * LONG, "-" + "w" * LONG,
    ]:
        yield ["pbm", word], USAGE
        yield ["report", "line.plt", word], USAGE
    for word in ["--dots==100", "--dots=--dots", "--dots=-100"]:
        yield ["pbm", word], USAGE


def options_of_pictures():
    """A report has no options of a picture, and a document of lines none of pixels."""
    yield ["report", "--progress"], USAGE
    for command in VECTORS:
        for word in ["--dots=100", "--progress"]:
            yield [command, word], USAGE
            yield [command, "line.plt", *word.split("=")], USAGE
    for word in ["--dots=100", "--pens=all", "--band=64", "--from=0", "--rows=1"]:
        yield ["report", word], USAGE
        yield ["report", *word.split("="), "line.plt"], USAGE
        yield ["report", "line.plt", word], USAGE


def smoothing():
    """Smoothing of PNG and PPM, and options that documents have not."""
    for command in ["png", "ppm"]:
        for words in [["--smooth=1"], ["--smooth", "+8"], ["--smooth=8", "--dots=150"], ["--dots=600", "--smooth", "2"]]:
            yield [command, *SMALL, *words, "line.plt"], DONE
        for words in [["--smooth=8", "--dots=151"], ["--dots=1200", "--smooth", "2"], ["--smooth=3", "--dots=401"]]:
            yield [command, *words, "line.plt"], TOO_FINE
            yield [command, *words, "--page=none", "missing.plt"], TOO_FINE
            yield [command, *words, "--pens=0"], BAD_LIST
        for text in ["0", "9", "-1", "1.5", "", "two", "2x", str(2**32 + 1)]:
            yield [command, f"--smooth={text}"], USAGE
        yield [command, "--smooth"], USAGE
        yield [command, "--smooth=2", "--smooth=2"], USAGE
    for command in [*VECTORS, "marks", "pbm", "pcl", "report"]:
        yield [command, "--smooth=1"], USAGE
    for command in DOCUMENTS:
        for word in ["--from=0", "--rows=1", "--band=64"]:
            yield [command, word], USAGE
            yield [command, "line.plt", *word.split("=")], USAGE


def lists_of_pens():
    """Lists of pens, good ones and bad ones."""
    every = ",".join(str(pen) for pen in range(1, 256))
    for text in ["all", "1", "255", "001", "1-255", "5-5", "1,1,1", "7,5", "1,3,5-7", every, "1," * (LONG // 4) + "1"]:
        yield ["marks", "--pens", text, "line.plt"], DONE
        yield ["pcl", f"--pens={text}"], DONE
    for text in [
        "", " ", ",", ",1", "1,", "1,,2", "0", "000", "0001", "256", "1-256", "0-5", "7-5", "1-", "-1", "-", "--", "1--2",
        "1-2-3", "ALL", "All", "all,1", "1,all", "all ", " 1", "1 ", "1, 2", "1;2", "+1", "1.5", "1:3", "=1", "1\n", "\u0661",
        "1\u20132", "99999999999999999999", "1" * LONG, "," * LONG,
    ]:
        yield ["ppm", f"--pens={text}"], BAD_LIST
        if not text.startswith("-"):
            yield ["marks", "--pens", text, "line.plt"], BAD_LIST


def fitted_pages():
    """Pages that are fitted, with a margin or without, and margins without --fit."""
    for command in COMMANDS:
        yield [command, "--fit", "line.plt"], DONE
        yield [command, "--page=a0", "line.plt", "--fit", "--left=7"], DONE
        yield [command, "--margin=5"], NO_FIT
        yield [command, "line.plt", "--margin", "0"], NO_FIT
        yield [command, "--fit", "far.plt"], OFF_RANGE
        for margin in ["0", "1", "+7", "100"]:
            yield [command, "--fit", "--margin", margin, "line.plt"], DONE
            yield [command, f"--margin={margin}", "--fit", "line.plt"], DONE
        for margin in ["", "-1", "101", "1.5", "one", "1mm", str(2**32)]:
            yield [command, "--fit", f"--margin={margin}", "line.plt"], USAGE


def turned_pages():
    """Rotations, words that are none, and a dot that is too far away for some."""
    for command in ["draw", *COMMANDS]:
        quiet = ["--quiet"] if command == "draw" else []
        for degrees in ["0", "90", "180", "270"]:
            yield [command, "--rotate", degrees, "line.plt", *quiet], DONE
            yield [command, "--page=a5", "line.plt", f"--rotate={degrees}", "--fit"], DONE
            ends = TOO_FAR if degrees in ("180", "270") and command != "report" else DONE
            yield [command, "--page=a4", "--profile=full", f"--rotate={degrees}", "edge.plt", *quiet], ends
        for word in ["", " ", "1", "45", "360", "-90", "+90", "090", "90.0", "90 ", "0\n", "ninety", "left", "\u0669\u0660"]:
            yield [command, f"--rotate={word}", "line.plt"], BAD_ROTATION


def drawings():
    """What draw takes, and what it refuses."""
    yield ["draw", "line.plt"], DONE
    for form in [*DOCUMENTS, *FORMS]:
        yield ["draw", "line.plt", f"--form={form}"], DONE
        yield ["draw", "line.plt", "--form", form.upper(), "--quiet"], DONE
        yield ["draw", "line.plt", "-o", f"picture.{form}"], DONE
    for words in [["--form=gif"], ["--form="], ["-o", "picture.eps"], ["-o", "a.d"], ["-o", "picture.", "--pens=0"]]:
        yield ["draw", "line.plt", *words], NO_FORM
    for form in ["pbm", "pcl", "marks"]:
        yield ["draw", "line.plt", f"--form={form}", "--smooth=1"], NO_SHADES
        yield ["draw", "line.plt", "-o", f"picture.{form}", "--smooth", "4", "--page=none"], NO_SHADES
    for form in VECTORS:
        for word in ["--dots=100", "--size=100", "--smooth=1"]:
            yield ["draw", "line.plt", word, f"--form={form}"], NO_PIXELS
            yield ["draw", "line.plt", word, "-o", f"picture.{form}", "--page=none", "--sheet=x"], NO_PIXELS
            yield ["draw", "line.plt", word, f"--form={form}", "--pens=0"], BAD_LIST
    yield ["draw", "line.plt", "--page=plot", "--margin=5"], NO_FIT
    for words in [["--page=a4"], ["--width=64"], ["--height=64"]]:
        yield ["draw", "line.plt", *words], DONE
        yield ["draw", "line.plt", *words, "--margin=5"], NO_FIT
        yield ["draw", "line.plt", *words, "--margin=5", "--fit"], DONE
    for words in [["--band=64"], ["--from=0"], ["--rows=1"], ["--form=png"] * 2, ["--quiet"] * 2, ["--quiet=1"], ["--form"]]:
        yield ["draw", "line.plt", *words], USAGE
    for command in COMMANDS:
        for word in ["--form=png", "--quiet"]:
            yield [command, "line.plt", word], USAGE


def pages():
    """The papers, words that are none, and papers beside a width or a height."""
    for paper in PAPERS:
        yield ["report", "--page", paper, "line.plt"], DONE
        yield ["marks", f"--page={paper}-portrait", "--dots=10", "line.plt"], DONE
    for command in COMMANDS:
        yield [command, "--page=a5", "--left", "1", "line.plt"], DONE
        yield [command, "--page=a5", "far.plt"], OFF_RANGE
        yield [command, "--page=a4", "--width=11880"], PAGE_AND_SIDE
        yield [command, "--height", "64", "line.plt", "--page", "a4"], PAGE_AND_SIDE
        yield [command, *SMALL, "--page=a5-portrait"], PAGE_AND_SIDE
    for word in [
        "", " ", "A4", "a6", "a", "4", "a4 ", " a4", "a4\n", "a4-", "a4-landscape", "a4-Portrait", "a4-portrait-portrait",
        "portrait", "a4,a5", "a0 to a5", "297x210", "11880", "letters", "ansi", "ansi-f", "arch-a", "\u00e4", "a" * LONG,
        "-portrait" * (LONG // 9),
    ]:
        yield ["pbm", f"--page={word}"], BAD_PAGE
        if not word.startswith("-"):
            yield ["report", "--page", word, "--width=64"], BAD_PAGE


def profiles():
    """The profiles, and words that are none."""
    for command in COMMANDS:
        yield [command, "--profile", "core", "line.plt"], DONE
        yield [command, "--profile=full", "line.plt"], DONE
        yield [command, "far.plt", "--profile", "full"], OFF_RANGE
    for word in ["", " ", "Core", "FULL", "ful", "fuller", "core ", " full", "0", "core,full", "\u00e9", "f" * LONG]:
        yield ["pbm", f"--profile={word}"], BAD_PROFILE
        yield ["report", "--profile", word, "--sheet=1"], BAD_PROFILE


def sheets():
    """Sheets in the profile full, and in core, which has none."""
    for command in COMMANDS:
        for sheet in ["0", "1", "+2", "0004194304"]:
            yield [command, "--profile=full", "--sheet", sheet, "line.plt"], DONE
            yield [command, f"--sheet={sheet}", "line.plt", "--profile", "full"], DONE
            yield [command, f"--sheet={sheet}"], NO_SHEETS
            yield [command, "--profile", "core", "--sheet", sheet, "line.plt"], NO_SHEETS
        for sheet in ["-1", "4194305", str(2**32), str(2**64 + 1), "", "all", "1.5", "1-2"]:
            yield [command, f"--sheet={sheet}", "--profile=full"], BAD_SHEET
            yield [command, f"--sheet={sheet}"], BAD_SHEET
        each = [command, "--profile=full", "--sheet=each", "line.plt"]
        yield each, {"report": EACH_OF_A_REPORT, "pdf": DONE}.get(command, EACH_WITHOUT_A_FOLDER)
        yield [command, "--sheet=each", "-o", "folder", "line.plt"], NO_SHEETS
        yield [*each, "-o", "folder"], EACH_OF_A_REPORT if command == "report" else DONE


def characters():
    """The characters of labels in the profile full, names that are none, and the profile core, which has none."""
    for command in COMMANDS:
        for name in ["roman-8", "latin-1", "windows-1252", "pc-8", "ascii", "utf-8"]:
            yield [command, "--profile=full", "--characters", name, "line.plt"], DONE
            yield [command, f"--characters={name}", "--profile=core", "line.plt"], NO_CHARACTERS
        yield ["draw", "--characters", "utf-8", "line.plt", "-o", "labels"], DONE
        for word in ["", " ", "utf8", "UTF-8", "ascii ", " ascii", "latin-2", "latin-10", "roman8", "277", "\u00e9", "a" * LONG]:
            yield [command, f"--characters={word}", "--profile=full"], BAD_CHARACTERS
            yield [command, "--characters", word, "line.plt"], BAD_CHARACTERS


def labels():
    """Labels of a DXF as texts or as strokes, and of what has no texts in place of strokes."""
    for command in ["draw", *COMMANDS]:
        takes = command in ("draw", "dxf")
        for name in ["text", "strokes"]:
            yield [command, "--profile=full", f"--labels={name}", "line.plt"], (
                DONE if command == "dxf" else NO_TEXTS if takes else USAGE)
        for word in ["", " ", "Text", "TEXT", "texts", "stroke", "text ", "strokes,text", "none", "\u00e9", "a" * LONG]:
            yield [command, f"--labels={word}", "--profile=full", "line.plt"], BAD_LABELS if takes else USAGE
    for name in ["text", "strokes"]:
        yield ["draw", "--labels", name, "line.plt", "-o", "labels.dxf"], DONE
        yield ["draw", "line.plt", "--form", "DXF", f"--labels={name}", "--sheet=0"], DONE
        yield ["dxf", "--labels", name, "line.plt"], LABELS_IN_CORE
        yield ["draw", "--labels", name, "line.plt", "--form=dxf", "--profile=core"], LABELS_IN_CORE
        for form in ["png", "pdf", "svg", *FORMS]:
            yield ["draw", f"--labels={name}", "line.plt", f"--form={form}"], NO_TEXTS
            yield ["draw", f"--labels={name}", "line.plt", "-o", f"labels.{form}", "--profile=core"], NO_TEXTS
        yield ["dxf", "--profile=full", "--labels", name, f"--labels={name}"], USAGE
    yield ["dxf", "--profile=full", "--labels"], USAGE
    yield ["dxf", "--profile=full", "--label=text"], USAGE


def pens_by_option():
    """Lists of colours and of widths, and what is no assignment in them."""
    for command in ["draw", *COMMANDS]:
        end = ["-o", "pens"]
        for word in ["--colours", "--colors"]:
            for colours in ["2=#f80", "all=black", "1-3=ff8000,2=#FF8000", "1=teal,255=grey"]:
                yield [command, word, colours, "line.plt", *end], DONE
            for colours in ["2=bleu", "=red", "2=", "256=red", "2=#ff", "2:red", ""]:
                yield [command, f"{word}=1=red,{colours}", "line.plt"], messages.refused("colours", colours)
        for widths in ["2=0.7", "all=0", "1-3=20,2=.35"]:
            yield [command, "--widths", widths, "line.plt", *end], DONE
        for widths in ["2=fat", "2=20.1", "2=-1", "9-1=1", ""]:
            yield [command, f"--widths=1=1,{widths}", "line.plt"], messages.refused("widths", widths)


def sizes():
    """Previews of so many pixels."""
    for pixels in ["16", "256", "+20000"]:
        yield ["draw", "--size", pixels, "line.plt", "-o", "sized.png"], DONE
    for pixels in ["15", "20001", "-1", "", "all"]:
        yield ["draw", f"--size={pixels}", "line.plt"], USAGE
    yield ["draw", "--size=100", "--dots=150", "line.plt"], SIZE_AND_DOTS
    yield ["draw", "--size=100", "--dots=150", "--form=pcl", "line.plt"], SIZE_AND_DOTS
    yield ["draw", "--size=100", "--form=pcl", "line.plt"], SIZE_OF_PCL
    yield ["draw", "--size=100", "line.plt", "-o", "plan.pcl"], SIZE_OF_PCL
    yield ["draw", "--size=100", "--smooth=8", "line.plt", "-o", "sized.ppm"], DONE
    yield ["draw", "--size=100", "--smooth=2", "line.plt", "-o", "sized.pbm"], NO_SHADES
    for command in COMMANDS:
        yield [command, "--size=100", "line.plt"], USAGE


def resolutions_of_pcl():
    """The resolutions that PCL has, and some that it has not."""
    for dots in PCL_DOTS:
        yield ["pcl", "--dots", str(dots), *SMALL], DONE
        yield ["pcl", f"--dots={dots + 1}", *SMALL], NOT_OF_PCL
    for dots in [10, 74, 1200]:
        yield ["pcl", f"--dots={dots}", "line.plt"], NOT_OF_PCL


def files():
    """Files that are there or not, and more files than one."""
    for command in COMMANDS:
        for name in [
            "missing.plt", "", "-", " ", "folder/none", "pbm", "report", "\u00e9.plt", "=", "+1", "far.plt ",
        ]:
            yield [command, name], not_opened(name, None, command)
        for name, reason in [
            ("missing.plt", "no-such-file"), ("line.plt/", "Not a directory (os error 20)"),
            ("n" * LONG, "File name too long (os error 36)"),
        ]:
            yield [command, name], not_opened(name, reason if command in DOCUMENTS else None, command)
            yield [command, name, "--verbose"], not_opened(name, reason, command)
        for name in ["folder", ".", "..", "/"]:
            yield [command, name], not_opened(name, "it is a folder", command) if command in DOCUMENTS else NOT_READ
        for name in ["./line.plt", " line.plt", "line.plt "]:
            yield [command, name], DONE
        yield [command, "line.plt", "line.plt"], NO_FOLDER
        yield [command, "line.plt", ""], NO_FOLDER
        yield [command, *["line.plt"] * 2000], NO_FOLDER
        yield [command, "line.plt", "missing.plt", "-o", "line.plt"], NOT_A_FOLDER


def after_two_hyphens():
    """Words after `--` are files."""
    for command in COMMANDS:
        yield [command, "--"], DONE
        yield [command, "line.plt", "--"], DONE
        yield [command, "--", "line.plt"], DONE
        yield [command, "--left=1", "--", "--left"], DONE
        for name in ["--", "--help", "-h", "--width=1"]:
            yield [command, "--", name], not_opened(name, None, command)
        yield [command, "--", "--left", "1"], NO_FOLDER
        yield [command, "line.plt", "--", "--left"], NO_FOLDER


def calls_for_help():
    """Help, after words that are right and before any words, and the version, before any words."""
    for flag in ["-h", "--help"]:
        yield [flag], DONE
        yield [flag, "pbm"], DONE
        yield [flag, "nonsense"], DONE
        for command in COMMANDS:
            yield [command, flag], DONE
            yield [command, "missing.plt", flag], DONE
            yield [command, "--left", "7", flag], DONE
            yield [command, flag, "--left", "-7"], DONE
            yield [command, flag, "a", "b"], DONE
    for flag in ["-V", "--version"]:
        yield [flag], DONE
        yield [flag, "pbm"], DONE
        yield [flag, "nonsense"], DONE
    for word in ["--version=yes", "--versio", "--VERSION"]:
        yield [word], USAGE
    for word in ["--help=yes", "--hel", "--HELP", "-H", "-?", "--help=", "/?"]:
        yield [word], USAGE
    yield ["pbm", "--help=yes"], USAGE
    yield ["report", "--hel"], USAGE


def orders_of_refusal():
    """Command lines with two things wrong: usage, the list of pens, the page, profile and sheet, the file, then the picture's."""
    yield ["pbm", "--page=none", "--width=63"], USAGE
    yield ["pbm", "--page=none", "--pens=0"], BAD_LIST
    yield ["ppm", "--page=a4", "--width=64", "--pens=0"], BAD_LIST
    yield ["report", "--page=none", "--height=64"], BAD_PAGE
    yield ["marks", "--page=none", "--profile=none"], BAD_PAGE
    yield ["report", "--page=a4", "--height=64", "--profile=none"], PAGE_AND_SIDE
    yield ["pcl", "--page=a4", "--width=64", "--sheet=1", "--dots=127"], PAGE_AND_SIDE
    yield ["pbm", "--page=none", "missing.plt"], BAD_PAGE
    yield ["report", "--page=a4", "--width=64", "missing.plt"], PAGE_AND_SIDE
    yield ["pbm", "--profile=none", "--sheet=-1"], BAD_SHEET
    yield ["pbm", "--characters=none", "--sheet=-1"], BAD_SHEET
    yield ["ppm", "--characters=none", "--profile=none", "--sheet=1"], BAD_CHARACTERS
    yield ["report", "--characters=ascii", "--profile=none"], BAD_PROFILE
    yield ["pcl", "--characters=ascii", "--sheet=1"], NO_SHEETS
    yield ["png", "--characters=ascii", "--margin=1"], NO_CHARACTERS
    yield ["draw", "--characters=ascii", "--profile=core", "--margin=1", "missing.plt"], NO_CHARACTERS
    yield ["draw", "--characters=none", "--sheet=each"], BAD_CHARACTERS
    yield ["pbm", "--colours=1=bleu", "--pens=0"], BAD_LIST
    yield ["pbm", "--widths=1=fat", "--colours=1=bleu"], messages.refused("colours", "1=bleu")
    yield ["png", "--widths=1=fat", "--dots=1200", "--smooth=2"], messages.refused("widths", "1=fat")
    yield ["pdf", "--sheet=each"], NO_SHEETS
    yield ["pdf", "--profile=full", "--sheet=each", "--margin=1"], NO_FIT
    yield ["svg", "--profile=full", "--sheet=each", "--margin=1"], EACH_WITHOUT_A_FOLDER
    yield ["draw", "--form=svg", "--dots=100", "--size=100", "--sheet=each"], NO_PIXELS
    yield ["draw", "--form=pdf", "--widths=1=fat", "--smooth=2"], messages.refused("widths", "1=fat")
    yield ["draw", "--form=pdf", "--labels=none", "--widths=1=fat"], messages.refused("widths", "1=fat")
    yield ["draw", "--form=pdf", "--labels=none", "--profile=core"], BAD_LABELS
    yield ["draw", "--form=pdf", "--labels=text", "--profile=core"], NO_TEXTS
    yield ["draw", "--form=pbm", "--labels=text", "--smooth=2"], NO_TEXTS
    yield ["draw", "--form=dxf", "--labels=text", "--profile=core", "--dots=100"], LABELS_IN_CORE
    yield ["draw", "--form=dxf", "--labels=text", "--size=100", "--page=none"], NO_PIXELS
    yield ["dxf", "--labels=strokes", "--page=none"], LABELS_IN_CORE
    yield ["dxf", "--labels=strokes", "--profile=none", "missing.plt"], BAD_PROFILE
    yield ["report", "--sheet=each", "--profile=none"], BAD_PROFILE
    yield ["draw", "--sheet=each", "--size=100", "--dots=10", "line.plt"], EACH_WITHOUT_A_FOLDER
    yield ["draw", "--size=100", "--dots=10", "line.plt", "far.plt"], SIZE_AND_DOTS
    yield ["pbm", "--profile=none", "--pens=0"], BAD_LIST
    yield ["pcl", "--sheet=1", "--pens=0"], BAD_LIST
    yield ["ppm", "--profile=none", "--sheet=1", "missing.plt"], BAD_PROFILE
    yield ["report", "--sheet=1", "missing.plt"], NO_SHEETS
    yield ["pcl", "--sheet=1", "--dots=127"], NO_SHEETS
    yield ["pbm", "--margin=1", "--sheet=1"], NO_SHEETS
    yield ["ppm", "--margin=1", "--pens=0"], BAD_LIST
    yield ["report", "--margin=1", "missing.plt"], NO_FIT
    yield ["pbm", "--margin=1", "--rotate=1"], NO_FIT
    yield ["draw", "--rotate=1", "--size=100", "--dots=10"], SIZE_AND_DOTS
    yield ["ppm", "--rotate=1", "--profile=none"], BAD_PROFILE
    yield ["pcl", "--rotate=1", "--dots=127"], BAD_ROTATION
    yield ["report", "--rotate=1", "missing.plt"], BAD_ROTATION
    yield ["svg", "--rotate=1", "line.plt", "far.plt"], BAD_ROTATION
    yield ["pbm", "--rotate=180", "far.plt"], OFF_RANGE
    yield ["pbm", "--profile=full", "--rotate=180", "--from=99999", "edge.plt"], TOO_FAR
    yield ["pcl", "--profile=full", "--rotate=180", "--dots=127", "edge.plt"], NOT_OF_PCL
    yield ["pbm", *TALL, "--rotate=180", "edge.plt"], TOO_FAR
    yield ["ppm", *TALL, "folder"], NOT_READ
    yield ["marks", *TALL, "--from=399999", "far.plt"], OFF_RANGE
    yield ["pbm", *TALL, "--from=399999", "line.plt"], TOO_MANY_PIXELS
    yield ["pbm", "--pens=0", "--dots=9"], USAGE
    yield ["pbm", "--dots=9", "missing.plt"], USAGE
    yield ["pbm", "--pens=0", "missing.plt"], BAD_LIST
    yield ["pcl", "--pens=0", "--dots=127"], BAD_LIST
    yield ["pcl", "--dots=127", "missing.plt"], not_opened("missing.plt")
    yield ["report", "missing.plt", "-o", "folder"], not_opened("missing.plt")
    yield ["pcl", "--dots=127", "-o", "folder"], NOT_WRITTEN
    yield ["marks", "far.plt", "--output=folder"], OFF_RANGE
    yield ["report", "far.plt", "far.plt", "--margin=1"], NO_FIT
    yield ["marks", "missing.plt", "far.plt", "--sheet=1"], NO_SHEETS
    yield ["pcl", "--dots=127", "folder"], NOT_OF_PCL
    yield ["pcl", "--dots=127", "far.plt"], NOT_OF_PCL
    yield ["pcl", "--dots=127", "--from=99999"], NOT_OF_PCL
    yield ["pbm", "--from=99999", "folder"], NOT_READ
    yield ["pbm", "--from=99999", "far.plt"], OFF_RANGE
    yield ["pbm", "--from=99999", "line.plt"], PAST_THE_END
    yield ["pbm", *SMALL, f"--from={ROWS}", "line.plt"], DONE
    yield ["pbm", *SMALL, f"--from={ROWS + 1}", "line.plt"], PAST_THE_END


def bytes_that_are_no_text():
    """Words that are not UTF-8: all words are given up."""
    for bad in [b"\xff", b"\x80", b"\xc3", b"\xc0\xaf", b"\xed\xa0\x80", b"\xf4\x90\x80\x80"]:
        yield [bad], NO_TEXT
        yield ["pbm", b"plan" + bad + b".plt"], NO_TEXT
        yield ["pbm", b"--dots=" + bad], NO_TEXT
        yield ["pbm", b"--" + bad, b"100"], NO_TEXT
        yield ["marks", b"--pens", bad], NO_TEXT
        yield ["report", "--", bad], NO_TEXT
        yield ["--help", bad], NO_TEXT


GENERATORS = [
    plain, commands, numbers_in_range, numbers_out_of_range, no_numbers, values_missing, options_twice, unknown_options,
    options_of_pictures, smoothing, lists_of_pens, fitted_pages, turned_pages, drawings, pages, profiles, sheets, characters,
    labels, pens_by_option, sizes, resolutions_of_pcl, files, after_two_hyphens, calls_for_help, orders_of_refusal,
    bytes_that_are_no_text,
]


def set_up(folder):
    for name, plot in FILES.items():
        with open(os.path.join(folder, name), "wb") as made:
            made.write(plot)
    os.mkdir(os.path.join(folder, "folder"))


def wrong_run(program, words, ends, folder):
    """What is wrong with a run, or None."""
    status, begins = ends
    try:
        done = run(program, words, SECONDS, cwd=folder)
    except subprocess.TimeoutExpired:
        return f"still running after {SECONDS} seconds"
    if done.returncode != status:
        return f"status {done.returncode} instead of {status}: {done.stderr[:100]}"
    if status != 0 and done.stdout:
        return f"standard output begins {done.stdout[:100]}"
    if status == 0 and done.stderr or not done.stderr.startswith(begins):
        return f"standard error begins {done.stderr[:100]} instead of {begins}"
    return None


def shown(words):
    """The words of a command line, with long ones cut."""
    return " ".join(repr(it) if len(it) <= 40 else f"{it[:20]!r}.. of {len(it)}" for it in words[:8])


@pytest.mark.parametrize("generator", GENERATORS)
def test_words(generator, program, tmp_path):
    set_up(tmp_path)
    lines = list(generator())
    runs = ((words, wrong_run(program, words, ends, tmp_path)) for words, ends in lines)
    assert_nothing(f"{shown(words)}: {wrong}" for words, wrong in runs if wrong is not None)


def test_number_of_command_lines():
    """docs/PROOF.md says how many they are."""
    number = sum(1 for generator in GENERATORS for _ in generator())
    assert f"runs {number} odd command lines" in read("docs", "PROOF.md")


def test_unreadable_file(program):
    """A file that may not be read. Root may read all, so root runs the program as another user."""
    another = {"user": 65534} if os.geteuid() == 0 else {}
    with tempfile.TemporaryDirectory() as folder:
        os.chmod(folder, 0o755)
        copy = shutil.copy(program, folder)
        write(os.path.join(folder, "locked.plt"), LINE, 0)
        for command in COMMANDS:
            for more, reason in [([], "denied" if command in DOCUMENTS else None), (["--verbose"], "denied")]:
                done = run(copy, [command, "locked.plt", *more], SECONDS, cwd=folder, **another)
                assert (done.returncode, done.stderr) == not_opened("locked.plt", reason, command)
                assert done.stdout == b""
