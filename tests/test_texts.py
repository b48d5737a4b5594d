"""Compares what documents say in words with what the program does.

The manual page has the messages of the program and the meaning of each exit status. It and
docs/INSTRUCTIONS.md have the ranges of parameters, their defaults and the colours of pens. docs/INSTRUCTIONS.md
also says which instructions are skipped, and how much shading covers.
"""

import re
import subprocess

import pytest

import instruction_table
from reference import messages
from reference.command_line import DOCUMENTS
from shared import assert_nothing, ink, read, read_bitmap, run

SECONDS = 10
PAGE = "man/plotraster.1"
INSTRUCTIONS = "docs/INSTRUCTIONS.md"
# clap refuses such values, so this message is for callers of the library.
OF_THE_LIBRARY = {"band height must be 1 to 4096"}
# The sources with the messages of the program; the faults of plots and of painters are passed on.
SOURCES = (
    "hpgl_plot/src/fault.rt",
    "stroke_raster/src/painter.rt",
    "conversion/src/fault.rt",
    "command_line/src/fault.rt",
    "delivery/src/messages.rt",
    "delivery/src/run.rt",
)
# A word that the manual page must have where it describes an exit status.
STATUSES = {0: "was written", 1: "refused", 2: "command line", 3: "failed", 4: "Memory"}


def plain(path):
    """A document as running text, without the requests and the fonts of a manual page."""
    text = read(path).replace("\\-", "-")
    if path.endswith(".1"):
        text = re.sub(r"^\.[A-Z]+ ?", "", text, flags=re.M).replace('"', "")
    return re.sub(r"\s+", " ", text)


def messages_of_sources():
    """The messages of the program, each value in braces."""
    for source in SOURCES:
        text = read("crates", source)
        yield from re.findall(r'#\[error\("(.+)"\)\]', text)
        yield from re.findall(r'(?:f, |write_str\()"(?:{about})?((?:cannot|a picture is not) [^"]+)"', text)


def messages_of_the_page():
    """The same from the manual page, each value in capitals."""
    diagnostics = re.search(r"^\.SH DIAGNOSTICS\n(.*?)^\.SH ", read(PAGE), re.M | re.S)[1]
    for head in re.findall(r"^\.TP\n\.(?:B|BI) (.+)", diagnostics, re.M):
        yield re.sub(r"\s+", " ", head.replace('"', "").replace("\\-", "-")).removeprefix("plotraster: ")


def test_messages():
    names = {"path": "FILE", "0": "ITEM"}
    wanted = {re.sub(r"\{(\w+)\}", lambda it: names.get(it[1], it[1].upper()), it) for it in messages_of_sources()}
    assert wanted - OF_THE_LIBRARY == set(messages_of_the_page())


def test_table_of_messages():
    """The program has each message that the tests know."""
    sources = "".join(read("crates", it) for it in (*SOURCES, "delivery/src/folder.rt", "plotraster/src/remarks.rt"))
    texts = [*(text.removeprefix("the page is ") for _, text in messages.MESSAGES.values()), *messages.REASONS.values()]
    assert_nothing(text for text in texts if not re.search(re.escape(text).replace(r"\{\}", "[^\"]*"), sources))


def test_statuses():
    text = re.search(r'^\.SH "EXIT STATUS"\n(.*?)^\.SH ', read(PAGE), re.M | re.S)[1]
    entries = dict(re.findall(r"^\.TP\n\.B (\d)\n(.*?)(?=^\.TP|\Z)", text, re.M | re.S))
    assert {int(it) for it in entries} == set(STATUSES)
    for status, word in STATUSES.items():
        assert word in entries[str(status)]


def report(program, plot, full=True):
    """The report on a plot."""
    words = ["--profile", "full"] if full else []
    done = run(program, ["report", *words], SECONDS, input=plot.encode())
    assert (done.returncode, done.stderr) == (0, b""), plot
    return done.stdout.decode()


def notes(program, plot, full=False):
    """What the report on a plot notes."""
    return re.findall(r"^note (.*)$", report(program, plot, full), re.M)


# Where a document says a range, by an expression with two groups, and an instruction with a number of it, after others.
RANGES = [
    (INSTRUCTIONS, r"selects a pen, (\d+) to (\d+)", "SP{}"),
    (INSTRUCTIONS, r"width of lines in millimetres, (\d+) to (\d+)", "PW{}"),
    (INSTRUCTIONS, r"the colour of a pen, (\d+) to (\d+)", "PC{},1,2,3"),
    (INSTRUCTIONS, r"the colour of a pen, [^,]+, each part (\d+) to (\d+)", "PC1,{},2,3"),
    (INSTRUCTIONS, r"size of characters in centimetres, each (-\d+) to (\d+) and not 0", "SI{},1"),
    (INSTRUCTIONS, r"angle in degrees, (0\.5) to (180)", "CI10,{}"),
    (INSTRUCTIONS, r"The sweep is (-\d+) to (\d+) degrees", "AA0,0,{}"),
    (INSTRUCTIONS, r"a percentage is not (\d+) to (\d+)", "SC0,9,0,9,1,{},50"),
    (PAGE, r"SP n ; selects pen n , (\d+) to (\d+)", "SP{}"),
    (PAGE, r"sets the width of pen n , or of all pens, (\d+) to (\d+) mm", "PW{}"),
    (PAGE, r"sets the colour of pen n , each part (\d+) to (\d+)", "PC1,{},2,3"),
    (PAGE, r"a chord has (0\.5) to (180)", "AR5,5,90,{}"),
]
RANGES_OF_FULL = [
    (INSTRUCTIONS, r"type of later lines, (-\d+) to (\d+) or 99", "LT{}"),
    (INSTRUCTIONS, r"types index and -index, (-\d+) to (\d+) and not 0", "UL{},1,1"),
    (INSTRUCTIONS, r"after `WU1` in percent, (\d+) to (\d+)", "WU1;PW{}"),
    (INSTRUCTIONS, r"of the selected pen in millimetres, (\d+) to (\d+)", "PT{}"),
    (INSTRUCTIONS, r"percent of the rotated page, (-\d+) to (\d+)", "IR{},5"),
    (INSTRUCTIONS, r"size of characters in percent of [^,]+, (-\d+) to (\d+) and not 0", "SR{},1"),
    (INSTRUCTIONS, r"slant of characters, (-\d+) to (\d+)", "SL{}"),
    (INSTRUCTIONS, r"from a line to the next, (-\d+) to (\d+)", "ES{}"),
    (INSTRUCTIONS, r"of P2x - P1x for `YT`, (-\d+) to (\d+)", "TL{}"),
    (INSTRUCTIONS, r"a level of (\d+) to (\d+) percent", "FT10,{}"),
]


def check_range(program, path, expression, instruction, full):
    """The program takes the ends of a range that a document gives, and nothing beyond them."""
    found = re.search(expression, plain(path))
    assert found, f"{path} says no such range"
    low, high = found.groups()
    before, last = instruction[:instruction.rfind(";") + 1], instruction.split(";")[-1]
    for end in (low, high):
        assert notes(program, instruction.format(end) + ";", full) == []
    for beyond in (float(low) - 1, float(high) + 1):
        assert notes(program, instruction.format(f"{beyond:g}") + ";", full) == [f"{len(before)} bad {last[:2]}"]


@pytest.mark.parametrize("path, expression, instruction", RANGES, ids=[f"{it[0]}-{it[2]}" for it in RANGES])
def test_range(path, expression, instruction, program):
    check_range(program, path, expression, instruction, False)


@pytest.mark.parametrize("path, expression, instruction", RANGES_OF_FULL, ids=[it[2] for it in RANGES_OF_FULL])
def test_range_of_full(path, expression, instruction, program):
    check_range(program, path, expression, instruction, True)


# Where docs/INSTRUCTIONS.md says what numbers an instruction has by default, by an expression with groups; a plot with
# these numbers, and a plot without, which draws the same. With other numbers it does not.
DEFAULTS = [
    (r"without parameters ([\d.]*\d) mm, 224 grains", "PW5;PW{};PD0,0;", "PW5;PW;PD0,0;"),
    (r"rounded to grains; without parameters ([\d.]*\d) by ([\d.]*\d)", "SI1,1;SI{},{};LBA", "SI1,1;SI;LBA"),
    (r"0\.5 to 180, (\d+) by default", "CI900,{};", "CI900;"),
    (r"each (\d+) by default", "SC0,9,0,1,1,{0},{0};PD1,1;", "SC0,9,0,1,1;PD1,1;"),
    (r"percent of the distance from P1 to P2 \(mode 0\), initially (\d+)", "LT2,{};PD9000,0;", "LT2;PD9000,0;"),
    (r"All pens get ([\d.]*\d) mm", "PW{};PD0,0;", "PW5;WU;PD0,0;"),
    (r"All pens get [\d.]+ mm, or ([\d.]*\d) percent", "WU1;PW{};PD0,0;", "WU1;PD0,0;"),
    (r"12,800 grains; without parameters ([\d.]*\d) for all", "WU1;PW{};PD0,0;", "WU1;PW5;PW;PD0,0;"),
    (r"millimetres, 0 to 20; without parameters ([\d.]*\d) ", "PT{};PD0,0;", "PT;PD0,0;"),
    (r"mirrors labels; without parameters ([\d.]*\d) and ([\d.]*\d)", "SR{},{};LBA", "SR;LBA"),
    (r"sets it by percentages of P2x - P1x and P2y - P1y; without parameters (\d+) and (\d+)", "DR{},{};LBA", "DR0,1;DR;LBA"),
    (r"slant of characters, [^;]+; without parameters (\d+)", "SL{};LBA", "SL1;SL;LBA"),
    (r"from a line to the next, [^;]+; default (\d+)", "ES{0},{0};LBA\nA", "ES2,2;ES;LBA\nA"),
    (r"without parameters ([\d.]*\d) and ([\d.]*\d); without `down`", "TL{},{};XT;", "TL5;TL;XT;"),
    (r"What is not given stays: initially (\d+), (\d+) and", "FT3,{},{};RR900,900;", "FT3;RR900,900;"),
    (r"What is not given stays: initially \d+, \d+ and (\d+)", "FT10,{};RR900,900;", "FT10;RR900,900;"),
]


@pytest.mark.parametrize("expression, given, bare", DEFAULTS, ids=[it[2].split(";")[-3:][0] + it[1] for it in DEFAULTS])
def test_default(expression, given, bare, program):
    found = re.search(expression, plain(INSTRUCTIONS))
    assert found, "there is no such default"
    drawn = re.sub(r"^note .*\n", "", report(program, bare), flags=re.M)
    with_others = given.format(*(f"{float(it) * 2 + 1:g}" for it in found.groups()))
    assert re.sub(r"^note .*\n", "", report(program, given.format(*found.groups())), flags=re.M) == drawn
    assert re.sub(r"^note .*\n", "", report(program, with_others), flags=re.M) != drawn


@pytest.mark.parametrize("profile", ["core", "full"])
def test_what_is_skipped(profile, program):
    """The program skips what the table of all instructions says."""
    codes = {row.code: getattr(row, profile).said for row in instruction_table.rows()}
    skipped = {code for code in codes if f"0 skipped {code}" in notes(program, f"{code};", profile == "full")}
    assert skipped == {code for code, said in codes.items() if said == "skipped"}


def test_cover_of_shading(program):
    """Shading covers as much as docs/INSTRUCTIONS.md says, in percent."""
    text = plain(INSTRUCTIONS)
    level, *said = re.search(r"by level (\d+) about (\d+) percent at (\d+) dots per inch, (\d+) at (\d+)", text).groups()
    below = re.search(r"Below (\d+) dots per inch lines are drawn wider", text)[1]
    for percent, dots in (said[:2], said[2:], (level, below), (level, "600")):
        plot = f"PA-400,-400;FT10,{level};RA9000,9000;"
        words = ["pbm", "--profile", "full", "--width", "4000", "--height", "4000", "--dots", dots]
        bitmap = read_bitmap(run(program, words, SECONDS, input=plot.encode()).stdout)
        covered = 100 * ink(bitmap) / (bitmap.columns * bitmap.rows)
        assert abs(covered - int(percent)) < 1.5, f"{dots} dots per inch: {covered}"


COLOURS = {"black": "000000", "red": "ff0000", "green": "00ff00", "yellow": "ffff00", "blue": "0000ff",
           "magenta": "ff00ff", "cyan": "00ffff"}


def colours_of(text):
    """The colours of pens that a sentence such as `1 is black, 2 red, 8 to 255 black` gives."""
    said = re.search(r"\b1 is black, (?:[^,.]+, ){5,7}(?:and )?8 to 255 (?:are )?black", text)[0]
    for low, high, name in re.findall(r"(\d+)(?: to (\d+))? (?:is |are )?([a-z]+)", said):
        yield from ((pen, COLOURS[name]) for pen in range(int(low), int(high or low) + 1))


@pytest.mark.parametrize("path", [PAGE, INSTRUCTIONS])
def test_colours_of_pens(path, program):
    wanted = dict(colours_of(plain(path)))
    assert set(wanted) == set(range(1, 256))
    plot = "".join(f"SP{pen};PU{8 * pen},32;PD;" for pen in wanted)
    done = run(program, ["marks", "--width", "2100", "--height", "64", "--dots", "127"], SECONDS, input=plot.encode())
    shown = {int(pen): colour for _, _, pen, colour in (line.split() for line in done.stdout.decode().splitlines())}
    assert_nothing(f"{path}: pen {pen} is {shown.get(pen)}" for pen, colour in wanted.items() if shown.get(pen) != colour)


def test_status_of_several_plots(program, tmp_path):
    """It is the greatest of their numbers, in any order, as the manual page says."""
    assert "With several plots it is the greatest of these numbers that a plot has." in plain(PAGE)
    (tmp_path / "far.plt").write_text("PA8388607.9,0;")
    for plots in (["far.plt", "none.plt"], ["none.plt", "far.plt"]):
        assert run(program, ["pbm", "-o", ".", *plots], SECONDS, cwd=tmp_path).returncode == 3


def test_life_of_a_part(program, tmp_path):
    """An older NAME.part is replaced, removed if the plot is refused, and kept after a failed write, unless it is a document."""
    said = re.search(r"NAME \.part, which (replaces) an older file .* It is (removed) if the plot is refused, and (kept) after"
                     r" a failed write, (unless) it is a PNG, a PDF, an SVG or a DXF,", plain(PAGE))
    assert said
    part = tmp_path / "to.part"
    documents = [(command, b"", False) for command in DOCUMENTS]
    for command, plot, is_left in (("pbm", b"PA8388607.9,0;", False), ("pbm", b"", True), *documents):
        part.write_bytes(b"older")
        limited = ["bash", "-c", 'trap "" XFSZ; ulimit -f 0; exec "$0" "$@"', program, command, "-o", "to"]
        done = subprocess.run(limited, input=plot, capture_output=True, cwd=tmp_path, timeout=SECONDS)
        assert (done.returncode, part.exists()) == (1 if plot else 3, is_left), (command, done.stderr)
        assert not is_left or part.read_bytes() == b""
