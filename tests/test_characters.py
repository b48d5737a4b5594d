"""Compares the built program with tests/reference on labels in each byte of each set of characters, and on fonts and texts at
their limits; and runs it on the longest texts."""

import os
from concurrent.futures import ThreadPoolExecutor

import pytest

from comparing import difference, differs
from reference import messages
from reference.characters import BY_HP_NUMBER, BY_SYMBOL_SET
from reference.random_full_plots import NAMES
from reference.random_plots import Case
from shared import assert_nothing, run, write

SECONDS = 60
LONGEST_PLOT = 67_108_864
# How many letters the labels of a PDF have at most.
MOST_LETTERS = 67_108_864
PAGE = {"profile": "full", "sheet": "0"}
# Each byte of a text, in labels of 16 in a line; those that would end a label or select a set are left out.
BYTES = [bytes(byte for byte in range(first, first + 16) if byte not in (3, 14, 15)) for first in range(0, 256, 16)]
LABELS = b"".join(b"PU0,%d;LB%b\x03" % (150 * line, text) for line, text in enumerate(BYTES))
FONTS = (
    b"", b"4,.1", b"4,1500", b"3,.1", b"3,1500", b"2,1,4,.1", b"2,1,4,1500", b"3,.1,4,1500", b"3,1500,4,.1", b"4,1500.000001",
    b"3,.099999",
)
UTF_8_ENDS = (
    0x7F, 0x80, 0x9F, 0xA0, 0x7FF, 0x800, 0xFFF, 0x1000, 0xCFFF, 0xD000, 0xD7FF, 0xE000, 0xFFFF, 0x10000, 0x3FFFF, 0x40000, 0xFFFFF,
    0x100000, 0x10FFFF,
)


def case(plot, **options):
    return Case("report", {**PAGE, **options}, plot)


def assert_alike(program, cases):
    assert_nothing(difference(name, program, it) for name, it in cases if differs(program, it))


def test_sets(program):
    """Each byte in each set of the plot."""
    plots = [b"SD1,%d;" % number + LABELS for number in BY_SYMBOL_SET] + [b"CS%d;" % number + LABELS for number in BY_HP_NUMBER]
    assert len(plots) == 36
    assert_alike(program, [(plot[:9].decode(), case(plot)) for plot in plots])


@pytest.mark.parametrize("name", sorted(set(NAMES)))
def test_sets_of_the_user(program, name):
    assert_alike(program, [(name, case(b"CS33;" + LABELS, characters=name))])


def test_ends_of_utf_8(program):
    """The first and the last code point of each length and of each row of the table, and what breaks a sequence."""
    texts = [chr(code).encode() for code in UTF_8_ENDS]
    texts += [b"\xed\xa0\x80", b"\xf4\x90\x80\x80", b"\xc0\x80", b"\xc1\xbf", b"\xe0\x9f\xbf"]
    cut = [text[:count] for text in texts for count in range(1, len(text) + 1)]
    plots = [b"LB." + text + b"." + text + b"\x03" for text in cut]
    assert_alike(program, [(repr(plot), case(plot, characters="utf-8")) for plot in plots])


def test_fonts(program):
    """The least and the greatest fonts, in each position about a point, with a symbol."""
    plots = [b"SD%b;LO%d;PU9000,9000;SM*;PU9000,9009;LBAy\b\t-\r\nj\x03CP;LB_\x03" % (font, origin)
             for font in FONTS for origin in (1, 5, 19)]
    assert_alike(program, [(repr(plot), case(plot, width="20000", height="20000")) for plot in plots])


@pytest.mark.parametrize("text, told", [
    (b"\t", messages.text("off-range", 0).encode()),
    (b"\b", messages.text("off-range", 0).encode()),
    (b"\t\b", None),
    (b"\n\r", messages.text("off-range", 0).encode()),
    (b"\x0e\x0f", None),
    (b"\xff", None),
], ids=["tabs", "backs", "both", "lines", "shifts", "open"])
def test_longest_texts(program, text, told):
    """A label that fills the longest plot is drawn or refused in time."""
    plot = b"LB" + text * ((LONGEST_PLOT - 4) // len(text)) + b".\x03"
    done = run(program, ["report", "--profile", "full"], SECONDS, input=plot)
    wanted = (1, b"plotraster: " + told + b"\n") if told else (0, b"")
    assert (done.returncode, done.stderr) == wanted
    assert told or done.stdout.count(b"\npen ") == 1


def test_letters_of_a_pdf(program, tmp_path):
    """A letter too many, of a label and of four that repeat a text. Other outputs have no such limit."""
    kept = b" " * 999_999 + b"."
    label = b"LB" + b" " * (MOST_LETTERS - 4_000_000) + b".\x03"
    write(str(tmp_path / "plan.plt"), b"SI.01,.01;ES-1;PU2000,2000;BL" + kept + b"\x03" + label + b"PB;" * 4)
    lines = [["pdf", "-o", "plan.pdf"], ["report"]]
    with ThreadPoolExecutor() as pool:
        runs = [pool.submit(run, program, [*words, "--profile=full", "plan.plt"], 2 * SECONDS, cwd=tmp_path) for words in lines]
        pdf, report = [it.result() for it in runs]
    said = b"plotraster: labels have more than 67108864 letters, too many for a PDF\n"
    assert (pdf.returncode, pdf.stdout, pdf.stderr) == (2, b"", said) and os.listdir(tmp_path) == ["plan.plt"]
    assert (report.returncode, report.stderr) == (0, b"") and b"\nstrokes 5\n" in report.stdout
