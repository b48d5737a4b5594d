"""What `--fit`, `--margin` and `--verbose` do: the page around a drawing, and what is said of the drawing."""

import functools
import os
import re

import pytest
from reference import messages
from reference.command_line import DOCUMENTS, VECTORS
from reference.outputs import FORMS
from shared import EXAMPLES, assert_nothing, ink, read_bitmap, read_bytes, run

SECONDS = 60
# A pixel a unit.
UNITS = ["--dots", "1016"]
FITTED = {
    "left": b"PW20;PU-5000,-3000;PD-4000,-2000;",
    "right": b"PU3000,2000;CI100;",
    "dot": b"PW0.1;PD;",
    "thin": b"PW1;PD100,100;",
    "scaled": b"IP-1000,-1000,1000,1000;SC0,1,0,1;SP2;PA.5,.5;CI.5;",
    "off the page": b"PU20000,20000;PD30000,30000;",
    "in a window": b"IW0,0,100,90;PU50,50;PD2000,2000;",
    "scale": b"SC0,9,0,9;PD5,5;",
    "corners": b"IP;SC0,9,0,9;PD5,5;",
    "turned": b"RO90;PD5,5;",
    "far away": b"RO90;PU8400,70000;PD8400,70100;",
    "at the end of the range": b"PU65000,0;PD65536,0;",
}
EXAMPLES_FITTED = ("centred", "figures", "rose", "line")
# Plots that depend on the page that they are drawn on, or are refused on another one.
OF_THE_PAGE = ("scale", "corners", "turned", "far away", "at the end of the range")
# Plots whose page is kept, and why.
KEPT = {
    "nothing": (b"PU5,5;", "blank-to-fit"),
    "of no plot": (b"%!\n", "blank-to-fit"),
    "beside its window": (b"IW0,0,10,10;PU100,100;PD2000,2000;", "blank-to-fit"),
    "too wide": (b"PU-60000,0;PD60000,0;", "too-large-to-fit"),
}


def plots():
    found = {name: read_bytes(os.path.join(EXAMPLES, f"{name}.plt")) for name in EXAMPLES_FITTED}
    return {**found, **FITTED}


def page_of(program, words, plot, errors=b""):
    """The options of the page that a report has."""
    done = run(program, ["report", *words], SECONDS, input=plot)
    assert (done.returncode, done.stderr) == (0, errors)
    numbers = done.stdout.split(b"\n")[0].decode().split()[1:]
    return [f"--{side}={number}" for side, number in zip(("width", "height", "left", "below"), numbers)]


def drawn(program, words, plot, errors=b""):
    done = run(program, words, SECONDS, input=plot)
    assert (done.returncode, done.stderr) == (0, errors), words
    return done.stdout


def margins(bitmap):
    """How many rows and columns are white on the left, at the bottom, on the right and at the top."""
    inked = [row for row, line in enumerate(bitmap.lines) if line]
    every = functools.reduce(int.__or__, bitmap.lines)
    trailing = (every & -every).bit_length() - 1
    return bitmap.columns - every.bit_length(), bitmap.rows - 1 - inked[-1], trailing, inked[0]


def numbers(page):
    return [int(it.split("=")[1]) for it in page]


def may_be_given(page):
    """Options may name the page: (0, 0) is neither left of it nor below it."""
    return min(numbers(page)) >= 0


def larger(page, more):
    """The options of a page that is larger on each side."""
    width, height, left, below = numbers(page)
    return [f"--width={width + 2 * more}", f"--height={height + 2 * more}", f"--left={left + more}", f"--below={below + more}"]


def wrong_margins(program, name, plot, margin):
    """What is wrong with the page around a drawing, by pictures with a pixel a unit."""
    more = 500
    words = ["--fit", f"--margin={margin}"]
    page = page_of(program, words, plot)
    inside = read_bitmap(drawn(program, ["pbm", *words, *UNITS], plot))
    if may_be_given(page) and name not in OF_THE_PAGE:
        around = read_bitmap(drawn(program, ["pbm", *larger(page, more), *UNITS], plot))
        if min(margins(around)) < more or ink(inside) != ink(around):
            yield f"{name}: {ink(inside)} pixels of {ink(around)} are on the page"
    for side, length, found in zip(("left", "below", "right", "above"), 2 * numbers(page)[:2], margins(inside)):
        if found < 40 * margin or (found > 40 * margin + 2 and length > 64):
            yield f"{name}: {found} units are free {side}"


def test_margins(program):
    """All that is drawn lies on the page, with the margin around it."""
    for name, plot in plots().items():
        assert_nothing(wrong_margins(program, name, plot, 1))
    for margin in (0, 3):
        assert_nothing(wrong_margins(program, "right", FITTED["right"], margin))


def test_page_of_half_units(program):
    """A plot with half a unit at each side: half units count as whole ones."""
    plot = b"PW0;PU-10.5,-20.5;PD30.5,40.5;"
    assert page_of(program, ["--fit"], plot) == ["--width=122", "--height=142", "--left=51", "--below=61"]
    assert page_of(program, ["--fit", "--margin=0"], plot) == ["--width=64", "--height=64", "--left=11", "--below=21"]


@pytest.mark.parametrize("command", [*DOCUMENTS, *FORMS])
def test_picture_is_that_of_the_page(program, command):
    """The picture of a fitted page is the picture of the page that the report has, if options may name it and the drawing
    does not depend on it."""
    dots = [] if command in VECTORS else ["--dots", "75"]
    for name, plot in plots().items():
        if name in OF_THE_PAGE:
            continue
        for words in ([], ["--page=a0", "--left=300"], ["--profile=full"], ["--margin=7"]):
            page = page_of(program, ["--fit", *words], plot)
            if not may_be_given(page):
                continue
            others = [it for it in words if it.startswith("--profile")]
            fitted = drawn(program, [command, "--fit", *words, *dots], plot)
            assert fitted == drawn(program, [command, *page, *others, *dots], plot), (name, words)


def test_page_that_is_kept(program):
    """The page is kept, and a line says why. The picture is that of the page."""
    for name, (plot, why) in KEPT.items():
        for words in ([], ["--page=a5", "--below=100"]):
            assert page_of(program, [*words, "--fit"], plot, messages.said(why)) == page_of(program, words, plot), name
            assert drawn(program, ["pbm", "--fit", *words], plot, messages.said(why)) == drawn(program, ["pbm", *words], plot)


def test_pages_of_the_profile_full(program):
    """They are up to 524,288 units long. A line that would lead too far when it is moved keeps the page."""
    words = ["--profile=full"]
    assert page_of(program, [*words, "--fit", "--margin=0"], b"PW0;PU-60000,0;PD60000,0;")[:2] == ["--width=120000", "--height=64"]
    for plot in (b"PU-300000,0;PD300000,0;", b"IW0,0,30,30;PU10,10;PD8388600,10;"):
        assert page_of(program, [*words, "--fit"], plot, messages.said("too-large-to-fit")) == page_of(program, words, plot)


def test_drawing_that_follows_the_page_may_fit(program):
    """A plot in user units fits the page around it if its corners are set."""
    plot = b"IP0,0,1000,1000;SC0,10,0,10;PU1,1;PD9,9;"
    assert page_of(program, ["--fit", "--page=a5"], plot) == page_of(program, ["--fit", "--page=a0"], plot)


def test_pens_choose_the_page(program):
    """The page is around what the selected pens draw."""
    plot = b"SP1;PU0,0;PD1000,1000;PU;SP2;PU5000,5000;PD6000,5500;"
    first, second = plot.split(b"PU;")
    assert len({tuple(page_of(program, ["--fit"], it)) for it in (plot, first, second)}) == 3
    for pens, same in (("all", plot), ("1", first), ("2", second), ("1-2", plot)):
        words = ["ppm", f"--pens={pens}"]
        assert drawn(program, [*words, "--fit"], plot) == drawn(program, ["ppm", "--fit"], same), pens
    words = ["pbm", "--pens=3", "--fit"]
    assert drawn(program, words, plot, messages.said("blank-to-fit")) == drawn(program, words[:2], plot)


# Plots of the profile full with fills, and their pages without a margin.
FILLED = [
    (b"IW100,100,200,200;PU0,0;RA1000,1000;", (100, 100, -100, -100)),
    (b"IW100,100,200,200;PU0,150;RA1000,1000;", (100, 64, -100, -150)),
    (b"PU-10,-20;RA12000,9000;", (12010, 9020, 10, 20)),
    (b"PU20,30;PM0;PD120,5,60,150;PM2;FP1;", (100, 145, -20, -5)),
    # A corner of the box that the triangle does not fill
    (b"IW90,90,400,400;PU0,0;PM0;PD200,0,0,200;PM2;FP;", (110, 110, -90, -90)),
    # A fill and a line
    (b"PW0;PU0,0;RA100,10;PU50,0;PD50,300;", (100, 300, 0, 0)),
]


def test_fills_choose_the_page(program):
    """The page is around the boxes of the fills, as far as their windows show them; all that they fill is on it."""
    for plot, sides in FILLED:
        assert numbers(page_of(program, ["--fit", "--profile=full", "--margin=0"], plot)) == list(sides), plot
    for plot in (b"IW0,0,100,100;PU200,0;RA300,300;", b"IW-9,-9,-5,-5;PU0,0;RA300,300;"):
        page_of(program, ["--fit", "--profile=full"], plot, messages.said("blank-to-fit"))


def test_sheets_choose_the_page(program):
    first, second = b"SP1;PU0,0;PD1000,1000;", b"SP1;PU0,0;PD3000,500;"
    for sheet, same in ((1, first), (2, second), (0, first + b"PU;" + second)):
        words = ["ppm", "--fit", "--profile=full"]
        assert drawn(program, [*words, f"--sheet={sheet}"], first + b"PG;" + second) == drawn(program, words, same)
    words = ["--fit", "--profile=full", "--sheet=9"]
    assert page_of(program, words, first + b"PG;" + second, messages.said("blank-to-fit"))[0] == "--width=11880"


def test_page_that_the_plot_asks_for(program):
    """The plot is drawn on the page that it asks for, and the picture shows what is drawn there."""
    plot = b"PS800,600;IP;SC0,1,0,1;PW0;PU0,0;PD1,1;"
    words = ["--page=plot", "--fit", "--margin=0"]
    assert page_of(program, words, plot) == ["--width=800", "--height=600", "--left=0", "--below=0"]
    assert page_of(program, words, plot[9:]) == ["--width=11880", "--height=8400", "--left=0", "--below=0"]


def test_refused_plots(program):
    """A plot that is refused on the page that is given is refused, and nothing is written."""
    for words in (["pbm"], ["report"], ["marks", "--margin=0"]):
        done = run(program, [*words, "--fit"], SECONDS, input=b"IN;PU0,0;PD8388607.9,0;")
        assert (done.returncode, done.stdout, done.stderr) == (1, b"", messages.said("off-range", 9))


def test_rows_and_bands_of_a_fitted_page(program):
    """Pictures from a later row on, and in bands, are those of the page."""
    plot = read_bytes(os.path.join(EXAMPLES, "figures.plt"))
    whole = drawn(program, ["marks", "--fit"], plot)
    assert whole == drawn(program, ["marks", "--fit", "--band=7"], plot)
    late = b"".join(it for it in whole.splitlines(True) if int(it.split()[0]) >= 40)
    assert drawn(program, ["marks", "--fit", "--from=40"], plot) == late
    done = run(program, ["pbm", "--fit", "--from=99999"], SECONDS, input=plot)
    assert (done.returncode, done.stderr) == messages.refused("first-row")


# Plots, the words, and what --verbose says of them.
SAID = [
    (b"SP1;PD100,100;", [], "1 line, 0 off the page; 0 notes"),
    (b"SP1;PD100,100,200,0;", [], "2 lines, 0 off the page; 0 notes"),
    (b"SP1;PD100,100;PU-900,-900;PD-500,-500;XX;", [], "2 lines, 1 off the page; 1 note"),
    (b"SP1;PD100,100;SP2;PD20000,9000;XX;XX;", ["--pens=1"], "1 line, 0 off the page; 2 notes"),
    (b"SP1;PU-900,-900;PD-500,-500;", [], "nothing is drawn: 1 line, 1 off the page; 0 notes"),
    (b"SP1;PU20000,0;PD20000,500;PU0,9000;PD500,9000;", [], "nothing is drawn: 2 lines, 2 off the page; 0 notes"),
    (b"SP1;PU20000,0;PD20000,500;", ["--page=a0"], "1 line, 0 off the page; 0 notes"),
    (b"SP1;PD20000,0;", [], "1 line, 0 off the page, 1 cut at its edge; 0 notes"),
    (b"SP1;PD20000,0,20000,900,0,900;", [], "3 lines, 1 off the page, 2 cut at its edge; 0 notes"),
    (b"SP1;IW0,0,90,90;PD20000,0;", [], "1 line, 0 off the page; 0 notes"),
    (b"SP1;PD20000,0;", ["--fit"], "1 line, 0 off the page; 0 notes"),
    (b"SP2;PD100,100;", ["--pens=1"], "nothing is drawn: 0 lines, 0 off the page; 0 notes"),
    (b"", [], "nothing is drawn: 0 lines, 0 off the page; 0 notes"),
    (b"UF1,1;", ["--profile=full"], "nothing is drawn: 0 lines, 0 off the page; 1 note"),
    # A line of 0.35 mm is 14 units wide: it reaches the page from 7 units beside it, and not from 8.
    (b"SP1;PU-7,0;PD-7,100;", [], "1 line, 0 off the page, 1 cut at its edge; 0 notes"),
    (b"SP1;PU-8,0;PD-8,100;", [], "nothing is drawn: 1 line, 1 off the page; 0 notes"),
    # An area counts as its edges, which are lines without a width. They are off the page only if the box of all of them is.
    (b"PU10,10;RA20,20;", ["--profile=full"], "4 lines, 0 off the page; 0 notes"),
    (b"PU-10,10;RA20,20;", ["--profile=full"], "4 lines, 0 off the page, 3 cut at its edge; 0 notes"),
    (b"PU-10,-10;RA12000,9000;", ["--profile=full"], "4 lines, 0 off the page, 4 cut at its edge; 0 notes"),
    (b"PU-10,10;RA-1,20;", ["--profile=full"], "nothing is drawn: 4 lines, 4 off the page; 0 notes"),
    (b"PU-5,10;RA-1,20;PD;", ["--profile=full"], "5 lines, 4 off the page, 1 cut at its edge; 0 notes"),
    (b"IW0,0,50,50;PU-10,-10;RA12000,9000;", ["--profile=full"], "4 lines, 0 off the page; 0 notes"),
    (b"IW100,100,200,200;PU0,0;RA1000,1000;", ["--profile=full", "--fit"], "4 lines, 0 off the page; 0 notes"),
]


def test_verbose(program):
    """One line on standard error after the output, which is the same as without."""
    for plot, words, said in SAID:
        report = "plotraster report" + (" --profile full" if "--profile=full" in words else "")
        errors = f"plotraster: {said}, see {report}\n".encode()
        for command in [*DOCUMENTS, *FORMS, *([] if "--pens=1" in words else ["report"])]:
            output = drawn(program, [command, *words, "--verbose"], plot, errors)
            assert output == drawn(program, [command, *words], plot)


def test_verbose_and_fitted(program):
    """The line on the page comes before that on the drawing, which is as it lies on the fitted page."""
    plot = b"SP1;PU20000,0;PD20000,500;"
    errors = b"plotraster: 1 line, 0 off the page; 0 notes, see plotraster report\n"
    drawn(program, ["pbm", "--fit", "--verbose"], plot, errors)
    errors = messages.said("blank-to-fit")
    errors += b"plotraster: nothing is drawn: 0 lines, 0 off the page; 0 notes, see plotraster report\n"
    drawn(program, ["pbm", "--fit", "--verbose"], b"", errors)


def test_verbose_and_refused(program):
    """Of a plot that is refused only the refusal is said."""
    done = run(program, ["pbm", "--verbose"], SECONDS, input=b"PD8388607.9,0;")
    assert (done.returncode, done.stdout, done.stderr) == (1, b"", messages.said("off-range", 0))


def test_verbose_counts_what_the_report_counts(program):
    for name in EXAMPLES_FITTED:
        plot = read_bytes(os.path.join(EXAMPLES, f"{name}.plt"))
        report = drawn(program, ["report"], plot).decode()
        said = run(program, ["pbm", "--verbose"], SECONDS, input=plot).stderr.decode()
        lines, notes = (int(re.search(rf"(\d+) {it}", said)[1]) for it in ("line", "note"))
        assert lines == int(re.search(r"^strokes (\d+)$", report, re.M)[1])
        assert notes == len(re.findall(r"^note ", report, re.M))
