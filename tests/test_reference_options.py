"""Checks what options do to pens, sheets and sizes in the plain plotter of tests/reference, without the program: examples
that were computed by hand."""

import re

import pytest

from reference import full_plotter, plotter
from reference import messages
from reference.carousel import EMPTY, BadItem, Carousel, colours_of, widths_of
from reference.command_line import request_of
from reference.geometry import Page
from reference.outputs import answer, dots_of_size, file_names, listed, shown_by
from reference.shapes import strokes_of

PAGE = Page(1000, 1000, 0, 0)
BLUE, GREY = (0, 0, 255), (128, 128, 128)


@pytest.mark.parametrize("text, wanted", [
    ("1=red", {1: (255, 0, 0)}),
    ("2-4=#f80,3=Grey", {2: (255, 136, 0), 3: GREY, 4: (255, 136, 0)}),
    ("3=gray,2-4=#0aF", {2: (0, 170, 255), 3: (0, 170, 255), 4: (0, 170, 255)}),
    ("007=C0ffee,255=#102030", {7: (192, 255, 238), 255: (16, 32, 48)}),
    ("all=green,1=LIME", {pen: (0, 255, 0) if pen == 1 else (0, 128, 0) for pen in range(1, 256)}),
])
def test_colours(text, wanted):
    assert colours_of(text) == wanted


@pytest.mark.parametrize("text, wanted", [
    ("1=0.35", {1: 224}), ("1=.5,2=5.", {1: 320, 2: 3200}), ("1=00020", {1: 12_800}), ("1=0", {1: 0}),
    ("2=0.7,1-3=1", {1: 640, 2: 640, 3: 640}), ("1-3=1,2=0.7", {1: 640, 2: 448, 3: 640}),
    # 781 and 782 millionths of a millimetre are on both sides of half a grain; the seventh decimal is not read.
    ("1=0.000781,2=0.000782,3=0.0007819", {1: 0, 2: 1, 3: 0}),
    ("1=20.0000009", {1: 12_800}),
])
def test_widths(text, wanted):
    assert widths_of(text) == wanted


@pytest.mark.parametrize("read, text, item", [
    (colours_of, "2=bleu", "2=bleu"), (colours_of, "1=red,2=f80,3=no", "2=f80"), (colours_of, "", ""),
    (colours_of, "1=red,", ""), (colours_of, "red", "red"), (colours_of, "0=red", "0=red"),
    (colours_of, "3-1=red", "3-1=red"), (colours_of, "1=#ff00", "1=#ff00"),
    (colours_of, "1=red=red", "1=red=red"), (colours_of, "1= red", "1= red"), (colours_of, "1=##ff0000", "1=##ff0000"),
    (colours_of, "1=blac\N{KELVIN SIGN}", "1=blac\N{KELVIN SIGN}"), (colours_of, "1,2=red", "1"),
    (widths_of, "1=1,3=fat", "3=fat"), (widths_of, "1=-1", "1=-1"), (widths_of, "1=+1", "1=+1"),
    (widths_of, "1=20.000001", "1=20.000001"),
    (widths_of, "1=.", "1=."), (widths_of, "1=1e1", "1=1e1"), (widths_of, "256=1", "256=1"), (widths_of, "1=", "1="),
])
def test_bad_items(read, text, item):
    with pytest.raises(BadItem, match=f"^{re.escape(item)}$"):
        read(text)


CAROUSEL = Carousel({2: BLUE}, {2: 640, 3: 0})


def inks(plot, draw=plotter.draw, carousel=CAROUSEL):
    """The pen, the colour and the width of each stroke, or of the edges of an area."""
    shapes, _ = draw(plot, PAGE, carousel)
    return [(it.pen, it.colour, it.width) for shape in shapes for it in strokes_of(shape)]


@pytest.mark.parametrize("draw", [plotter.draw, full_plotter.draw])
def test_pens_hold_what_options_say(draw):
    """Whatever PW and PC say, also after IN; other pens are as the plot sets them."""
    assert inks(b"PW2;SP2;PD9,0;PC2,1,2,3;PW5,2;PD0,0;IN;SP2;PD9,9;", draw) == [(2, BLUE, 640)] * 3
    assert inks(b"PW2;PC3,1,2,3;SP3;PD9,0;SP1;PD0,0;", draw) == [(3, (1, 2, 3), 0), (1, (0, 0, 0), 1280)]
    # Figures, the letter I, a pen that a PE selects.
    assert set(inks(b"SP2;PW3;EA9,9;CI30;LBI\x03PE:%c<!!;" % (191 + 4), draw)) == {(2, BLUE, 640)}
    assert inks(b"SP0;PD9,9;", draw) == []
    assert inks(b"SP2;PD9,0;", draw, EMPTY) == [(2, (255, 0, 0), 224)]


def test_widths_of_full():
    """PT and WU change nothing; symbols, ticks, dashes and edges of polygons are the pen's."""
    for plot in (b"SP2;PT3;PD99,0;", b"WU1;PW50;SP2;PD99,0;", b"SP2;SM*;PW9;PU9,9;", b"SP2;PW9;XT;", b"SP2;PW9;LT2;PD999,0;",
                 b"SP2;PM;PD9,9,9,0;PM2;PW9;EP;", b"SP2;CR0,9,0,9,0,9;PC2,5,5,5;PD9,9;"):
        assert set(inks(plot, full_plotter.draw)) == {(2, BLUE, 640)}, plot


def test_fills():
    """Solid fills have edges of width 0, and shading lines of 0.35 mm, in the pen's colour."""
    assert set(inks(b"SP2;PW9;RR40,40;", full_plotter.draw)) == {(2, BLUE, 0)}
    assert set(inks(b"SP2;PW9;FT10,50;RR400,400;", full_plotter.draw)) == {(2, BLUE, 224)}
    assert set(inks(b"SP2;PW9;FT3,100;RR400,400;", full_plotter.draw)) == {(2, BLUE, 640)}


@pytest.mark.parametrize("set_by_plot, by_option, lines", [
    # Lines at 0, 400 and 800 units, for half of 20 mm is 400 units; at 0, 200 .. 800; and at 0, 100 .. 900.
    (b"PW20;", {}, 3), (b"PW20;", {1: 6400}, 5), (b"PW0;", {1: 12_800}, 3), (b"WU1;PW90;", {1: 3200}, 10),
    # No denser than FT says.
    (b"PW20;", {1: 0}, 40),
])
def test_hatching_goes_by_the_width_that_is_drawn(set_by_plot, by_option, lines):
    plot = set_by_plot + b"FT3,25;RA1000,1000;"
    assert len(full_plotter.draw(plot, PAGE, Carousel({}, by_option))[0]) == lines


def test_reports():
    plot = b"PW2;SP1;PD9,0;SP2;PD9,9;"
    by_options = {"widths": "all=1,1=5", "colours": "1=red"}
    for options, widths in (({}, (1280, 1280)), ({"widths": "2=0.1"}, (1280, 64)), (by_options, (3200, 640))):
        lines = answer("report", options, plot).output.decode().splitlines()
        assert tuple(int(line.split()[5]) for line in lines if line.startswith("pen")) == widths, options


def test_pictures_in_other_colours():
    """A page of one pixel in each form that has colours."""
    plot, page = b"SP2;PU0,0;PD64,64;", {"width": "64", "height": "64", "dots": "16"}
    assert answer("ppm", {**page, "colors": "2=#102030"}, plot).output == b"P6\n1 1\n255\n\x10\x20\x30"
    assert answer("marks", {**page, "colours": "all=navy,2=teal"}, plot).output == b"0 0 2 008080\n"
    # A wider line makes a wider page: 100 units and 1 mm on each side, and half of 2 mm more.
    fitted = {"fit": None, "widths": "2=2"}
    assert answer("report", fitted, b"SP2;PU0,0;PD100,0;").output.startswith(b"page 260 160 80 80\n")


@pytest.mark.parametrize("options, text", [
    ({"colours": "2=bleu", "widths": "3=fat"}, messages.text("colours", "2=bleu")),
    ({"colours": "2=blue", "widths": "3=fat"}, messages.text("widths", "3=fat")),
    ({"colors": "x", "pens": "0"}, messages.text("pens")), ({"widths": "", "profile": "no"}, messages.text("widths", "")),
])
def test_order_of_mistakes(options, text):
    assert answer("pbm", options, b"") == (2, b"", f"plotraster: {text}\n")


@pytest.mark.parametrize("options, text", [
    ({"form": "pbm", "smooth": "2", "sheet": "x"}, messages.text("smooth-without-shades")),
    ({"form": "svg", "labels": "x", "widths": "x"}, messages.text("widths", "x")), ({"labels": "x"}, messages.text("labels")),
    ({"form": "pdf", "labels": "text", "profile": "core"}, messages.text("labels-without-texts")),
    ({"form": "dxf", "labels": "text", "profile": "core", "dots": "20"}, messages.text("labels-in-core")),
    ({"form": "dxf", "labels": "strokes", "profile": "x", "dots": "20"}, messages.text("no-pixels")),
    ({"profile": "x", "sheet": "x"}, "bad sheet"), ({"profile": "x", "sheet": "each"}, messages.text("profile")),
    ({"characters": "x", "sheet": "x"}, "bad sheet"), ({"characters": "x", "profile": "x"}, "bad characters: use roman-8, "),
    ({"profile": "core", "sheet": "each", "size": "20", "dots": "20"}, "--sheet needs --profile full"),
    ({"profile": "core", "sheet": "1", "characters": "ascii"}, "--sheet needs --profile full"),
    ({"profile": "core", "characters": "ascii", "size": "20", "dots": "20"}, "--characters needs --profile full"),
    ({"sheet": "each", "size": "20", "dots": "20"}, "--sheet each needs"),
    ({"size": "20", "dots": "20", "form": "pcl"}, "--size may not be given with --dots"),
    ({"size": "20", "form": "pcl", "width": "900", "margin": "1"}, "--size may not be given with the form pcl"),
])
def test_order_of_mistakes_of_draw(options, text):
    """By docs/DECISIONS.md, "The order of refusals"."""
    got = answer("draw", options, b"")
    assert got.status == 2 and got.error.startswith(f"plotraster: {text}")


# Sheets apart

APART = {"profile": "full", "sheet": "each", "output": "pictures"}
SMALL = {"width": "64", "height": "64", "dots": "127"}


def test_files_of_sheets():
    files = {"plot-1.marks": b"4 0 1 000000\n", "plot-2.marks": b"4 1 2 ff0000\n"}
    plot = b"PU4,28;PD;PG;SP2;PU12,28;PD;"
    assert answer("marks", {**APART, **SMALL}, plot) == (0, listed(files), "")
    assert listed(files) == b"plot-1.marks 13\n4 0 1 000000\n\nplot-2.marks 13\n4 1 2 ff0000\n\n"
    # A sheet of which no pen is selected has a file, too.
    files["plot-2.marks"] = b""
    assert answer("marks", {**APART, **SMALL, "pens": "1"}, plot).output == listed(files)
    # A plot of one sheet, and of none; sheets that are not apart.
    assert answer("marks", {**APART, **SMALL}, b"PG;PU4,28;PD;PG;PG;").output == listed({"plot.marks": b"4 0 1 000000\n"})
    assert answer("marks", {**APART, **SMALL}, b"PG;").output == listed({"plot.marks": b""})
    both = listed({"plot.marks": b"4 0 1 000000\n4 1 2 ff0000\n"})
    assert answer("marks", {**APART, **SMALL, "sheet": "0"}, plot) == (0, both, "")


def test_names_of_sheets():
    assert file_names(1, "png") == ["plot.png"]
    assert file_names(9, "png")[::8] == ["plot-1.png", "plot-9.png"]
    assert file_names(12, "pbm")[::11] == ["plot-01.pbm", "plot-12.pbm"]
    assert file_names(100, "ppm")[::99] == ["plot-001.ppm", "plot-100.ppm"]


def test_sheets_have_one_page():
    """It is around the drawings of all sheets; here 1,000 by 500 units, which are 125 by 62.5 pixels."""
    plot = b"PW0;PU0,0;PD;PG;PU1000,500;PD;"
    got = answer("pbm", {**APART, "fit": None, "margin": "0", "dots": "127"}, plot)
    assert got.output.count(b"\nP4\n125 63\n") == 2 and (got.status, got.error) == (0, "")
    alone = answer("pbm", {"profile": "full", "sheet": "2", "fit": None, "margin": "0", "dots": "127"}, plot)
    assert alone.output.startswith(b"P4\n8 8\n")


@pytest.mark.parametrize("command, options, text", [
    ("pbm", {"sheet": "each"}, "--sheet needs --profile full"),
    ("pbm", {"sheet": "each", "profile": "full"}, messages.text("each-without-folder")),
    ("report", {**APART}, "--sheet each needs a picture"),
    ("pbm", {**APART, "sheet": "Each"}, "bad sheet: use a number from 0 to 4194304, or each"),
    ("pbm", {**APART, "sheet": "4194305"}, "bad sheet: use a number from 0 to 4194304, or each"),
])
def test_mistakes_about_sheets(command, options, text):
    assert answer(command, options, b"") == (2, b"", f"plotraster: {text}\n")


def test_messages_about_sheets():
    """Each sheet has its own; of a plot of one sheet they name none."""
    plot = b"PU0,0;PD900,0;PG;SP2;PD900,900;"
    blank, kept = messages.text("blank", "plotraster report --profile full"), messages.text("blank-to-fit")
    options = {"size": "16", "form": "marks", "output": "pictures"}
    assert answer("draw", {**options, "pens": "2"}, plot).error == f"plotraster: sheet 1: {blank}\n"
    assert answer("draw", options, b"").error == f"plotraster: {blank}\n"
    said = answer("pbm", {**APART, **SMALL, "fit": None, "pens": "3"}, plot).error
    assert said == f"plotraster: sheet 1: {kept}\nplotraster: sheet 2: {kept}\n"


@pytest.mark.parametrize("x, is_blank", [(1007, False), (1008, True), (-7, False), (-8, True)])
def test_draw_says_that_nothing_is_on_the_page(x, is_blank):
    """A line 14 units wide beside a page of 1,000 units, or at its edge."""
    for plot in (b"PU%d,5;PD%d,900;" % (x, x), b"PU5,%d;PD900,%d;" % (x, x)):
        error = answer("draw", {"width": "1000", "height": "1000", "form": "marks", "dots": "10"}, plot).error
        said = messages.said("blank", "plotraster report --profile full").decode()
        assert error == (said if is_blank else ""), plot


def test_draw_has_sheets_apart_in_a_folder():
    options = {"size": "16", "form": "marks", "output": "pictures"}
    plot = b"PU0,0;PD900,0;PG;PD900,900;"
    assert answer("draw", options, plot) == answer("draw", {**options, "sheet": "each"}, plot)
    one = answer("draw", {**options, "sheet": "1"}, plot)
    assert one.error == "" and one.output.startswith(b"plot.marks ")
    core = answer("draw", {**options, "profile": "core"}, plot)
    assert core.error == "" and core.output.startswith(b"plot.marks ")
    first = answer("draw", {"size": "16", "form": "marks"}, plot)
    assert first.error == f"plotraster: {messages.text('first-sheet', 2)}\n"


# Sizes

@pytest.mark.parametrize("width, height, pixels, dots", [
    (1016, 508, 100, 100), (508, 1016, 100, 100),
    # 11,880 units are 795 pixels at 68 dots per inch, and 807 at 69.
    (11_880, 8400, 800, 68), (11_880, 8400, 795, 68), (11_880, 8400, 794, 67),
    # Half a pixel is rounded up: 508 units are 50 pixels at 99 and at 100 dots, and 51 at 101.
    (508, 64, 50, 100), (508, 64, 49, 98),
    # The largest page has 65 pixels at 1 dot, which is the least; the smallest has 76 at 1200, which is the greatest.
    (65_536, 64, 16, 1), (65_536, 64, 64, 1), (65_536, 64, 128, 1), (65_536, 64, 129, 2),
    (64, 64, 75, 1198), (64, 64, 76, 1200), (64, 64, 20_000, 1200),
])
def test_sizes(width, height, pixels, dots):
    assert dots_of_size(Page(width, height, 0, 0), pixels) == dots


@pytest.mark.parametrize("pixels, options, dots, smooth", [
    (100, {}, 100, 8), (150, {}, 150, 8), (151, {}, 151, 7), (300, {}, 300, 4), (600, {}, 600, 2), (601, {}, 601, 1),
    (2000, {}, 1200, 1),
    (100, {"smooth": "3"}, 100, 3), (600, {"smooth": "3"}, 600, 2), (100, {"smooth": "1"}, 100, 1), (100, {"form": "pbm"}, 100, 1),
])
def test_smoothing_of_sizes(pixels, options, dots, smooth):
    """The page is 1016 units wide, so that it has as many pixels as dots."""
    request = request_of("draw", {"width": "1016", "height": "508", "size": str(pixels), **options})
    shown = shown_by(request, b"")
    assert (shown.dots, shown.smooth) == (dots, smooth)


def test_pictures_of_a_size():
    """On a given page, and on the page around the drawing, a line of 806 units with its width and a margin of 5 mm."""
    page = {"width": "1016", "height": "508", "size": "16"}
    assert answer("draw", {**page, "form": "ppm"}, b"PU0,0;").output.startswith(b"P6\n16 8\n255\n")
    got = answer("draw", {**page, "form": "png"}, b"PU0,0;PD900,400;")
    # 16 dots are 629.9 pixels a metre.
    assert got.output.startswith(b"630 pixels a metre\nP6\n16 8\n255\n") and not got.error
    # 806 and 14 and twice 200 are 1220 units, 20.4 pixels at 17 dots and 21.6 at 18; 414 units are 6.9 at 17.
    got = answer("draw", {"size": "20", "form": "pbm", "profile": "core"}, b"PS4000,3000;PU0,0;PD806,0;")
    assert got.output.startswith(b"P4\n20 7\n") and not got.error
    # A page that is far too long for its width still has a row.
    assert answer("draw", {"width": "65536", "height": "64", "size": "16", "form": "pbm"}, b"").output == b"P4\n65 1\n" + bytes(9)


@pytest.mark.parametrize("options, text", [
    ({"size": "100", "dots": "100"}, "--size may not be given with --dots"),
    ({"size": "100", "form": "pcl"}, "--size may not be given with the form pcl"),
    ({"size": "100", "form": "pbm", "smooth": "2"}, messages.text("smooth-without-shades")),
])
def test_mistakes_about_sizes(options, text):
    assert answer("draw", options, b"") == (2, b"", f"plotraster: {text}\n")


@pytest.mark.parametrize("plot, sides", [
    (b"PS400,300;", (400, 300)), (b"PS;PS63,64;PS400:;PS-400,300;PS524288.5,64;PS500;PS9;", (500, 8400)),
    (b"PS400.49,299.5,7;", (400, 300)),
    (b"LBPS400,300;\x03", (11_880, 8400)), (b"CO PS400,300;PS500,200;", (500, 200)),
])
def test_pages_that_plots_ask_for(plot, sides):
    shown = shown_by(request_of("draw", {"page": "plot"}), plot)
    assert shown.page == (*sides, 0, 0)
