"""Checks the page around a drawing in the plain plotter of tests/reference, without the program."""

import random

import pytest

from reference import messages
from reference import raster
from reference.fitting import BLANK, TOO_LARGE, fitted, is_off
from reference.geometry import NO_WINDOW, Page, whole_page
from reference.outputs import answer, draw
from reference.plotter import FARTHEST_END, Refused, Stroke
from reference.random_fitted_plots import number, random_fitted_case
from reference.shapes import Area, strokes_of
from shared import assert_nothing

GIVEN = Page(1000, 800, 50, 60)
WHOLE = whole_page(GIVEN)
CASES, POINTS = 400, 40
# A pixel is a unit: the pixels of two pages with whole units between them lie on one another.
DOTS = 1016


def stroke(a, b, width=0, window=WHOLE, pen=1):
    return Stroke(pen, (0, 0, 0), width, window, a, b)


def page_around(*strokes, margin=0):
    """The page around some strokes, which must be fitted."""
    got = fitted(list(strokes), GIVEN, margin)
    assert got.why is None
    return got.page


LINE = ((160, 480), (320, 480))


@pytest.mark.parametrize("width, margin, wanted", [
    (0, 0, (64, 64, 50 - 10, 60 - 30)),
    (32, 0, (64, 64, 50 - 9, 60 - 29)),
    # Half of an odd width is rounded up, and so is each part of a unit: down on the left, up on the right.
    (33, 0, (64, 64, 50 - 8, 60 - 28)),
    (0, 1, (10 + 80, 80, 50 - 10 + 40, 60 - 30 + 40)),
    (1, 1, (12 + 80, 2 + 80, 50 - 9 + 40, 60 - 29 + 40)),
    (12_800, 100, (10 + 800 + 8000, 800 + 8000, 50 - 10 + 400 + 4000, 60 - 30 + 400 + 4000)),
])
def test_widths_and_margins(width, margin, wanted):
    assert page_around(stroke(*LINE, width), margin=margin) == wanted


@pytest.mark.parametrize("least, greatest, begins, long", [
    (0, 1600, 0, 100), (-1, 1600, -1, 101), (1, 1599, 0, 100), (-16, 1601, -1, 102), (-17, 1600, -2, 102),
    (15, 1616, 0, 101), (5, 5, 0, 64), (16_000, 17_600, 1000, 100), (-170_000, -160_000, -10_625, 625),
])
def test_whole_units(least, greatest, begins, long):
    """The page holds whole units, wherever it is."""
    for a, b in ((least, greatest), (greatest, least)):
        assert page_around(stroke((a, 0), (b, 0))) == (long, 64, 50 - begins, 60)
        assert page_around(stroke((0, a), (0, b))) == (64, long, 50, 60 - begins)


def test_all_strokes_count():
    """The page is around all strokes; what lies off the given page counts as well."""
    strokes = stroke((0, 0), (1600, 0)), stroke((-3200, 800), (160, 480)), stroke((160, -160), (160, 32_000))
    assert page_around(*strokes) == (300, 2010, 50 + 200, 60 + 10)


def test_windows_cut():
    """Of a stroke counts what its window leaves, with the window's edges; the whole page cuts nothing."""
    line = (-1600, 160), (32_000, 160)
    assert page_around(stroke(*line)) == (2100, 64, 50 + 100, 60 - 10)
    assert page_around(stroke(*line, window=(0, 0, 16_000, 12_799))) == (1000, 64, 50, 60 - 10)
    assert page_around(stroke(*line, 32, window=(1600, 152, 4800, 3200))) == (200, 64, 50 - 100, 60 - 9)
    assert page_around(stroke(*line, window=(1600, 160, 1600, 160)), margin=1) == (80, 80, 50 - 60, 60 + 30)


def test_strokes_that_a_window_hides():
    """A stroke whose box is not in its window counts nothing, and is moved with the others."""
    hidden = [
        stroke((160, 160), (320, 160), window=(0, 161, 16_000, 12_800)),
        stroke((0, 0), (16_000, 0), window=NO_WINDOW),
        stroke((8000, 0), (9000, 0), 32, window=(0, 17, 16_000, 100)),
    ]
    assert fitted(hidden, GIVEN, 1) == (GIVEN, hidden, BLANK)
    page, strokes, why = fitted([*hidden, stroke((3200, 1600), (4800, 1600))], GIVEN, 0)
    assert (page, why) == ((100, 64, 50 - 200, 60 - 100), None)
    assert [it.a for it in strokes] == [(160 - 3200, 160 - 1600), (-3200, -1600), (8000 - 3200, -1600), (0, 0)]
    assert strokes[1].window == NO_WINDOW


def test_strokes_on_the_page():
    """Strokes and windows are moved; windows are cut to the page, and the whole page becomes the whole of the new one."""
    windows = WHOLE, (1600, 800, 3216, 832), (0, 0, 8000, 8000), (3200, 0, 3200, 12_800)
    lines = [stroke((1600, 800), (3200, 1824), 7, window, pen) for pen, window in enumerate(windows, 1)]
    got = fitted(lines, GIVEN, 0)
    # The first stroke is seven grains wide: the page begins a unit before it and ends a unit after it.
    assert got.page == (102, 66, 50 - 99, 60 - 49)
    assert [it.window for it in got.shapes] == [
        (0, 0, 1632, 1056), (16, 16, 1632, 48), (0, 0, 1632, 1056), (1616, 0, 1616, 1056),
    ]
    assert all((it.a, it.b, it.width) == ((16, 16), (1616, 1040), 7) for it in got.shapes)
    assert [it.pen for it in got.shapes] == [1, 2, 3, 4]
    # What lies off the given page is shown too.
    page, (line,), _ = fitted([stroke((-1600, -800), (32_000, 160))], GIVEN, 0)
    assert (page, line.a, line.window) == ((2100, 64, 50 + 100, 60 + 50), (0, 0), (0, 0, 33_600, 1024))


def area(*places, window=WHOLE, pen=1):
    """The area of a polygon."""
    return Area(pen, (0, 0, 0), window, tuple(zip(places, (*places[1:], places[0]))), 1)


@pytest.mark.parametrize("window, page", [(WHOLE, (100, 64, 50 - 10, 60 - 20)), ((0, 0, 800, 600), (64, 64, 50 - 10, 60 - 20))])
def test_areas(window, page):
    """The page is around the box of an area's edges, which have no width, and the area is moved as they are."""
    triangle = area((160, 320), (1760, 320), (160, 800), window=window, pen=3)
    got = fitted([triangle], GIVEN, 0)
    assert got.page == page and got.why is None
    assert strokes_of(*got.shapes) == fitted(strokes_of(triangle), GIVEN, 0).shapes
    assert got.shapes[0].rule == 1 and got.shapes[0].edges[0] == ((0, 0), (1600, 0))


SQUARE = (0, 0), (16_000, 0), (16_000, 12_800), (0, 12_800)


@pytest.mark.parametrize("window, page", [
    ((3200, 1600, 4800, 3200), (100, 100, 50 - 200, 60 - 100)),
    ((3200, 1600, 4800, 12_800), (100, 700, 50 - 200, 60 - 100)),
    (WHOLE, (1000, 800, 50, 60)),
])
def test_windows_inside_of_areas(window, page):
    """A window is seen that the area fills, although no edge is in it."""
    filled = area(*SQUARE, window=window)
    assert fitted([filled], GIVEN, 0).page == page
    if window[3] < 12_800:
        assert fitted(strokes_of(filled), GIVEN, 0).why == BLANK


def test_areas_that_windows_hide():
    hidden = [
        area(*SQUARE, window=NO_WINDOW), area((0, 0), (160, 0), (0, 160), window=(161, 0, 320, 320)),
        area((0, 0), (160, 0), (0, 160), window=(0, 161, 320, 320)),
    ]
    assert fitted(hidden, GIVEN, 0) == (GIVEN, hidden, BLANK)
    # A corner of the box is seen, although the area does not fill it.
    corner = area((0, 0), (1600, 0), (0, 1600), window=(1440, 1440, 3200, 3200))
    assert fitted([corner], GIVEN, 0).page == (64, 64, 50 - 90, 60 - 90)


@pytest.mark.parametrize("places, off", [
    (((-160, -160), (32_000, -160), (32_000, 32_000), (-160, 32_000)), False),
    (((16_001, 0), (32_000, 0), (32_000, 1600)), True), (((16_000, 0), (32_000, 0), (32_000, 1600)), False),
    (((0, -1), (160, -1), (160, -160)), True), (((0, 12_801), (160, 12_801), (160, 16_000)), True),
    # Nothing of the triangle is on the page, but a corner of its box is.
    (((-1600, 160), (160, -1600), (-1600, -1600)), False),
])
def test_areas_off_the_page(places, off):
    """An area that is larger than the page is not off it; a window changes nothing."""
    assert is_off(area(*places), GIVEN) == is_off(area(*places, window=NO_WINDOW), GIVEN) == off


def test_nothing_drawn():
    assert fitted([], GIVEN, 5) == (GIVEN, [], BLANK)


def test_largest_pages():
    """A page of 65,536 units is the largest, with its margin."""
    far = 65_536 * 16
    for margin, most in ((0, far), (1, far - 1280), (100, far - 128_000)):
        for long, why in ((most, None), (most + 1, TOO_LARGE)):
            strokes = [stroke((0, 0), (long // 2, 0)), stroke((long // 2 - long, 0), (0, 0))]
            assert fitted(strokes, GIVEN, margin).why == why, (margin, long)
            across = [it._replace(a=it.a[::-1], b=it.b[::-1]) for it in strokes]
            assert fitted(across, GIVEN, margin).why == why, (margin, long)


def test_strokes_too_far_from_the_page():
    """An end of a stroke, seen or not, is in range of the new corner too."""
    hidden = stroke((FARTHEST_END, 0), (0, 0), window=(0, 0, 160, 160))
    assert page_around(hidden) == (64, 64, 50, 60)
    assert page_around(hidden, stroke((0, -16), (0, 0))) == (64, 64, 50, 61)
    for other in (stroke((-1, 0), (0, 0)), stroke((0, 0), (0, 0), 1)):
        assert fitted([hidden, other], GIVEN, 0) == (GIVEN, [hidden, other], TOO_LARGE)
    assert fitted([hidden], GIVEN, 1).why == TOO_LARGE
    below = stroke((0, -FARTHEST_END), (0, 0), window=(0, 0, 160, 160))
    assert page_around(below, stroke((0, 0), (16, 0))) == (64, 64, 50, 60)
    assert fitted([below, stroke((0, 160), (0, 160))], GIVEN, 0).why is None
    assert fitted([below._replace(window=(0, 16, 160, 160), b=(0, 64))], GIVEN, 0).why == TOO_LARGE


def answered(form, plot, **options):
    """The output and the errors of a plot, with `--fit`."""
    got = answer(form, {"fit": None, **options}, plot)
    assert got.status == 0
    return got.output, got.error


@pytest.mark.parametrize("plot, options, wanted", [
    (b"PW0;PU-10.5,-20.5;PD30.5,40.5;", {}, b"page 122 142 51 61"),
    (b"PW0;PU-10.5,-20.5;PD30.5,40.5;", {"margin": "0"}, b"page 64 64 11 21"),
    (b"PW0;PU1000,2000;PD1100,2200;", {"left": "7"}, b"page 180 280 -960 -1960"),
    # The scaling points are the corners of the page that the options give.
    (b"PW0;SC0,10,0,10;PU1,1;PD9,9;", {"width": "1000", "height": "500", "margin": "0"}, b"page 800 400 -100 -50"),
    (b"PW0;RO90;PU0,0;PD100,200;", {"margin": "0", "width": "1000"}, b"page 200 100 -800 0"),
    (b"PW0;IW0,0,50,50;PU-500,20;PD500,20;", {"margin": "0"}, b"page 64 64 0 -20"),
])
def test_reports(plot, options, wanted):
    output, error = answered("report", plot, **options)
    assert (output.splitlines()[0], error) == (wanted, "")


def test_reports_tell_places_on_the_page():
    output, _ = answered("report", b"PW0;PU1000,2000;PD1100,2200;SP2;PU900,0;PD;", margin="2")
    assert output.splitlines() == [
        b"page 360 2360 -820 80", b"strokes 2",
        b"pen 1 strokes 1 widest 0 box 2880 33280 4480 36480", b"pen 2 strokes 1 widest 0 box 1280 1280 1280 1280",
    ]


def test_pages_that_are_kept():
    """The output is that of the page that is given, and a line says why."""
    for plot, why in ((b"PU5,5;", BLANK), (b"PW0;PU-60000,0;PD60000,0;", TOO_LARGE)):
        for form, options in (("report", {}), ("pbm", {"dots": "10", "width": "200", "height": "200"})):
            wanted = answer(form, options, plot).output
            assert answered(form, plot, **options) == (wanted, messages.said(why).decode())
    assert answer("report", {"margin": "1"}, b"") == (2, b"", f"plotraster: {messages.text('margin-without-fit')}\n")


def test_pens_choose_the_page():
    """Lines a millimetre wide, in pixels of eight units; a millimetre is 40 units."""
    plot = b"PW1;SP1;PU0,0;PD100,100;SP2;PU500,500;PD700,600;"
    sizes = {"1": b"28 28", "2": b"40 28", "1-2": b"103 90", "all": b"103 90"}
    for pens, size in sizes.items():
        output, error = answered("pbm", plot, pens=pens, dots="127")
        assert output.split(b"\n")[1] == size and not error, (pens, output[:20])
    wanted = answer("pbm", {"pens": "3", "dots": "10"}, plot).output
    assert answered("pbm", plot, pens="3", dots="10") == (wanted, messages.said(BLANK).decode())


def wrong_points(seed):
    """The points of a random plot's page that do not show the same on the page around the drawing."""
    case, chance = random_fitted_case(seed), random.Random(seed)
    page = Page(*(number(case, side, 64, 2000, 200) for side in ("width", "height")), 0, 0)
    try:
        shapes = draw(case.plot, page, 0 if seed % 2 else None).shapes
    except Refused:
        return
    got = fitted(shapes, page, 1)
    shown = {True: got.shapes, False: shapes}
    traced = {it: [raster.traced(one, DOTS) for one in reversed(shown[it])] for it in shown}
    for _ in range(POINTS):
        x, y = chance.randrange(page.width), chance.randrange(page.height)
        u, v = x + got.page.left, y + got.page.below
        here, there = (shape_at(traced[it], *at) for it, at in ((False, (x, y)), (True, (u, v))))
        is_inside = 0 <= u < got.page.width and 0 <= v < got.page.height
        if here != (there if is_inside or got.why else None):
            yield f"seed {seed}: {x}, {y} shows {here} and not {there}, {got.page}"


def shape_at(latest_first, x, y):
    """How many shapes come after the one that the pixel shows, or None."""
    centre = ((2 * it + 1) * raster.PIXEL // 2 for it in (x, y))
    found = raster.shown(latest_first, *centre, DOTS)
    return next((at for at, traced in enumerate(latest_first) if traced.shape is found), None)


@pytest.mark.parametrize("part", range(4))
def test_points_show_the_same(part):
    """A point of the given page shows the same shape on the page around the drawing; off that page it is white."""
    for seed in range(part, CASES, 4):
        assert_nothing(wrong_points(seed))
