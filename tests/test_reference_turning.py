"""Checks the pages that `--rotate` turns in the plain plotter of tests/reference, without the program: on examples that were
computed by hand, and by what four quarters do."""

import itertools
import random

import pytest

from reference import messages, raster
from reference.geometry import NO_WINDOW, Page, whole_page
from reference.labels import Row
from reference.outputs import answer, draw, listed
from reference.plotter import FARTHEST_END, Refused, Stroke
from reference.random_fitted_plots import base_case, random_fitted_case
from reference.random_options import random_apart_case, random_drawn_case, random_pens_case
from reference.random_vectors import random_vector_case
from reference.shapes import Area, strokes_of
from reference.turning import TooFar, Turn
from shared import assert_nothing

# The sides are different, and the corner of the plot is not that of the page.
PAGE = Page(1000, 600, 50, 60)
WIDE, HIGH = 16_000, 9600
WHOLE = whole_page(PAGE)
QUARTERS = (90, 180, 270)
SMALL = {"width": "64", "height": "64", "dots": "127"}
FAR = messages.text("too-far-to-turn")
KINDS = (base_case, random_fitted_case, random_pens_case, random_apart_case, random_drawn_case, random_vector_case)
CASES, MOST_LINES = 400, 300


def stroke(a, b, window=WHOLE, pen=1):
    return Stroke(pen, (0, 0, 0), 224, window, a, b, 2, 7)


@pytest.mark.parametrize("degrees, page, places", [
    (0, PAGE, ((0, 0), (WIDE, 0), (5, 7))),
    (90, (600, 1000, 50, 60), ((HIGH, 0), (HIGH, WIDE), (HIGH - 7, 5))),
    (180, PAGE, ((WIDE, HIGH), (0, HIGH), (WIDE - 5, HIGH - 7))),
    (270, (600, 1000, 50, 60), ((0, WIDE), (0, 0), (7, WIDE - 5))),
])
def test_places(degrees, page, places):
    """A place is where it lies on the page after it was turned; what the page says of the plot's (0,0) stays."""
    turn = Turn(PAGE, degrees)
    assert turn.page == page
    assert tuple(map(turn.place, ((0, 0), (WIDE, 0), (5, 7)))) == places
    line, = turn.shapes([stroke((0, 0), (5, 7))])
    assert line == stroke(places[0], places[2], whole_page(turn.page))
    area, = turn.shapes([Area(3, (1, 2, 3), WHOLE, (((0, 0), (WIDE, 0)), ((WIDE, 0), (5, 7)), ((5, 7), (0, 0))), 1)])
    assert area == (3, (1, 2, 3), whole_page(turn.page), tuple(zip(places, (*places[1:], places[0]))), 1, 1, 0)


@pytest.mark.parametrize("degrees, window", [
    (90, (HIGH - 900, 100, HIGH - 300, 8000)), (180, (WIDE - 8000, HIGH - 900, WIDE - 100, HIGH - 300)),
    (270, (300, WIDE - 8000, 900, WIDE - 100)),
])
def test_windows(degrees, window):
    """An empty one stays empty."""
    turn = Turn(PAGE, degrees)
    shapes = turn.shapes([stroke((0, 0), (1, 1), own) for own in ((100, 300, 8000, 900), NO_WINDOW, (9, 9, 9, 9))])
    assert shapes[0].window == window
    assert shapes[1].window == NO_WINDOW
    assert shapes[2].window == 2 * turn.place((9, 9))


def test_labels():
    """Their places are cut to their own range after the turn."""
    rows = [Row((65, 66), (160, 320), (480, 320), (160, 640)), Row((67,), (-FARTHEST_END, 0), (0, 0), (0, 5))]
    turned, = Turn(PAGE, 90).labels([rows])
    assert turned[0] == ((65, 66), (HIGH - 320, 160), (HIGH - 320, 480), (HIGH - 640, 160))
    along, above = rows[0].matrix()[0], rows[0].matrix()[3]
    assert turned[0].matrix() == (0, along, -above, 0, HIGH - 320, 160)
    turned, = Turn(PAGE, 180).labels([rows])
    assert turned[1] == ((67,), (FARTHEST_END, HIGH), (WIDE, HIGH), (WIDE, HIGH - 5))


def after(turns, page, shapes):
    """The page and the shapes after several turns."""
    for degrees in turns:
        turn = Turn(page, degrees)
        page, shapes = turn.page, turn.shapes(shapes)
    return page, shapes


def test_turns_add_up():
    """So four quarters are none."""
    dice = random.Random(1)
    place = lambda: tuple(dice.randint(-5000, 20_000) for _ in range(2))
    window = lambda: dice.choice((WHOLE, NO_WINDOW, (5, 7, 5, 7), (160, 320, 8000, 9600)))
    shapes = [stroke(place(), place(), window(), pen) for pen in range(1, 9)]
    shapes += [Area(pen, (0, 0, 0), window(), tuple((place(), place()) for _ in range(5)), 0) for pen in range(1, 9)]
    for turns in itertools.product((0, *QUARTERS), repeat=3):
        assert after(turns, PAGE, shapes) == after([sum(turns) % 360], PAGE, shapes)
    assert after([90] * 4, PAGE, shapes) == (PAGE, shapes)


@pytest.mark.parametrize("degrees, place, beyond", [
    (90, (0, HIGH - FARTHEST_END), (0, -1)), (90, (FARTHEST_END, 0), None), (180, (WIDE - FARTHEST_END, 0), (-1, 0)),
    (180, (0, HIGH - FARTHEST_END), (0, -1)), (270, (WIDE - FARTHEST_END, 0), (-1, 0)), (270, (0, -FARTHEST_END), None),
])
def test_lines_that_are_too_far(degrees, place, beyond):
    """An end is where an end may be, or one grain beyond that, if that is possible; windows and widths do not matter."""
    turn = Turn(PAGE, degrees)
    hidden = stroke((0, 0), place, NO_WINDOW)
    assert max(map(abs, turn.shapes([hidden])[0].b)) == FARTHEST_END
    if beyond:
        x, y = (at + more for at, more in zip(place, beyond))
        for far in (hidden._replace(b=(x, y)), hidden._replace(a=(x, y)), Area(1, (0, 0, 0), WHOLE, (((0, 0), (x, y)),), 0)):
            with pytest.raises(TooFar, match=FAR):
                turn.shapes([hidden, far])


def turned_rows(rows, degrees):
    """The rows of a picture after it was turned counterclockwise."""
    for _ in range(degrees // 90):
        rows = [list(row) for row in zip(*rows)][::-1]
    return rows


def pixels_of(ppm):
    """The rows of a pixmap."""
    _, size, _, data = ppm.split(b"\n", 3)
    columns, rows = map(int, size.split())
    pixels = [data[at:at + 3] for at in range(0, 3 * columns * rows, 3)]
    return [pixels[at:at + columns] for at in range(0, columns * rows, columns)]


PLOT = (b"PW0.4;PU3,5;PD90,20,17,33;SP2;CI20;SP3;IW8,8,70,24;PU0,0;PD130,60;IW;SP4;FT;PU20,30;RA60,52;SP5;IW9,9,5,5;PU1,1;"
        b"RA99,50;IW;SP6;PU10,40;SI.05,.08;LBTurn\x03")


@pytest.mark.parametrize("degrees", QUARTERS)
@pytest.mark.parametrize("options", [
    {"profile": "full"}, {}, {"smooth": "3"}, {"profile": "full", "smooth": "2", "pens": "2-4"}, {"profile": "full", "from": "5"},
])
def test_pictures_of_whole_pixels(degrees, options):
    """If the sides of the page are whole numbers of pixels, its picture is turned as an array is."""
    page = {"width": "128", "height": "64", "dots": "127"}
    plain = answer("ppm", {**page, **options, "from": "0"}, PLOT)
    got = answer("ppm", {**page, **options, "rotate": str(degrees)}, PLOT)
    assert (got.status, got.error) == (0, "") and len(set(plain.output)) > 3
    wanted = turned_rows(pixels_of(plain.output), degrees)
    if "from" in options:
        assert got.output == b"".join(itertools.chain(*wanted[5:]))
    else:
        assert pixels_of(got.output) == wanted


def wrong_turns(seed):
    """The turns of a random plot whose pixels are not those of an array that is turned. Lines that lead far away are left out."""
    plot, page = base_case(seed).plot, Page(128, 64, 0, 0)
    try:
        shapes = draw(plot, page, 0 if seed % 2 else None).shapes
    except Refused:
        return
    is_near = lambda shape: all(max(map(abs, (*it.a, *it.b))) < FARTHEST_END // 2 for it in strokes_of(shape))
    shapes = [shape for shape in shapes if is_near(shape)]
    if sum(len(strokes_of(shape)) for shape in shapes) > MOST_LINES:
        return
    ink = lambda found: [[cell and (cell.pen, cell.colour) for cell in row] for row in found]
    rows = lambda shown, on: ink(row for _, row in raster.rows(shown, on, 127, range(256), 0))
    for degrees in QUARTERS:
        turn = Turn(page, degrees)
        if rows(turn.shapes(shapes), turn.page) != turned_rows(rows(shapes, page), degrees):
            yield f"seed {seed}, {degrees} degrees"


def test_random_pictures_of_whole_pixels():
    assert_nothing(wrong for seed in range(CASES) for wrong in wrong_turns(seed))


def columns_of(output):
    """The columns of the marks of each row."""
    found = {}
    for line in output.decode().splitlines():
        row, column, _, _ = line.split()
        found.setdefault(int(row), []).append(int(column))
    return found


@pytest.mark.parametrize("plot, options, columns", [
    # A line that is level stands after a quarter, on the other half of the page.
    (b"PU0,28;PD32,28;", {"rotate": "90"}, {row: [4] for row in range(3, 8)}),
    (b"PU0,28;PD32,28;", {"rotate": "180"}, {3: [3, 4, 5, 6, 7]}),
    (b"PU0,28;PD32,28;", {"rotate": "270"}, {row: [3] for row in range(5)}),
    (b"IW0,0,32,64;PU16,16;RA48,40;", {"rotate": "90", "profile": "full"}, {row: [2, 3, 4, 5, 6] for row in (4, 5, 6)}),
    (b"PU0,4;PD16,4;", {"rotate": "270", "width": "128"}, {row: [0] for row in (0, 1, 2)}),
])
def test_marks(plot, options, columns):
    assert columns_of(answer("marks", {**SMALL, **options}, plot).output) == columns


def test_grids():
    """The pixels are those of the page as it lies: the page is 8 pixels and a unit wide, and its left edge is above then."""
    options = {**SMALL, "width": "65"}
    assert columns_of(answer("marks", options, b"PW0;PU0,0;PD0,64;").output) == {row: [0] for row in range(8)}
    turned = answer("marks", {**options, "rotate": "270"}, b"PW0;PU0,0;PD0,64;").output
    assert columns_of(turned) == {0: list(range(8))}
    # After a quarter it is below; the lower edge of the page is a unit below that of the last row.
    assert columns_of(answer("marks", {**options, "rotate": "90"}, b"PW0;PU0,0;PD0,64;").output) == {7: list(range(8))}
    assert answer("pbm", {**options, "width": "70", "rotate": "90"}, b"").output == b"P4\n8 9\n" + bytes(9)


def test_documents():
    """A page as wide as it was high, with its lines, windows and texts."""
    options = {"width": "128", "height": "64", "rotate": "90", "profile": "full"}
    plot = b"IW0,0,64,64;PU0,28;PD64,28;IW;SI.1,.1;PU16,32;LBI\x03"
    lines = answer("svg", options, plot).output.decode().splitlines()
    assert lines[:2] == ["page 64 128", "pen 1 000000 width 224 in 0 0 1024 1024 from 576 0 to 576 1024"]
    assert lines[-1] == "label 'I' of lines 1 to 4"
    texts = [answer("pdf", {**options, "rotate": degrees}, plot).output.decode().splitlines()[-1] for degrees in ("0", "90")]
    level, upright = ([float(eval_part(part)) for part in text.split(" by ")[1].split()] for text in texts)
    assert upright == [0, level[0], -level[3], 0, 1024 - 512, 256] and level[4:] == [256, 512]


def eval_part(text):
    """A fraction as a number."""
    over, _, under = text.partition("/")
    return int(over) / int(under or 1)


def test_fitted_pages():
    """The page around the drawing is turned, and not the other way round."""
    options = {"fit": None, "margin": "0", "dots": "1016"}
    plot = b"PW0;PU100,200;PD300,264;"
    assert answer("pbm", options, plot).output.startswith(b"P4\n200 64\n")
    for degrees, size in (("90", b"64 200"), ("180", b"200 64"), ("270", b"64 200")):
        got = answer("ppm", {**options, "rotate": degrees}, plot)
        assert got.output.startswith(b"P6\n%s\n" % size)
        assert pixels_of(got.output) == turned_rows(pixels_of(answer("ppm", options, plot).output), int(degrees))


def test_sheets_apart():
    """All have the page of all, turned."""
    options = {**SMALL, "width": "128", "profile": "full", "sheet": "each", "output": "pictures", "rotate": "90"}
    got = answer("marks", options, b"PU4,28;PD;PG;SP2;PU12,28;PD;")
    assert got == (0, listed({"plot-1.marks": b"15 4 1 000000\n", "plot-2.marks": b"14 4 2 ff0000\n"}), "")


def test_reports():
    """They show the page and the boxes before the turn, and never refuse it."""
    plot = b"PU-65536,0;PD9,9;"
    for options in ({}, {"fit": None}, {"profile": "full", "page": "plot"}):
        plain = answer("report", options, plot)
        assert plain.status == 0
        assert all(answer("report", {**options, "rotate": degrees}, plot) == plain for degrees in ("0", "90", "180", "270"))


FULL = {"profile": "full"}


@pytest.mark.parametrize("options, plot, error", [
    ({**FULL, "rotate": "180"}, b"PU-8388607,0;PD;", FAR), ({**FULL, "rotate": "270"}, b"PU-8388607,0;PD;", FAR),
    ({**FULL, "rotate": "90"}, b"PU-8388607,0;PD;", None), ({**FULL, "rotate": "0"}, b"PU-8388607,0;PD;", None),
    (FULL, b"PU-8388607,0;PD;", None),
    # Only the selected pens and the sheet that is drawn count.
    ({**FULL, "rotate": "180", "pens": "2"}, b"PU-8388607,0;PD;", None),
    ({**FULL, "rotate": "180", "pens": "1"}, b"PU-8388607,0;PD;", FAR),
    ({**FULL, "rotate": "180", "sheet": "2"}, b"PU-8388607,0;PD;PG;PU0,0;PD;", None),
    ({**FULL, "rotate": "180", "sheet": "0"}, b"PU-8388607,0;PD;PG;PU0,0;PD;", FAR),
    ({**FULL, "rotate": "180", "sheet": "each", "output": "pictures"}, b"PU0,0;PD;PG;PU-8388607,0;PD;", FAR),
    # The refusal of the plot comes first, that of the first row later.
    ({**FULL, "rotate": "180"}, b"PU-8388607,0;PD-8388607.9,0;", messages.text("off-range", 13)),
    ({**FULL, "rotate": "180", "from": "99"}, b"PU-8388607,0;PD;", FAR),
    ({**FULL, "rotate": "90", "from": "99"}, b"", messages.text("first-row")),
])
def test_refusals(options, plot, error):
    got = answer("marks", {**SMALL, **options}, plot)
    assert got.error == ("" if error is None else f"plotraster: {error}\n")
    assert got.status == (0 if error is None else 1 if "off range" in error else 2)


@pytest.mark.parametrize("options, name", [
    ({"rotate": "45"}, "rotation"), ({"rotate": ""}, "rotation"), ({"rotate": "090"}, "rotation"), ({"rotate": "-90"}, "rotation"),
    ({"rotate": "1", "margin": "1"}, "margin-without-fit"), ({"rotate": "1", "profile": "x"}, "profile"),
    ({"rotate": "1", "dots": "99"}, "rotation"), ({"rotate": "90", "dots": "99"}, "resolution"),
])
def test_mistakes(options, name):
    assert answer("pcl", options, b"") == (2, b"", f"plotraster: {messages.text(name)}\n")


@pytest.mark.parametrize("case_of", KINDS, ids=[case_of.__name__ for case_of in KINDS])
def test_random_cases(case_of):
    """About a quarter of each kind is turned, by each quarter, and of those in the profile full some are too far away, but for
    those with few selected pens."""
    cases = [case_of(seed) for seed in range(CASES)]
    turned = [case for case in cases if "rotate" in case.options]
    assert 0.15 * CASES < len(turned) < 0.35 * CASES
    rotations = [case.options["rotate"] for case in turned]
    assert min(rotations.count(str(degrees)) for degrees in QUARTERS) > CASES / 40
    profiles = {case.options.get("profile", "full" if case.form == "draw" else "core") for case in turned}
    assert "full" in profiles and (case_of is random_apart_case or "core" in profiles)
    more = itertools.chain(turned, (case_of(seed) for seed in range(CASES, 10 * CASES)))
    are_full = (case for case in more if case.options.get("profile", "full" if case.form == "draw" else "core") == "full")
    assert case_of is random_pens_case or any(answer(*case).error.endswith(f"{FAR}\n") for case in are_full)
