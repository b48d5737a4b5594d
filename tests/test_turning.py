"""What `--rotate` does: pictures of whole pixels are turned as arrays are, lines and windows of documents by their places, and all
else stays as it is without it."""

import io
import os

import pytest
from PIL import Image

from document_runs import SMALL, drawn
from reference import messages
from reference.command_line import PICTURES, VECTORS
from reference.dxf import GRAIN, Drawn
from reference.dxf_groups import read_dxf
from reference.pdf import read_pdf
from reference.svg import read_svg
from reference.vectors import Line
from shared import EXAMPLES, read_bitmap, read_bytes, run, write

SECONDS = 60
QUARTERS = {90: Image.Transpose.ROTATE_90, 180: Image.Transpose.ROTATE_180, 270: Image.Transpose.ROTATE_270}
# Where a place of a page lies after the turn, by the sides of the page.
PLACES = {
    90: lambda width, height, x, y: (height - y, x), 180: lambda width, height, x, y: (width - x, height - y),
    270: lambda width, height, x, y: (y, width - x),
}
# A pixel is 8 units, and the page of 4,000 by 3,000 units has 500 by 375 pixels.
WHOLE = [*SMALL, "--dots=127"]
FULL = ["--profile=full", "--sheet=1"]
NAMES = ("figures", "windows", "districts", "lettering", "hatching")
EDGE = b"PU-8388607,0;PD;"
TOO_FAR = messages.refused("too-far-to-turn")


def example(name):
    return read_bytes(os.path.join(EXAMPLES, f"{name}.plt"))


def picture_of(data):
    """A PNG, a pixmap or a bitmap in colours."""
    return Image.open(io.BytesIO(data)).convert("RGB")


def ends_of(program, words, plot=b"", **how):
    done = run(program, words, SECONDS, **(how if "cwd" in how else {"input": plot}))
    assert done.stdout == b"", words
    return done.returncode, done.stderr


@pytest.mark.parametrize("name", NAMES)
@pytest.mark.parametrize("words", [
    ["ppm"], ["ppm", *FULL], ["ppm", "--smooth=3"], ["png", *FULL, "--smooth=2"], ["png", *FULL], ["pbm", *FULL, "--pens=1-2"],
    ["pbm", "--band=1"], ["draw", "--quiet"], ["draw", "--form=pbm", "--profile=core", "--quiet"],
], ids=" ".join)
def test_pictures_of_whole_pixels(program, name, words):
    plot = example(name)
    plain = picture_of(drawn(program, [*words, *WHOLE], plot))
    for degrees, transposed in QUARTERS.items():
        got = picture_of(drawn(program, [*words, *WHOLE, f"--rotate={degrees}"], plot))
        assert got.tobytes() == plain.transpose(transposed).tobytes() and sorted(got.size) == [375, 500], degrees
    assert drawn(program, [*words, *WHOLE, "--rotate=0"], plot) == drawn(program, [*words, *WHOLE], plot)


def test_marks(program):
    """Each pixel keeps its pen and its colour."""
    plot = example("figures")
    marks = lambda *words: {line.rsplit(" ", 2)[0]: line.split()[2:] for line in
                            drawn(program, ["marks", *FULL, *WHOLE, *words], plot).decode().splitlines()}
    plain = marks()
    assert len(plain) > 1000
    places = {90: lambda row, column: (499 - column, row), 180: lambda row, column: (374 - row, 499 - column),
              270: lambda row, column: (column, 374 - row)}
    for degrees, place in places.items():
        turned = {"{} {}".format(*place(*map(int, at.split()))): ink for at, ink in plain.items()}
        assert marks(f"--rotate={degrees}") == turned


def test_rows_from(program):
    """They are rows of the page as it lies: 500 after a quarter."""
    plot, words = example("figures"), ["pbm", *WHOLE, "--rotate=90"]
    whole = drawn(program, words, plot)
    assert whole.startswith(b"P4\n375 500\n")
    for row in (1, 376, 499, 500):
        # A row has 47 bytes.
        assert drawn(program, [*words, f"--from={row}"], plot) == whole[len(whole) - 47 * (500 - row):]
    assert ends_of(program, [*words, "--from=501"], plot) == messages.refused("first-row")
    assert ends_of(program, ["pbm", *WHOLE, "--rotate=180", "--from=376"], plot) == messages.refused("first-row")


def turned_place(document, degrees, place):
    return PLACES[degrees](16 * document.width, 16 * document.height, *place)


def turned_shape(document, degrees, shape):
    """A line or an area of a document, turned."""
    place = lambda at: turned_place(document, degrees, at)
    window = None
    if shape.window:
        x, y = zip(place(shape.window[:2]), place(shape.window[2:]))
        window = min(x), min(y), max(x), max(y)
    if isinstance(shape, Line):
        return shape._replace(a=place(shape.a), b=place(shape.b), window=window)
    return shape._replace(edges=tuple((place(a), place(b)) for a, b in shape.edges), window=window)


@pytest.mark.parametrize("name", NAMES)
@pytest.mark.parametrize("command, reader", [("svg", read_svg), ("pdf", lambda data: read_pdf(data).document)], ids=["svg", "pdf"])
def test_documents(program, name, command, reader):
    """All lines, areas and windows in their order, and the texts where they belong."""
    plot, words = example(name), [command, *SMALL, "--profile=full", "--sheet=0"]
    plain = reader(drawn(program, words, plot))
    assert sum(map(len, plain.sheets)) > 10
    for degrees in QUARTERS:
        got = reader(drawn(program, [*words, f"--rotate={degrees}"], plot))
        assert (got.width, got.height) == ((4000, 3000) if degrees == 180 else (3000, 4000))
        assert got.sheets == [[turned_shape(plain, degrees, shape) for shape in sheet] for sheet in plain.sheets]
        assert list(map(got.texts, range(1, 3))) == list(map(plain.texts, range(1, 3)))
        if command == "pdf":
            starts = [turned_place(plain, degrees, label.matrix[4:]) for label in plain.labels]
            assert [label.matrix[4:] for label in got.labels] == starts


@pytest.mark.parametrize("name", NAMES)
def test_dxf(program, name):
    """All lines and areas in their order, and the texts by where they start; a cut end is rounded after the turn."""
    plot, words = example(name), ["dxf", *SMALL, "--profile=full", "--sheet=0"]
    plain = read_dxf(drawn(program, words, plot))
    sides = [16 * GRAIN * side for side in plain[:2]]
    for degrees in QUARTERS:
        got = read_dxf(drawn(program, [*words, f"--rotate={degrees}"], plot))
        assert got[:2] == (plain[:2] if degrees == 180 else plain[1::-1]) and got.layers == plain.layers
        assert [it[:4] if isinstance(it, Drawn) else it.text for it in got.entities] == [
            it[:4] if isinstance(it, Drawn) else it.text for it in plain.entities]
        for it, other in zip(got.entities, plain.entities):
            places, others = (each.places if isinstance(each, Drawn) else [each.start] for each in (it, other))
            assert len(places) == len(others)
            far = [abs(n - m) for at, to in zip(places, others) for n, m in zip(at, PLACES[degrees](*sides, *to))]
            assert max(far) <= 1
            turn = 0 if isinstance(it, Drawn) else (it.rotation - other.rotation - 10_000 * degrees) % 3_600_000
            assert min(turn, 3_600_000 - turn) <= 4


@pytest.mark.parametrize("words", [["--fit"], ["--fit", "--margin=3", "--left=700"], ["--fit", "--profile=full", "--sheet=1"]])
def test_fitted_pages(program, words):
    """The page around the drawing is turned; a pixel is a unit."""
    plot = b"SP1;PU1000,2000;PD1400,2100;SP3;CI30;SP2;PU1000,1990;PD;"
    words = ["ppm", "--dots=1016", *words]
    plain = picture_of(drawn(program, words, plot))
    assert plain.size[0] > plain.size[1] + 100
    for degrees, transposed in QUARTERS.items():
        got = picture_of(drawn(program, [*words, f"--rotate={degrees}"], plot))
        assert got.tobytes() == plain.transpose(transposed).tobytes()


def test_draw(program):
    """It turns what it would draw; a size is that of the longer side, wherever it is."""
    plot = b"PS4000,3000;SP1;PU1000,2000;PD3000,2100;SP3;CI300;LBpump\x03"
    plain = picture_of(drawn(program, ["draw", "--dots=1016", "--smooth=1"], plot))
    got = picture_of(drawn(program, ["draw", "--dots=1016", "--smooth=1", "--rotate=270"], plot))
    assert got.tobytes() == plain.transpose(QUARTERS[270]).tobytes()
    for degrees in (0, 90, 180, 270):
        size = picture_of(drawn(program, ["draw", "--size=100", f"--rotate={degrees}"], plot)).size
        assert max(size) == size[degrees % 180 // 90] > 90


def test_papers(program):
    """A name of a paper is that of the page before: a4 becomes as large as a4-portrait, and the other way round."""
    for paper, other in (("a4", "a4-portrait"), ("a5-portrait", "a5")):
        bitmaps = [read_bitmap(drawn(program, ["pbm", *words], b"")) for words in (
            [f"--page={paper}", "--rotate=90"], [f"--page={other}"], [f"--page={paper}", "--rotate=180"])]
        assert bitmaps[0] == bitmaps[1] != bitmaps[2]


def test_asked_page(program):
    """So is the page that the plot asks for."""
    plot = b"PS4064,2032;PU0,0;PD4064,0;"
    got = read_bitmap(drawn(program, ["pbm", "--page=plot", "--rotate=90"], plot))
    assert (got.columns, got.rows) == (200, 400) and all(line & 1 for line in got.lines)


@pytest.mark.parametrize("words", [[], ["--profile=full"], ["--fit"], ["--page=a5-portrait", "--left=10", "--verbose"]])
def test_reports(program, words):
    """They show the page, and what lies on it, before it is turned."""
    for plot in (example("figures"), example("districts"), EDGE, b""):
        plain = run(program, ["report", *words], SECONDS, input=plot)
        for degrees in (0, 90, 180, 270):
            got = run(program, ["report", *words, f"--rotate={degrees}"], SECONDS, input=plot)
            assert (got.returncode, got.stdout, got.stderr) == (plain.returncode, plain.stdout, plain.stderr)


@pytest.mark.parametrize("plot", [
    b"PU-50,-50;PD-20,-20;PU900,900;PD9000,900;SP3;PU0,0;PD10,10;ZZ;", b"PU900,900;PD900,9000;PU4100,10;PD4200,10;", b"", b"ZZ;",
    b"IW10,10,90,90;PU4500,0;PD;PU0,3500;PD;PU20,20;RA9000,50;",
])
def test_what_is_said(program, plot):
    """Lines off the page, and cut at its edge, are counted as without the turn; so is a page on which nothing is drawn."""
    for words in (["pbm", "--verbose", *WHOLE, *FULL], ["svg", "--verbose", *SMALL, *FULL], ["draw", "--form=pbm", *WHOLE],
                  ["png", "--verbose", "--fit", "--dots=20"], ["draw", "--form=svg", "--pens=7", "--page=plot"]):
        plain = run(program, words, SECONDS, input=plot)
        assert plain.returncode == 0
        for degrees in (90, 180, 270):
            got = run(program, [*words, f"--rotate={degrees}"], SECONDS, input=plot)
            assert (got.returncode, got.stderr) == (0, plain.stderr), (words, degrees)


@pytest.mark.parametrize("command", ["draw", *PICTURES])
def test_lines_that_are_too_far(program, command):
    """Which of them a turn cannot take; what is not selected does not count."""
    quiet = ["--quiet"] if command == "draw" else []
    words = [command, "--page=a4", "--profile=full", *quiet]
    for degrees in (180, 270):
        assert ends_of(program, [*words, f"--rotate={degrees}"], EDGE) == TOO_FAR
        done = run(program, [*words, f"--rotate={degrees}", "--pens=2"], SECONDS, input=EDGE)
        assert (done.returncode, done.stderr) == (0, b"")
        done = run(program, [*words, f"--rotate={degrees}"], SECONDS, input=EDGE.replace(b"PU", b"SP;PU"))
        assert (done.returncode, done.stderr) == (0, b"")
    for degrees in (0, 90):
        assert run(program, [*words, f"--rotate={degrees}"], SECONDS, input=EDGE).returncode == 0
    # On a page of 64 units the last place that can be turned is 64 units farther on the other side.
    page = [command, "--width=64", "--height=64", "--profile=full", *quiet]
    for far, ends in ((-8388543, 0), (-8388543.0625, 2)):
        for degrees, place in ((90, b"0,%a"), (180, b"%a,0"), (180, b"0,%a"), (270, b"%a,0")):
            done = run(program, [*page, f"--rotate={degrees}"], SECONDS, input=b"PU" + place % far + b";PD;")
            assert (done.returncode, done.stderr) == ((0, b"") if ends == 0 else TOO_FAR), (far, degrees)


@pytest.mark.parametrize("where", [b"PD-8388607,0,0,0;", b"PU9,9;RA-8388607,20;", b"IW0,0,9,9;PU0,0;PD-8388607,0;IW;",
                                   b"PU-8380000,0;SI1,1;LBI\x03"])
def test_what_is_too_far(program, where):
    """An end of a line, of an edge of an area, or of a line that a window hides."""
    assert ends_of(program, ["pbm", *FULL, "--rotate=180"], where) == TOO_FAR
    assert run(program, ["pbm", *FULL], SECONDS, input=where).returncode == 0


def test_order_of_refusals(program):
    words = ["pbm", "--width=64", "--height=64", "--profile=full", "--rotate=180"]
    assert ends_of(program, words, EDGE + b"PU0,0;PD8388607.9,0;") == messages.refused("off-range", 22)
    assert ends_of(program, [*words, "--from=99999"], EDGE) == TOO_FAR
    assert ends_of(program, [*words, "--from=99999"], b"") == messages.refused("first-row")
    assert ends_of(program, ["pcl", "--dots=127", "--profile=full", "--rotate=180"], EDGE) == messages.refused("resolution")


@pytest.fixture
def folder(tmp_path):
    """Plots of two sheets and of one, one whose second sheet leads too far for half a turn, and an empty folder `out`."""
    for name, plot in (("two", b"PU5,5;PD500,900;PG;SP2;PU40,20;PD900,20;"), ("one", b"PU5,5;PD500,900;"),
                       ("far", b"PU5,5;PD500,900;PG;" + EDGE)):
        write(str(tmp_path / f"{name}.plt"), plot)
    os.mkdir(tmp_path / "out")
    return tmp_path


def files_in(folder):
    return {name: read_bytes(folder / "out" / name) for name in os.listdir(folder / "out")}


@pytest.mark.parametrize("command", ["png", "svg", "dxf", "pbm", "marks", "pcl"])
def test_sheets_apart(program, folder, command):
    """Each file is the turned picture of its sheet, on the page of all."""
    page = ["--width=1500", "--height=1000", "--profile=full", "--rotate=90", *([] if command in VECTORS else ["--dots=100"])]
    assert ends_of(program, [command, *page, "--sheet=each", "-o", "out", "two.plt", "one.plt"], cwd=folder) == (0, b"")
    alone = lambda name, sheet: drawn(program, [command, *page, f"--sheet={sheet}"], read_bytes(folder / f"{name}.plt"))
    wanted = {f"two-{sheet}.{command}": alone("two", sheet) for sheet in (1, 2)}
    assert files_in(folder) == {**wanted, f"one.{command}": alone("one", 1)}


def test_drawn_sheets(program, folder):
    """`draw` into a folder and into a PDF turns all of them, on the page around all."""
    assert ends_of(program, ["draw", "--rotate=90", "-o", "out", "two.plt"], cwd=folder) == (0, b"")
    pictures = [picture_of(data) for _, data in sorted(files_in(folder).items())]
    plot = read_bytes(folder / "two.plt")
    upright = picture_of(drawn(program, ["draw", "--sheet=0"], plot))
    assert [it.size for it in pictures] == 2 * [upright.size[::-1]]
    plain, turned = (read_pdf(drawn(program, ["draw", "--form=pdf", *words], plot)).document for words in ([], ["--rotate=90"]))
    assert turned.sheets == [[turned_shape(plain, 90, shape) for shape in sheet] for sheet in plain.sheets]
    assert len(turned.sheets) == 2


def test_sheets_that_are_too_far(program, folder):
    """The plot is refused whole, if that sheet is drawn; the others of the run are drawn."""
    words = ["png", "--profile=full", "--rotate=180", "-o", "out"]
    status, said = TOO_FAR
    assert ends_of(program, [*words, "--sheet=each", "far.plt"], cwd=folder) == TOO_FAR
    assert ends_of(program, [*words, "--sheet=2", "far.plt"], cwd=folder) == TOO_FAR
    assert files_in(folder) == {}
    named = said.replace(b"plotraster: ", b"plotraster: far.plt: ")
    assert ends_of(program, [*words, "--sheet=each", "far.plt", "two.plt"], cwd=folder) == (status, named)
    assert sorted(files_in(folder)) == ["two-1.png", "two-2.png"]
    assert ends_of(program, [*words, "--sheet=1", "far.plt"], cwd=folder) == (0, b"")
    assert "far.png" in files_in(folder)


def test_old_file_stays(program, folder):
    """If the plot is refused, its older picture is not touched, and no part of a new one is left."""
    write(str(folder / "far.png"), b"an older picture\n")
    words = ["png", "--profile=full", "--sheet=0", "--rotate=270", "far.plt", "-o", "far.png"]
    assert ends_of(program, words, cwd=folder) == TOO_FAR
    assert read_bytes(folder / "far.png") == b"an older picture\n" and not os.path.exists(folder / "far.png.part")
