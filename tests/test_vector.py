"""PDF, SVG and DXF: other programs read them without a warning, and what they draw of them is, as near as they paint lines, what
`ppm` has; of a DXF they find the same lines, areas and texts."""

import glob
import os

import pytest

from cad_readers import said_of_dxf
from document_runs import SMALL, colours, drawn
from reference.dxf import entities_of, layers_of
from reference.dxf_groups import characters_of, read_dxf
from reference.geometry import Page
from reference.labels import lines_of_texts
from reference.pdf import read_pdf
from reference.svg import read_svg
from shared import EXAMPLES, assert_nothing, need, read_bytes, with_sheet
from test_full_reference import options_of, plot_of, rows
from test_pictures import cases, words_of
from vector_pictures import DOTS, LEAST_INK, MUCH_INK, READERS_OF_PDF, READERS_OF_SVG, box_of_pdf, colours_of
from vector_pictures import far_from_edges, lost_ink, new_ink, painted_pdf, painted_svg, picture_of, pictures, said_of_pdf
from vector_pictures import said_of_svg

NAMES = [os.path.basename(path)[:-4] for path in sorted(glob.glob(os.path.join(EXAMPLES, "*.plt")))]
# The plots without images, which PDF and DXF do not have.
DRAWN_ALIKE = [name for name in NAMES if name != "relief"]
READ = ["--profile=full", "--sheet=1"]
# The least width of a line in a PDF and in an SVG, in ten-millionths of a millimetre.
LEAST = 375_000
# Where parts of a pixel make a difference, it is so many pixels from an edge: gaps between lines, and windows.
DISTANCES = {"calibration": 2, "figures": 3, "tide": 2}
# Of a line beside a window, or of one that a white line covers, there may be nothing in one of the pictures.
WINDOWED, WHITENED = ("figures", "windows"), ("ribbon",)
# Plots with lines, labels, fills and dashes that are also drawn on a page that is turned.
TURNED = ("flange", "districts", "lettering")
# A pixel at 254 dots per inch is 4 units: the page, a window in it, one in that and beyond, and one of a pixel.
WINDOWS = [(0, 0, 2032, 1016), (400, 200, 1600, 800), (800, 0, 1200, 1016), (804, 4, 808, 8)]
OF_PIXELS = {"--dots", "--smooth", "--size", "--band", "--from", "--rows"}


@pytest.fixture(autouse=True)
def readers(pytestconfig):
    need(pytestconfig, *READERS_OF_PDF, *READERS_OF_SVG, "ezdxf")


def checked(program, words, plot, folder):
    """The PDF and the SVG of a plot, in which nobody finds anything wrong, and neither in the DXF of it."""
    found = [drawn(program, [command, *words], plot) for command in ("pdf", "svg")]
    assert_nothing([*said_of_pdf(found[0], folder / "plan.pdf"), *said_of_svg(found[1])])
    pdf, svg = read_pdf(found[0]).document, read_svg(found[1])
    assert pdf.without_labels()._replace(are_numbered=svg.are_numbered) == svg.without_labels()
    for sheet in range(1, len(svg.sheets) + 1):
        assert lines_of_texts(pdf.texts(sheet)) == lines_of_texts(svg.texts(sheet))
    check_dxf(drawn(program, ["dxf", *words], plot), svg)
    return found


def check_dxf(data, svg):
    """Nobody finds anything wrong in a DXF, and it has what the SVG of the same plot has; its lines may be less wide."""
    assert_nothing(said_of_dxf(data))
    found, page = read_dxf(data), Page(svg.width, svg.height, 0, 0)
    assert found[:2] == (svg.width, svg.height)
    for number, shapes in enumerate(svg.sheets, 1):
        sheet = number if svg.are_numbered else None
        layers = layers_of(sheet, shapes)
        assert [layer for layer in found.layers if layer.sheet == sheet] == list(layers.values())
        at, parts = 0, []
        for label in (it for it in svg.labels if it.sheet == number):
            parts.append(shapes[at:label.first])
            at = label.after
        own = [it for part in (*parts, shapes[at:]) if part for it in entities_of([(part, [])], page, layers)]
        assert [widened(it) for it in found.without_texts().of_sheet(sheet)] == [widened(it) for it in own]
        assert list(map(characters_of, found.texts(sheet))) == lines_of_texts(svg.texts(number))


def widened(drawn):
    return drawn._replace(width=max(LEAST, drawn.width))


@pytest.mark.parametrize("name", DRAWN_ALIKE)
def test_examples(program, tmp_path, name):
    """In both profiles; and on the page around the drawing."""
    plot = read_bytes(os.path.join(EXAMPLES, f"{name}.plt"))
    for words in ([], READ, [*SMALL, *READ], [*SMALL, *READ, "--fit"]):
        checked(program, words, plot, tmp_path)


@pytest.mark.parametrize("name", DRAWN_ALIKE)
def test_pixels_of_pdf(program, name):
    """A pixel differs at most beside an edge, and no line is lost or new."""
    plot, words = read_bytes(os.path.join(EXAMPLES, f"{name}.plt")), [*SMALL, *READ]
    ours = picture_of(drawn(program, ["ppm", f"--dots={DOTS}", *words], plot))
    pair = pictures(ours, painted_pdf(drawn(program, ["pdf", *words], plot)))
    if name != "windows":
        assert far_from_edges(pair, DISTANCES.get(name, 1)) == 0
    assert name in WHITENED or lost_ink(pair) == 0
    assert name in WINDOWED or new_ink(pair) == 0
    assert colours_of(pair.ours) == colours_of(pair.other)


@pytest.mark.parametrize("name", NAMES)
def test_pixels_of_svg(program, name):
    """No line is lost or new; within wide lines all colours are the same."""
    plot, words = read_bytes(os.path.join(EXAMPLES, f"{name}.plt")), [*SMALL, *READ]
    ours = picture_of(drawn(program, ["ppm", f"--dots={DOTS}", *words], plot))
    pair = pictures(ours, painted_svg(drawn(program, ["svg", *words], plot)))
    assert name in WHITENED or lost_ink(pair, LEAST_INK) == 0
    assert new_ink(pair, MUCH_INK) == 0


@pytest.mark.parametrize("degrees", [90, 180, 270])
@pytest.mark.parametrize("name", TURNED)
def test_turned_pages(program, tmp_path, name, degrees):
    """No pixel differs but beside an edge, and no line is lost or new."""
    plot, words = read_bytes(os.path.join(EXAMPLES, f"{name}.plt")), [*SMALL, *READ, f"--rotate={degrees}"]
    pdf, svg = checked(program, words, plot, tmp_path)
    ours = picture_of(drawn(program, ["ppm", f"--dots={DOTS}", *words], plot))
    painted, shaded = pictures(ours, painted_pdf(pdf)), pictures(ours, painted_svg(svg))
    assert (far_from_edges(painted), lost_ink(painted), new_ink(painted)) == (0, 0, 0)
    assert (lost_ink(shaded, LEAST_INK), new_ink(shaded, MUCH_INK)) == (0, 0)


def test_windows(program):
    """Windows of whole pixels."""
    plot = b"".join(b"SP%d;IW%d,%d,%d,%d;PW2;PU0,0;PD2032,1016;PU0,1016;PD2032,0;PW20;PU1016,508;PD;" % (pen, *window)
                    for pen, window in enumerate(WINDOWS, 1))
    words = ["--width=2032", "--height=1016"]
    ours = picture_of(drawn(program, ["ppm", "--dots=254", *words], plot))
    for painted, command, least in ((painted_pdf, "pdf", 1), (painted_svg, "svg", MUCH_INK)):
        pair = pictures(ours, painted(drawn(program, [command, *words], plot), 254))
        assert (lost_ink(pair, min(least, LEAST_INK)), new_ink(pair, least)) == (0, 0)
        assert far_from_edges(pair) == 0 or command == "svg"
        assert colours_of(pair.other) >= colours_of(pair.ours)


def test_colours(program):
    """Wide lines in 256 colours: each is there, exactly."""
    wanted = colours(257)[1:]
    lines = ["PC1,%d,%d,%d;PU%d,%d;PD%d,%d;" % (*colour, 40, 40 * at + 20, 460, 40 * at + 20) for at, colour in enumerate(wanted)]
    plot, words = "".join(["SP1;PW1;", *lines]).encode(), ["--width=500", "--height=10240"]
    ours = picture_of(drawn(program, ["ppm", "--dots=127", *words], plot))
    assert len(colours_of(ours)) == 257
    for painted, command in ((painted_pdf, "pdf"), (painted_svg, "svg")):
        assert colours_of(painted(drawn(program, [command, *words], plot), 127)) >= colours_of(ours)


def test_small_plots(program, tmp_path):
    """The plots of pictures.txt, without the options of pixels."""
    for words, plot, _ in cases():
        words = words_of(words)[1:]
        pairs = zip(words[::2], words[1::2])
        checked(program, [f"{name}={value}" for name, value in pairs if name not in OF_PIXELS], plot, tmp_path)


@pytest.mark.parametrize("part", range(4))
def test_full_examples(program, tmp_path, part):
    """No pixel differs but beside an edge, and no line is lost or new. Of all sheets, for which a PDF has a page each, the first
    one is looked at."""
    for name, keys in rows()[part::4]:
        if "refused" in keys:
            continue
        options = with_sheet(options_of(keys))
        if options.get("sheet") == "0":
            options["sheet"] = 1
        words, plot = [f"--{name}={value}" for name, value in options.items()], plot_of(keys["plot"][0])
        pdf, svg = checked(program, words, plot, tmp_path)
        ours = picture_of(drawn(program, ["ppm", f"--dots={DOTS}", *words], plot))
        painted, shaded = pictures(ours, painted_pdf(pdf)), pictures(ours, painted_svg(svg))
        assert (far_from_edges(painted), lost_ink(painted), new_ink(painted)) == (0, 0, 0), name
        assert (lost_ink(shaded, LEAST_INK), new_ink(shaded, MUCH_INK)) == (0, 0), name


@pytest.mark.parametrize("width, unit", [(203_200, 1), (203_201, 2), (406_400, 2), (406_401, 3), (524_288, 3)])
def test_long_pages(width, unit, program, tmp_path):
    """The documents of a page of 14,400 points and of longer ones say the same. Ghostscript, which knows the unit of a page, finds
    a line from its lower left corner to its right side as long as the page, but for 0.01 points."""
    words = ["--profile=full", f"--width={width}", "--height=64"]
    pdf, _ = checked(program, words, f"PU0,0;PD{width},0;".encode(), tmp_path)
    assert pdf.count(b"/UserUnit") == (unit > 1) and (unit == 1 or b"/UserUnit %d" % unit in pdf)
    assert pdf.startswith(b"%PDF-1.5\n" if unit == 1 else b"%PDF-1.6\n")
    left, _, right, _ = box_of_pdf(tmp_path / "plan.pdf")
    assert left == 0 and abs(right - width * 72 / 1016) < 0.01
