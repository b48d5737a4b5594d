"""PNG: Netpbm, PIL, pngcheck and the reader of tests/reference find in it the pixels that `ppm` has."""

import glob
import io
import os
import struct

import pytest
from PIL import Image

from document_runs import SMALL, WHITE, colours, drawn, filtered, plot_in
from reference.png import PALETTE, TRUECOLOUR, chunks, read_png
from shared import EXAMPLES, need, pixels, read_bytes, with_sheet
from test_full_reference import options_of, plot_of, rows
from test_pictures import cases, words_of

NAMES = [os.path.basename(path)[:-4] for path in sorted(glob.glob(os.path.join(EXAMPLES, "*.plt")))]
# A pixel of 10 dots per inch has 102 units or so: up to 126 pixels there are as many as here.
UNITS_AT_10_DOTS = 102


def has_same_pixels(data, pixmap):
    """Whether all readers find the pixels of a pixmap in a PNG. Netpbm gives one without colours as a graymap."""
    picture = read_png(data)
    shown = Image.open(io.BytesIO(data))
    shown.load()
    filtered(["pngcheck", "-q"], data)
    assert picture.ppm() == pixmap
    assert filtered(["ppmtoppm"], filtered(["pngtopnm"], data)) == pixmap
    assert (*shown.size, shown.convert("RGB").tobytes()) == (picture.columns, picture.rows, picture.pixels)
    return picture


def same_as_ppm(program, words, plot):
    """The PNG of these words, which has the pixels that PPM has."""
    return has_same_pixels(drawn(program, ["png", *words], plot), drawn(program, ["ppm", *words], plot))


@pytest.fixture(autouse=True)
def readers(pytestconfig):
    need(pytestconfig, "pngtopnm", "ppmtoppm", "pngcheck")


@pytest.mark.parametrize("name", NAMES)
def test_examples(program, name):
    plot = read_bytes(os.path.join(EXAMPLES, f"{name}.plt"))
    for words in (["--dots=30"], ["--dots=100", "--profile=full", *SMALL], ["--dots=25", "--profile=full"]):
        dots = int(words[0].removeprefix("--dots="))
        picture = same_as_ppm(program, words, plot)
        assert picture.per_metre == (20000 * dots + 254) // 508


def test_small_plots(program):
    """The plots of pictures.txt, whose options of rows a PNG has not."""
    for words, plot, _ in cases():
        if words[0] != "report" and not {"--from", "--band"} & set(words):
            same_as_ppm(program, words_of(words)[1:], plot)


def test_full_examples(program):
    for _, keys in rows():
        options = options_of(keys)
        if "refused" not in keys and int(options["width"]) * int(options["height"]) <= 2000 * 2000:
            words = [f"--{name}={value}" for name, value in with_sheet(options).items()]
            same_as_ppm(program, [*words, "--dots=60"], plot_of(keys["plot"][0]))


def page_of(columns, count):
    return [f"--width={max(64, UNITS_AT_10_DOTS * columns)}", f"--height={max(64, UNITS_AT_10_DOTS * count)}", "--dots=10"]


def test_odd_widths(program):
    """Pages of 1 to 70 columns, in black and white, in colours, and blank."""
    for columns in range(1, 71):
        for plot in (b"SP1;PU0,0;PD9000,500;PU9000,0;PD0,700;", b"SP2;PU0,0;PD7000,300;SP3;PU0,600;PD7000,20;", b""):
            picture = same_as_ppm(program, page_of(columns, 5), plot)
            assert (picture.columns, picture.rows) == (columns, 5)


# Columns and colours: rows of about 8,192 bytes, and of about 32,768, as a deflate window has.
LONG = [(columns, 2) for columns in (65535, 65536)] + [(columns, 17) for columns in (32767, 32768, 32769)]
LONG += [(columns, 257) for columns in (10922, 10923)]


@pytest.mark.parametrize("columns, count", LONG)
def test_long_rows(program, columns, count):
    """A pixel is a plotter unit."""
    plot = plot_in(colours(count)) + b"PU0,60;PD65536,64;"
    picture = same_as_ppm(program, [f"--width={columns}", "--height=64", "--dots=1016"], plot)
    assert (picture.columns, picture.rows) == (columns, 64)


def depth_of(count):
    """The depth that a palette of so many colours has."""
    return next(depth for depth in (1, 2, 4, 8) if count <= 2**depth)


@pytest.mark.parametrize("count", [1, 2, 3, 4, 5, 16, 17, 255, 256, 257, 4000])
def test_numbers_of_colours(program, count):
    """White comes first in the palette, and then each colour as it first comes."""
    wanted = colours(count)
    picture = same_as_ppm(program, ["--width=1600", "--height=700", "--dots=127"], plot_in(wanted))
    if count > 256:
        assert (picture.type, picture.depth) == (TRUECOLOUR, 8)
    else:
        assert (picture.type, picture.depth, picture.palette) == (PALETTE, depth_of(count), wanted)
    assert len({picture.pixels[at:at + 3] for at in range(0, len(picture.pixels), 3)}) == count


def test_colours_of_the_palette(program):
    """Those of the selected pens, each once, white not again, whether a pixel shows them or not."""
    plot = b"SP2;PD100,100;SP3;PD200,100;SP2;PC2,255,255,255;PD300,100;PC2,1,2,3;PU0,0;PD50000,0;SP5;PD1,1;"
    palette = [WHITE, b"\xff\0\0", b"\0\xff\0", b"\1\2\3", b"\0\0\xff"]
    assert same_as_ppm(program, SMALL, plot).palette == palette
    assert same_as_ppm(program, [*SMALL, "--pens=2"], plot).palette == [WHITE, palette[1], palette[3]]
    hidden = b"SP2;PU100,100;PD200,100;SP1;PW2;PU100,100;PD200,100;"
    assert same_as_ppm(program, SMALL, hidden).palette == [WHITE, b"\xff\0\0", b"\0\0\0"]


@pytest.mark.parametrize("plot, words, palette", [
    (b"SP1;PU0,0;PD4000,3000;SP2;PC2,255,255,255;PU0,3000;PD4000,0;", [], [WHITE, b"\0\0\0"]),
    (b"SP2;PC2,255,255,255;PU0,0;PD4000,3000;SP1;PU0,3000;PD4000,0;", [], [WHITE, b"\0\0\0"]),
    (b"SP2;PC2,255,255,255;PU0,0;PD4000,3000;", [], [WHITE]),
    (b"SP1;PU0,0;PD4000,3000;SP2;PC2,255,255,255;PU0,3000;PD4000,0;", ["--pens=1"], [WHITE, b"\0\0\0"]),
    (b"SP3;PU0,0;PD4000,3000;SP2;PC2,255,255,255;PU0,3000;PD4000,0;", ["--pens=2"], [WHITE]),
], ids=["over", "under", "alone", "not selected", "alone selected"])
def test_white_strokes(program, plot, words, palette):
    """They hide what is below them, if their pen is selected."""
    for dots in (30, 100, 300):
        for width in (b"", b"PW3;"):
            picture = same_as_ppm(program, [*SMALL, f"--dots={dots}", *words], width + plot)
            assert picture.palette == palette


def test_blank_sheets_are_small(program):
    """A blank A0 page at 600 dots per inch takes at most 140 KB."""
    data = drawn(program, ["png", "--page=a0", "--dots=600"], b"")
    name, header = next(chunks(data))
    assert name == b"IHDR" and struct.unpack(">II", header[:8]) == (pixels(47560, 600), pixels(33640, 600))
    assert len(data) <= 140_000
