"""Smoothed pictures: each pixel is the mean of N by N pixels of `ppm` at N times the resolution, by Python's arithmetic.
A PNG has the same pixels, with grey, a palette of the means, or truecolour."""

import functools
import os
import struct
import subprocess

import pytest

from document_runs import NOT_WRITTEN, OLD, SECONDS, WHITE, drawn, ends_of, limit
from reference import messages
from reference.png import GREY, PALETTE, TRUECOLOUR, chunks, read_png
from shared import EXAMPLES, need, pixels, read_bytes, run, with_sheet, write
from test_full_reference import options_of, plot_of, rows
from test_pictures import cases, words_of
from test_png import NAMES, depth_of, has_same_pixels

TOO_FINE = messages.refused("too-fine")
SMALL = ["--width=1000", "--height=800"]
# Lines by pens of several colours, along the edges of the small page and across it.
COLOURED = b"SP2;PU5,5;PD900,20;SP3;PU0,800;PD1000,800;SP5;PU450,350;CI200;SP6;PW3;PU0,0;PD0,800;SP1;PW1;PU1000,0;PD1000,790;"
BLACK = b"SP1;PW2;PU0,0;PD1000,0,1000,800,0,800,0,0;PW.5;PD1000,790;CI300;"
PLOTS = [BLACK, COLOURED, b"", b"PC1,128,128,128;PU0,0;PD999,799;PC1,3,3,3;PU0,799;PD999,0;"]
TIMES = (1, 2, 3, 5, 8)


@pytest.fixture(autouse=True)
def readers(pytestconfig):
    need(pytestconfig, "pngtopnm", "ppmtoppm", "pngcheck")


# ---- what is expected


def fine_rows(fine, columns, count):
    """The rows of a pixmap, cut to so many columns and rows, or continued in white."""
    magic, size, most, found = fine.split(b"\n", 3)
    assert (magic, most) == (b"P6", b"255")
    its_columns, its_count = map(int, size.split())
    assert len(found) == 3 * its_columns * its_count
    beside = WHITE * (columns - its_columns)
    for row in range(count):
        at = 3 * its_columns * row
        yield found[at:at + 3 * min(columns, its_columns)] + beside if row < its_count else WHITE * columns


def means(rows_of_means, times):
    """The colours of a row, each the mean of times by times in these rows, to the nearest number."""
    sums = [sum(parts) for parts in zip(*rows_of_means)]
    channels = []
    for channel in (sums[at::3] for at in range(3)):
        totals = [sum(channel[at:at + times]) for at in range(0, len(channel), times)]
        channels.append([(2 * total + times * times) // (2 * times * times) for total in totals])
    return bytes(part for colour in zip(*channels) for part in colour)


def smoothed(fine, times, columns, count):
    """A pixmap of the means of a finer one."""
    its_rows = list(fine_rows(fine, times * columns, times * count))
    found = [means(its_rows[at:at + times], times) for at in range(0, len(its_rows), times)]
    return b"P6\n%d %d\n255\n" % (columns, count) + b"".join(found)


def size_of(pixmap):
    """The columns and the rows of a pixmap."""
    return tuple(map(int, pixmap.split(b"\n", 2)[1].split()))


def pictures(program, words, dots, times, plot):
    """The pixmap that the words ask for, smoothed so many times, which has the means, and the PNG, which shows them."""
    fine = drawn(program, ["ppm", *words, f"--dots={dots * times}"], plot)
    size = size_of(drawn(program, ["ppm", *words, f"--dots={dots}"], plot))
    wanted = smoothed(fine, times, *size)
    words = [*words, f"--dots={dots}", f"--smooth={times}"]
    assert drawn(program, ["ppm", *words], plot) == wanted, words
    picture = has_same_pixels(drawn(program, ["png", *words], plot), wanted)
    assert picture.per_metre == (20000 * dots + 254) // 508
    return wanted, picture


def colours_of(pixmap):
    """The colours of a pixmap in the order in which they first come, row by row."""
    found = pixmap.split(b"\n", 3)[3]
    return list(dict.fromkeys(found[at:at + 3] for at in range(0, len(found), 3)))


def layout_of(pixmap, is_grey):
    """The type, the depth and the palette of a smoothed PNG, by its pixels and by whether all strokes are grey."""
    palette = list(dict.fromkeys([WHITE, *colours_of(pixmap)]))
    if is_grey:
        return GREY, 8, []
    return (PALETTE, depth_of(len(palette)), palette) if len(palette) <= 256 else (TRUECOLOUR, 8, [])


def has_layout(program, words, dots, times, plot, is_grey=False):
    """The PNG of these words, which has the layout that its pixels ask for."""
    pixmap, picture = pictures(program, words, dots, times, plot)
    assert (picture.type, picture.depth, picture.palette) == layout_of(pixmap, is_grey)
    return picture


# ---- pixels


@pytest.mark.parametrize("times", TIMES)
@pytest.mark.parametrize("name", NAMES)
def test_examples(program, name, times):
    plot = read_bytes(os.path.join(EXAMPLES, f"{name}.plt"))
    pictures(program, ["--width=4000", "--height=3000", "--profile=full"], 20, times, plot)


@pytest.mark.parametrize("times", TIMES)
def test_small_plots(program, times):
    """The plots of pictures.txt, as whole pictures."""
    for words, plot, _ in cases():
        options = dict(zip(words_of(words)[1::2], words_of(words)[2::2]))
        dots = int(options.pop("--dots", 1200))
        if words[0] != "report" and not {"--from", "--band"} & set(options) and dots * times <= 1200:
            pictures(program, [word for option in options.items() for word in option], dots, times, plot)


def test_full_examples(program):
    for _, keys in rows():
        options = options_of(keys)
        if "refused" not in keys and int(options["width"]) * int(options["height"]) <= 1000 * 1000:
            words = [f"--{name}={value}" for name, value in with_sheet(options).items()]
            pictures(program, words, 40, 3, plot_of(keys["plot"][0]))


def excess(side, dots, times):
    """How many pixels of the finer picture are beyond those of the smoothed one; if it has too few, less than 0."""
    return pixels(side, dots * times) - times * pixels(side, dots)


def sides(dots, times):
    """Sides of pages, by the excess that they have: in small pictures each that there is."""
    return {excess(side, dots, times): side for side in range(1200, 63, -1)}


@pytest.mark.parametrize("times", TIMES)
def test_odd_sizes(program, times):
    """The finer picture may have some columns and rows less than times those of the smoothed one, or more."""
    found = sides(60, times)
    assert sorted(found) == list(range(-(times // 2), times // 2 + 1))
    for width in found.values():
        for height in found.values():
            for plot in PLOTS[:2]:
                pictures(program, [f"--width={width}", f"--height={height}"], 60, times, plot)


@pytest.mark.parametrize("times", TIMES)
def test_one_pixel(program, times):
    """A page of one pixel, the finer picture of which has fewer columns than times one, or more."""
    for side in (64, 101, 102, 152):
        assert pixels(side, 10) == 1
        for plot in (b"SP2;PW9;PU0,0;PD60,60;", b"SP1;PU0,0;PD10,0;", b""):
            pictures(program, [f"--width={side}", "--height=64"], 10, times, plot)


@pytest.mark.parametrize("plot", PLOTS, ids=["black", "coloured", "blank", "grey"])
@pytest.mark.parametrize("dots, times", [(30, 2), (33, 3), (41, 5), (29, 7), (25, 8), (150, 8), (600, 2)])
def test_resolutions(program, dots, times, plot):
    """Up to the finest that there is."""
    pictures(program, SMALL, dots, times, plot)


def weight(row):
    """The runs of equal bytes in a row, after a 0; those of other bytes than 0 count twice."""
    return sum(0 if byte == last else 2 if byte else 1 for last, byte in zip(b"\0" + row, row))


def better_filter(row, above):
    """None, which is 0, for a row of less weight than its differences to the row above, and for a blank row; else Up, 2."""
    differences = bytes((byte - other) & 255 for byte, other in zip(row, above))
    return 2 if any(row) and weight(row) >= weight(differences) else 0


@pytest.mark.parametrize("page, plot, kind, size", [
    (SMALL, BLACK, GREY, 1),
    (["--width=4000", "--height=3000"], read_bytes(os.path.join(EXAMPLES, "metro.plt")), TRUECOLOUR, 3),
], ids=["grey", "truecolour"])
def test_filters(program, page, plot, kind, size):
    """Where a pixel takes whole bytes, each row has the filter that leaves fewer runs."""
    picture = read_png(drawn(program, ["png", *page, "--dots=150", "--smooth=4"], plot))
    assert picture.type == kind
    found = picture.pixels[::3] if kind == GREY else picture.pixels
    wide = picture.columns * size
    lines = [bytes(wide), *(found[at:at + wide] for at in range(0, len(found), wide))]
    wanted = bytes(better_filter(row, above) for above, row in zip(lines, lines[1:]))
    assert picture.filters == wanted and {0, 2} == set(wanted)


def test_halves_are_rounded_up(program):
    """A pixel of which two of four parts are black is 128, and not 127; one part of eight is 223.125, 223."""
    half = b"SP1;PW9;IW0,0,4,8;PU0,0;PD64,0;"
    page = ["--width=64", "--height=64", "--dots=127"]
    data = drawn(program, ["ppm", *page, "--smooth=2"], half)
    assert data[-24:] == b"\x80" * 3 + WHITE * 7
    assert read_png(drawn(program, ["png", *page, "--smooth=2"], half)).pixels == data[-192:]
    eighth = b"SP2;PW9;IW0,0,1,8;PU0,0;PD64,0;"
    assert drawn(program, ["ppm", *page, "--smooth=8"], eighth)[-24:] == b"\xff\xdf\xdf" + WHITE * 7


def test_no_smoothing(program):
    """Smoothed once is not smoothed: the same bytes, of PNG too."""
    for plot in PLOTS:
        for command in ("png", "ppm"):
            for dots in (10, 100, 1200):
                words = [command, *SMALL, f"--dots={dots}"]
                assert drawn(program, [*words, "--smooth=1"], plot) == drawn(program, words, plot)


# ---- rows, bands and pages


@pytest.mark.parametrize("times", TIMES)
def test_first_rows(program, times):
    """A picture from row r on is the end of the whole one, without a header."""
    columns, count = pixels(1000, 50), pixels(800, 50)
    words = ["ppm", *SMALL, "--dots=50", f"--smooth={times}"]
    for plot in (COLOURED, BLACK):
        whole = drawn(program, words, plot)
        for row in range(1, count + 1):
            assert drawn(program, [*words, f"--from={row}"], plot) == whole[len(whole) - 3 * columns * (count - row):]
        assert drawn(program, [*words, "--from=0"], plot) == whole
    past = run(program, [*words, f"--from={count + 1}"], SECONDS, input=BLACK)
    assert (past.returncode, past.stdout, past.stderr) == (2, b"", messages.said("first-row"))


@pytest.mark.parametrize("times", TIMES)
def test_bands(program, times):
    """The number of rows that are painted at a time changes nothing, in a picture that has more or fewer."""
    for dots in (20, 110):
        words = ["ppm", *SMALL, f"--dots={dots}", f"--smooth={times}"]
        whole = drawn(program, words, COLOURED)
        for band in (1, 2, 3, 7, 63, 64, 65, 4096):
            assert drawn(program, [*words, f"--band={band}"], COLOURED) == whole
            later = drawn(program, [*words, f"--band={band}", "--from=5"], COLOURED)
            assert later and whole.endswith(later)


def test_parts_make_the_whole(program):
    """Each row on its own, one after another."""
    words = ["ppm", *SMALL, "--dots=40", "--smooth=3"]
    whole, columns, count = drawn(program, words, COLOURED), pixels(1000, 40), pixels(800, 40)
    header = whole[:len(whole) - 3 * columns * count]
    rows_alone = (drawn(program, [*words, f"--from={row}", "--band=1"], COLOURED)[:3 * columns] for row in range(1, count))
    assert header + whole[len(header):len(header) + 3 * columns] + b"".join(rows_alone) == whole


def test_pages(program):
    """The page around a drawing, and that which a plot asks for, are the same at each resolution."""
    for words, plot in ((["--fit"], COLOURED), (["--fit", "--margin=0"], BLACK), (["--page=plot"], b"PS800,1000;" + BLACK)):
        for times in (2, 3, 8):
            pictures(program, words, 40, times, plot)


def test_pens(program):
    """Only the selected pens are painted before the means are taken."""
    for pens in ("1", "2-3", "3,5-255"):
        pictures(program, [*SMALL, f"--pens={pens}"], 50, 4, COLOURED)


def test_messages(program):
    """What is said of the lines and the notes does not depend on the smoothing."""
    plot = b"SP2;PU0,0;PD50,50;PU5000,5000;PD6000,5000;WU9;"
    said = [run(program, [command, *SMALL, "--verbose", f"--smooth={times}"], SECONDS, input=plot).stderr
            for command in ("png", "ppm") for times in (1, 4)]
    assert len(set(said)) == 1 and b"2 lines, 1 off the page; 1 note" in said[0]


# ---- layouts of PNG


def tiles(its_colours, columns=20):
    """A plot on a page of 8 units a pixel: each colour fills a pixel, in rows of so many from the bottom up."""
    parts = ["SP1;PW9;"]
    for number, colour in enumerate(its_colours):
        x, y = 8 * (number % columns), 8 * (number // columns)
        parts.append("IW%d,%d,%d,%d;PC1,%d,%d,%d;PU%d,%d;PD;" % (x, y, x + 8, y + 8, *colour, x, y))
    return "".join(parts).encode()


def others(count):
    """So many colours, none of which is white, black or grey."""
    return [bytes((i % 256, i // 256, 255 - i % 128)) for i in range(count)]


TILES = ["--width=160", "--height=160"]


@pytest.mark.parametrize("count", [1, 2, 3, 4, 14, 15, 16, 254, 255, 256, 300])
def test_numbers_of_colours(program, count):
    """The depth is the least that holds white and the colours of the pixels; from 257 on there is no palette."""
    picture = has_layout(program, TILES, 127, 8, tiles(others(count)))
    assert len({picture.pixels[at:at + 3] for at in range(0, len(picture.pixels), 3)}) == count + 1


@pytest.mark.parametrize("count", [255, 256])
def test_without_white(program, count):
    """White is in the palette, and counts, if no pixel is white, too."""
    words = ["--width=128", "--height=128"]
    its_colours = (others(count) * 2)[:256]
    picture = has_layout(program, words, 127, 4, tiles(its_colours, 16))
    assert WHITE not in [picture.pixels[at:at + 3] for at in range(0, len(picture.pixels), 3)]
    assert picture.type == (PALETTE if count == 255 else TRUECOLOUR)


def test_order_of_the_palette(program):
    """White comes first, also where the first pixel has another colour, and then what comes first, row by row."""
    first, second, third = b"\1\2\3", b"\xff\0\0", b"\0\0\xff"
    plot = tiles([first, second, first, third], 2)
    picture = has_layout(program, ["--width=64", "--height=64"], 127, 8, plot)
    assert picture.palette == [WHITE, first, third, second]
    filled = has_layout(program, ["--width=64", "--height=64"], 127, 8, b"SP2;PW20;PU32,32;PD;" + plot)
    assert filled.pixels[:3] == second and filled.palette == [WHITE, second, first, third]


def test_colours_of_the_pixels_only(program):
    """Many colours of strokes that few pixels show leave a palette; few colours of strokes may have many means."""
    hidden = "".join("PC1,%d,%d,%d;PU8,8;PD;" % tuple(colour) for colour in others(300))
    picture = has_layout(program, TILES, 127, 8, b"SP1;PW.3;" + hidden.encode())
    assert picture.type == PALETTE and len(picture.palette) < 64
    rose = read_bytes(os.path.join(EXAMPLES, "rose.plt"))
    assert has_layout(program, ["--width=4000", "--height=3000"], 100, 8, rose).type == TRUECOLOUR


GREYS = {
    "black": BLACK, "blank": b"", "greys": PLOTS[3], "white on black": BLACK + b"PC1,255,255,255;PU0,400;PD1000,400;",
    "one grey": b"PC1,77,77,77;PU0,0;PD1000,800;",
}
NEARLY_GREYS = {
    "one part more": b"PC1,9,9,10;PU0,0;PD1000,800;", "off the page": BLACK + b"SP2;PU5000,5000;PD6000,5000;",
    "hidden": b"SP2;PU100,100;PD200,100;SP1;PW4;PU100,100;PD200,100;", "one of two": BLACK + b"SP3;PU0,400;PD1000,400;",
    "at last": BLACK + b"PC1,0,0,1;PU0,400;PD1000,400;",
}


@pytest.mark.parametrize("times", TIMES[1:])
def test_greys(program, times):
    """The colours of all selected strokes decide, whether a pixel shows them or not."""
    for plot in GREYS.values():
        has_layout(program, SMALL, 60, times, plot, is_grey=True)
    for plot in NEARLY_GREYS.values():
        has_layout(program, SMALL, 60, times, plot)
        has_layout(program, [*SMALL, "--pens=9"], 60, times, plot, is_grey=True)
    has_layout(program, [*SMALL, "--pens=1"], 60, times, NEARLY_GREYS["hidden"], is_grey=True)


def test_mixed_colours(program):
    """Palettes of means, and truecolour."""
    for dots in (10, 30, 60, 150):
        for times in TIMES[1:]:
            has_layout(program, SMALL, dots, times, COLOURED)


# ---- refusals, and devices that fail


def test_refusals(program, tmp_path):
    """Nothing is read or written, and an old file stays."""
    write(str(tmp_path / "out"), OLD)
    for command in ("png", "ppm"):
        for where in ([], ["-o", "out"], ["-o", "new"]):
            refused = functools.partial(ends_of, program, plot=b"PD8388607.9,0;", cwd=tmp_path)
            for dots, times in ((601, 2), (401, 3), (301, 4), (241, 5), (201, 6), (172, 7), (151, 8), (1200, 8)):
                words = [command, f"--dots={dots}", f"--smooth={times}", *where]
                assert refused(words) == TOO_FINE
                assert refused([*words, "missing.plt"]) == TOO_FINE
                assert refused([*words, "--pens=0"]) == messages.refused("pens")
            for dots, times in ((600, 2), (400, 3), (300, 4), (240, 5), (200, 6), (171, 7), (150, 8), (1200, 1)):
                words = [command, f"--dots={dots}", f"--smooth={times}", *where]
                assert refused(words) == messages.refused("off-range", 0)
            for text in ("0", "9", "-1", "1.5", "x", ""):
                status, message = refused([command, f"--smooth={text}", *where])
                assert status == 2 and message.startswith(b"error: ")
    assert (os.listdir(tmp_path), read_bytes(tmp_path / "out")) == (["out"], OLD)


def test_forms_without_shades(program):
    for command in ("marks", "pbm", "pcl", "report"):
        for text in ("1", "2"):
            status, message = ends_of(program, [command, f"--smooth={text}"], BLACK)
            assert status == 2 and message.startswith(b"error: ")


def test_full_device(program):
    """A pixmap says where to go on from, a PNG does not."""
    ends = {"png": NOT_WRITTEN, "ppm": messages.refused("broken-off", 0, 0)}
    for command, wanted in ends.items():
        with open("/dev/full", "wb") as full:
            done = subprocess.run(["plotraster", command, *SMALL, "--smooth=3"], executable=program, input=COLOURED, stdout=full,
                                  stderr=subprocess.PIPE, timeout=SECONDS)
        assert (done.returncode, done.stderr) == wanted
        assert ends_of(program, [command, *SMALL, "--smooth=3", "-o", "/dev/full"], COLOURED) == wanted


@pytest.mark.parametrize("size", [0, 1, 100])
def test_full_disk(program, tmp_path, size):
    """The old file stays as it was, and no part of a PNG is left."""
    write(str(tmp_path / "out"), OLD)
    limited = functools.partial(limit, size)
    for name in ("out", "new"):
        words = ["png", *SMALL, "--smooth=2", "-o", name]
        assert ends_of(program, words, COLOURED, cwd=tmp_path, preexec_fn=limited) == NOT_WRITTEN
    assert (os.listdir(tmp_path), read_bytes(tmp_path / "out")) == (["out"], OLD)


def test_going_on(program, tmp_path):
    """A pixmap that is cut off by a full disk is continued from the row that the message names."""
    words, plot = ["ppm", *SMALL, "--dots=100", "--smooth=4"], COLOURED
    whole, columns, header = drawn(program, words, plot), pixels(1000, 100), len(b"P6\n98 79\n255\n")
    for size in (0, 5, header, 1000, 9000, len(whole) - 1):
        limited = functools.partial(limit, size)
        done = run(program, [*words, "--band=2", "-o", "out"], SECONDS, input=plot, cwd=tmp_path, preexec_fn=limited)
        row = max(0, size - header) // (3 * columns)
        kept = header + 3 * columns * row if row else 0
        assert (done.returncode, done.stdout) == (3, b"")
        assert done.stderr == messages.said("broken-off", row, kept)
        assert whole[:kept] + drawn(program, [*words, f"--from={row}"], plot) == whole


@pytest.mark.parametrize("command", ["png", "ppm"])
@pytest.mark.parametrize("plot", [BLACK, COLOURED, tiles(others(300))], ids=["grey", "palette", "truecolour"])
def test_each_write_fails(program, refuse, command, plot):
    """What was written before is a beginning of the picture."""
    words, number = [command, "--width=1000", "--height=1000", "--dots=150", "--smooth=4"], 0
    whole = drawn(program, words, plot)
    while True:
        number += 1
        surroundings = dict(os.environ, LD_PRELOAD=refuse, WRITE_FAILS=str(number))
        done = run(program, words, SECONDS, input=plot, env=surroundings)
        assert whole.startswith(done.stdout)
        if done.returncode == 0:
            break
        assert done.returncode == 3 and done.stdout != whole and done.stderr.startswith(messages.said("write")[:-1])
    assert number > 1 and done.stdout == whole


@pytest.mark.parametrize("command", ["png", "ppm"])
@pytest.mark.parametrize("plot", [BLACK, COLOURED, tiles(others(300))], ids=["grey", "palette", "truecolour"])
def test_refused_allocations(program, refuse, command, plot):
    """Each allocation of a run is refused in turn: nothing is written, or the whole picture."""
    words, number, without_effect = [command, "--width=160", "--height=160", "--dots=127", "--smooth=8"], 0, 0
    whole = drawn(program, words, plot)
    while without_effect < 10:
        number += 1
        surroundings = dict(os.environ, LD_PRELOAD=refuse, MEMORY_FAILS=str(number))
        done = run(program, words, SECONDS, input=plot, env=surroundings)
        ended = (done.returncode, done.stdout, done.stderr)
        assert ended in ((0, whole, b""), (4, b"", messages.said("memory")))
        without_effect = 0 if done.returncode else without_effect + 1
    assert number > 11


def test_blank_sheets_are_small(program):
    """A blank A0 page at 150 dots per inch, painted at 1200, takes at most 140 KB."""
    data = drawn(program, ["png", "--page=a0", "--dots=150", "--smooth=8"], b"")
    name, header = next(chunks(data))
    assert name == b"IHDR" and struct.unpack(">II", header[:8]) == (pixels(47560, 150), pixels(33640, 150))
    assert len(data) <= 140_000
