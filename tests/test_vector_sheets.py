"""What PDF, SVG and DXF have beside lines: sheets, titles, layers and clip paths, without a limit that plots could reach."""

import json
import os
import re
import resource
import subprocess

import pytest

from document_runs import LINE, OLD, SECONDS, SMALL, drawn, ends_of
from reference import messages
from reference.command_line import VECTORS
from reference.dxf import Layer
from reference.dxf_groups import read_dxf
from reference.pdf import read_pdf
from reference.svg import read_svg
from shared import need, read_bytes, run, write
from vector_pictures import said_of_pdf

FULL = ["--profile=full", *SMALL]
ALL = [*FULL, "--sheet=0"]
# Sheets of one, two and no lines of pens 1 and 2, of which the third has only pen 3.
TWO = b"PU0,0;PD100,0;PG;SP2;PU0,50;PD100,50;SP1;PD100,90;"
THREE = TWO + b"PG;SP3;PD5,5;"
FIRST_OF_TWO = messages.said("first-sheet", 2)
# How much memory a line may take beside the plot, in bytes, and how much a run does without one.
MEMORY_OF_A_LINE = 200
MEMORY_OF_A_RUN = 60_000_000


def pdf(program, words, plot):
    return read_pdf(drawn(program, ["pdf", *words], plot))


def svg(program, words, plot):
    return read_svg(drawn(program, ["svg", *words], plot))


def dxf(program, words, plot):
    return read_dxf(drawn(program, ["dxf", *words], plot))


READERS = {"pdf": lambda data: read_pdf(data).document, "svg": read_svg, "dxf": read_dxf}


def pens_of(sheets):
    """The pens of the lines of each sheet."""
    return [[line.pen for line in lines] for lines in sheets]


def files_in(folder):
    return {name: read_bytes(folder / name) for name in sorted(os.listdir(folder))}


def run_in(program, folder, words):
    """The exit status and the message of a run in a folder, which writes nothing to standard output."""
    return ends_of(program, words, b"", cwd=folder)


# ---- sheets


@pytest.mark.parametrize("sheet, wanted", [("1", [[1]]), ("2", [[2, 1]]), ("3", [[3]]), ("4", [[]]), ("0", [[1], [2, 1], [3]])])
def test_sheets(program, sheet, wanted):
    """All sheets are pages and groups, and one is by itself."""
    words = [*FULL, f"--sheet={sheet}"]
    paged, grouped = pdf(program, words, THREE), svg(program, words, THREE)
    assert pens_of(paged.document.sheets) == pens_of(grouped.sheets) == wanted
    assert paged.layers == sorted({pen for pens in wanted for pen in pens})
    assert grouped.are_numbered == (sheet == "0")
    layers = [(number if sheet == "0" else None, pen) for number, pens in enumerate(wanted, 1) for pen in sorted(pens)]
    layered = dxf(program, words, THREE)
    assert [layer[:2] for layer in layered.layers] == layers
    assert [(it.layer.sheet, it.layer.pen) for it in layered.entities] == [
        (number if sheet == "0" else None, pen) for number, pens in enumerate(wanted, 1) for pen in pens]


def test_sheets_of_other_pens(program):
    """A sheet of which no pen is selected has an empty page, and an empty group."""
    for words in ([*ALL, "--pens=3"], [*ALL, "--pens=3", "--fit"]):
        assert pens_of(pdf(program, words, THREE).document.sheets) == pens_of(svg(program, words, THREE).sheets) == [[], [], [3]]
    assert pdf(program, [*ALL, "--pens=3"], THREE).layers == [3]
    assert dxf(program, [*ALL, "--pens=3"], THREE).layers == [Layer(3, 3, 3)]


@pytest.mark.parametrize("plot, count, is_grouped", [
    (b"", 1, False), (b"PG;PG;", 1, False), (LINE, 1, False), (b"PG;" + LINE, 1, False), (LINE + b"PG;", 1, True),
    (LINE + b"PG;PG;" + LINE, 2, True), (LINE + b"PG;IW90000,90000,90001,90001;PD5,5;", 2, True),
])
def test_ends_of_sheets(program, plot, count, is_grouped):
    """Groups are there if a sheet ends before the plot does; a sheet has a page if it has a line, whether that is seen or not."""
    paged, grouped = pdf(program, ALL, plot).document, svg(program, ALL, plot)
    assert (len(paged.sheets), len(grouped.sheets), grouped.are_numbered) == (count, count, is_grouped)
    assert paged.sheets == grouped.sheets
    assert all((layer.sheet is not None) == is_grouped for layer in dxf(program, ALL, plot).layers)


def test_core_has_no_sheets(program):
    assert pens_of(pdf(program, SMALL, TWO).document.sheets) == [[1, 2, 1]]
    assert svg(program, SMALL, TWO).sheets == pdf(program, SMALL, TWO).document.sheets


def test_first_sheet(program):
    """It is what a command draws if no sheet is named, and it says so; a PDF by `draw` has all."""
    for words, said in [(["pdf"], FIRST_OF_TWO), (["svg"], FIRST_OF_TWO), (["draw", "--form=svg"], FIRST_OF_TWO),
                        (["dxf"], FIRST_OF_TWO), (["draw", "--form=dxf"], FIRST_OF_TWO), (["draw", "--form=pdf"], b"")]:
        done = run(program, [*words, *FULL], SECONDS, input=TWO)
        assert (done.returncode, done.stderr) == (0, said), words
        sheet = "0" if words[-1] == "--form=pdf" else "1"
        assert done.stdout == drawn(program, [words[-1][-3:], *FULL, f"--sheet={sheet}"], TWO)


def test_each_sheet(program, tmp_path):
    """The sheets of a PDF are pages of one file, which need no folder; those of SVG and DXF are files by themselves."""
    write(str(tmp_path / "two.plt"), TWO)
    os.mkdir(tmp_path / "out")
    assert drawn(program, ["pdf", *FULL, "--sheet=each"], TWO) == drawn(program, ["pdf", *ALL], TWO)
    needs = messages.refused("each-without-folder")
    for words in (["svg", *FULL], ["draw", "--form=svg"], ["dxf", *FULL], ["draw", "--form=dxf"]):
        assert ends_of(program, [*words, "--sheet=each"], TWO) == needs
    each = [[form, *FULL, "--sheet=each"] for form in VECTORS]
    for words in (*each, ["draw", "--form=pdf", *FULL]):
        assert run_in(program, tmp_path, [*words, "-o", "out", "two.plt"]) == (0, b"")
    files = files_in(tmp_path / "out")
    assert sorted(files) == ["two-1.dxf", "two-1.svg", "two-2.dxf", "two-2.svg", "two.pdf"]
    for sheet in (1, 2):
        for form in ("svg", "dxf"):
            assert files[f"two-{sheet}.{form}"] == drawn(program, [form, *FULL, f"--sheet={sheet}"], TWO)
    document = read_pdf(files["two.pdf"]).document
    assert document.title == "two.plt" and document._replace(title=None) == pdf(program, ALL, TWO).document


def test_draw_into_a_file(program, tmp_path):
    """The extension says the form."""
    write(str(tmp_path / "two.plt"), TWO)
    assert run_in(program, tmp_path, ["draw", "-o", "a.pdf", "two.plt"]) == (0, b"")
    assert run_in(program, tmp_path, ["draw", "-o", "a.SVG", "two.plt"]) == (0, FIRST_OF_TWO)
    assert run_in(program, tmp_path, ["draw", "-o", "a.Dxf", "two.plt"]) == (0, FIRST_OF_TWO)
    assert run_in(program, tmp_path, ["draw", "-o", "b", "--form=pdf", "--sheet=2", "two.plt"]) == (0, b"")
    wanted = ["--page=plot", "--fit", "--margin=5", "--profile=full"]
    assert read_pdf(read_bytes(tmp_path / "a.pdf")).document.sheets == pdf(program, [*wanted[1:], "--sheet=0"], TWO).document.sheets
    assert read_bytes(tmp_path / "a.SVG") == drawn(program, ["draw", "--form=svg", "--sheet=1"], TWO)
    assert read_bytes(tmp_path / "a.Dxf") == drawn(program, ["draw", "--form=dxf", "--sheet=1"], TWO)
    assert pens_of(read_pdf(read_bytes(tmp_path / "b")).document.sheets) == [[2, 1]]


# ---- titles and layers


@pytest.mark.parametrize("name", ["plan.plt", r"a(1)\<b>&'c\"[d]{e}%f.plt", "Plän №5 日本.hpgl", "😀", " ", "-", "n" * 255])
def test_titles(program, tmp_path, pytestconfig, name):
    """The title is the name of the file that is drawn, without its folder; an SVG and a DXF have none."""
    need(pytestconfig, "pdfinfo", "qpdf")
    write(str(tmp_path / "deep" / name), LINE)
    for words in (["pdf", *SMALL], ["draw", "--form=pdf"]):
        done = run(program, [*words, "--", f"deep/{name}"], SECONDS, cwd=tmp_path)
        assert (done.returncode, done.stderr) == (0, b"") and read_pdf(done.stdout).document.title == name
        assert not list(said_of_pdf(done.stdout, tmp_path / "out.pdf"))
        shown = subprocess.run(["pdfinfo", "-enc", "UTF-8", tmp_path / "out.pdf"], capture_output=True, check=True).stdout
        assert re.search(rb"^Title: +(.*)$", shown, re.M)[1].strip() == name.strip().encode()
    for form in ("svg", "dxf"):
        done = run(program, [form, *SMALL, "--", f"deep/{name}"], SECONDS, cwd=tmp_path)
        assert done.stdout == drawn(program, [form, *SMALL], LINE)


def test_titles_of_several_plots(program, tmp_path):
    """Each document is that of its plot; that of standard input has no title."""
    names = ["one.plt", "two.plt", "deep/three.plt"]
    for name in names:
        write(str(tmp_path / name), LINE)
    os.mkdir(tmp_path / "out")
    assert run_in(program, tmp_path, ["pdf", *SMALL, "-o", "out", *names]) == (0, b"")
    assert {name: read_pdf(data).document.title for name, data in files_in(tmp_path / "out").items()} == {
        "one.pdf": "one.plt", "two.pdf": "two.plt", "three.pdf": "three.plt"}
    assert pdf(program, SMALL, LINE).document.title is None
    assert ends_of(program, ["pdf", *SMALL, "-o", str(tmp_path / "in.pdf")], LINE) == (0, b"")
    assert read_bytes(tmp_path / "in.pdf") == drawn(program, ["pdf", *SMALL], LINE)


def test_producer(program):
    """It is the program, with its version."""
    assert pdf(program, SMALL, LINE).producer.encode() + b"\n" == run(program, ["--version"], SECONDS).stdout


def test_layers(program, tmp_path, pytestconfig):
    """A layer for each pen that draws a line which is seen, on any page, in the order of their numbers, as qpdf finds them."""
    need(pytestconfig, "qpdf")
    plot = b"SP255;PD5,5;SP2;PD9,9;PG;SP30;PD5,9;IW90000,90000,90001,90001;SP4;PD0,0;"
    for words, pens in ((ALL, [2, 30, 255]), (FULL + ["--sheet=1"], [2, 255]), (ALL + ["--pens=30-255"], [30, 255])):
        data = drawn(program, ["pdf", *words], plot)
        write(str(tmp_path / "plan.pdf"), data)
        shown = subprocess.run(["qpdf", "--json", tmp_path / "plan.pdf"], capture_output=True, check=True, timeout=SECONDS).stdout
        objects = {name: about.get("value") for name, about in json.loads(shown)["qpdf"][1].items()}
        layers = objects["obj:" + objects["obj:1 0 R"]["/OCProperties"]["/OCGs"]]
        assert [objects[f"obj:{layer}"]["/Name"] for layer in layers] == [f"u:Pen {pen}" for pen in pens]
        assert read_pdf(data).layers == pens


# ---- what is on the page


@pytest.mark.parametrize("command", VECTORS)
@pytest.mark.parametrize("words, plot, errors", [
    ([], b"", b""), ([], b"IW90000,90000,90001,90001;PD5,5;", b""), (["--pens=2"], LINE, b""),
    (["--fit"], b"", messages.said("blank-to-fit")),
    (["--fit", "--pens=9"], LINE, messages.said("blank-to-fit")),
])
def test_nothing_drawn(program, command, words, plot, errors):
    """An empty page, without layers and clip paths."""
    done = run(program, [command, *SMALL, *words], SECONDS, input=plot)
    assert (done.returncode, done.stderr) == (0, errors)
    document = READERS[command](done.stdout)
    assert document[:3] == (4000, 3000, [[]] if command != "dxf" else [])


def test_pages(program):
    """Sides of all sizes, in millimetres and in points."""
    for width, height in ((64, 65536), (65536, 64), (65, 66), (1016, 508), (1017, 999), (40, 41)):
        words = [f"--width={max(64, width)}", f"--height={max(64, height)}"]
        wanted = (max(64, width), max(64, height), [[]])
        assert pdf(program, words, b"").document[:3] == svg(program, words, b"")[:3] == wanted
        assert dxf(program, words, b"") == (*wanted[:2], [], [])


def test_places_off_the_page(program):
    """The page is fitted around places with negative numbers; without it they stay."""
    plot = b"SP1;PU-60000,-60000;PD-59000,-59500;SP2;PW3;PD-59500,-59000;"
    (first, second), = svg(program, ["--left=0"], plot).sheets
    assert (first.a, first.b, second.b) == ((-960_000, -960_000), (-944_000, -952_000), (-952_000, -944_000))
    assert pdf(program, [], plot).document.sheets == [[first, second]]
    fitted = svg(program, ["--fit", "--margin=0"], plot)
    assert fitted.sheets == pdf(program, ["--fit", "--margin=0"], plot).document.sheets
    (moved, other), = fitted.sheets
    assert all(0 <= place <= 16 * 1200 for line in (moved, other) for end in (line.a, line.b) for place in end)
    assert moved.width == 224 and other.width == 1920


def test_widths(program):
    """A line is at least 24 grains wide, which are 0.0375 mm."""
    plot = b"".join(b"PW%s;PU0,0;PD90,0;" % width for width in (b"0", b"0.036", b"0.0375", b"0.039", b"20"))
    for document in (pdf(program, SMALL, plot).document, svg(program, SMALL, plot)):
        assert [line.width for line in document.sheets[0]] == [24, 24, 24, 25, 12_800]


@pytest.mark.parametrize("command", VECTORS)
def test_pixels_are_not_asked_for(program, command):
    """Options of pixels are no options of these commands, and of `draw` they are a mistake of their own."""
    for option in ("--dots=100", "--smooth=1", "--size=100", "--progress"):
        status, message = ends_of(program, [command, option], LINE)
        assert status == 2 and message.startswith(b"error: ")
    wrong = messages.refused("no-pixels")
    for option in ("--dots=100", "--smooth=1", "--size=100"):
        for words in ([f"--form={command}"], ["-o", f"new.{command}"], [f"--form={command}", "--page=none", "--profile=no"]):
            assert ends_of(program, ["draw", option, *words], LINE) == wrong
        for word, said in (("--colours=x", ("colours", "x")), ("--widths=x", ("widths", "x")), ("--pens=0", ("pens",))):
            assert ends_of(program, ["draw", option, f"--form={command}", word], LINE) == messages.refused(*said)
    assert not os.path.exists(f"new.{command}")


def test_same_bytes_again(program):
    for command in VECTORS:
        assert drawn(program, [command, *ALL], THREE) == drawn(program, [command, *ALL], THREE)


def test_no_overwriting(program, tmp_path):
    """A plot that is refused leaves the old document, and a good one replaces it."""
    write(str(tmp_path / "a.plt"), LINE)
    write(str(tmp_path / "far.plt"), b"PD8388607.9,0;")
    for command in VECTORS:
        write(str(tmp_path / f"out.{command}"), OLD)
        words = ["draw", "-o", f"out.{command}"]
        assert run_in(program, tmp_path, [*words, "far.plt"]) == messages.refused("off-range", 0)
        assert read_bytes(tmp_path / f"out.{command}") == OLD
        assert run_in(program, tmp_path, [*words, "a.plt"]) == (0, b"")
        assert read_bytes(tmp_path / f"out.{command}") != OLD
    assert sorted(os.listdir(tmp_path)) == ["a.plt", "far.plt", "out.dxf", "out.pdf", "out.svg"]


# ---- many lines


def many_lines(count):
    """Lines of which each has a colour, a window and a pen of its own."""
    parts = [b"SP%d;PC%d,%d,%d,%d;IW%d,%d,%d,%d;PU%d,%d;PD3000,2000;" % (
        number % 255 + 1, number % 255 + 1, number // 65536, number // 256 % 256, number % 256,
        number % 1500, number // 1500, 2000 + number % 1000, 2100 + number // 1000, number % 4000, number // 4000,
    ) for number in range(count)]
    return b"".join(parts)


def with_memory(size):
    resource.setrlimit(resource.RLIMIT_AS, (size, size))


@pytest.mark.parametrize("command", VECTORS)
def test_many_colours_and_windows(program, command):
    """100,000 lines take little time and little memory, each in a path of its own."""
    count = 100_000
    plot = many_lines(count)
    most = MEMORY_OF_A_RUN + 2 * len(plot) + MEMORY_OF_A_LINE * count
    done = run(program, [command, *SMALL], 20, input=plot, preexec_fn=lambda: with_memory(most))
    assert (done.returncode, done.stderr) == (0, b"")
    document = READERS[command](done.stdout)
    if command == "dxf":
        # Of a line there is what its window shows, and of many of these nothing.
        assert len(document.layers) == 255 and 1000 < len(document.entities) < count
        return
    lines, = document.sheets
    assert len(lines) == count and len({line.colour for line in lines}) == count and len({line.window for line in lines}) == count


@pytest.mark.parametrize("command", VECTORS)
def test_many_sheets(program, command):
    """10,000 sheets of a line each, and of a long line of 5,000 parts."""
    for plot, count in ((b"PU0,0;PD5,5;PG;" * 10_000, 10_000), (b"PD" + b"9,9,0,0," * 2500 + b"1,1;", 1)):
        data = drawn(program, [command, *ALL], plot)
        document = READERS[command](data)
        if command == "dxf":
            assert len({layer.sheet for layer in document.layers}) == count
            assert sum(len(it.places) - 1 for it in document.entities) == (10_000 if count > 1 else 5_001)
            continue
        assert len(document.sheets) == count and sum(map(len, document.sheets)) == (10_000 if count > 1 else 5_001)
