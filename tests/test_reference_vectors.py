"""Checks the readers of PDF and SVG, and what the plain plotter of tests/reference says of such documents, without the program: on
documents that were written by hand."""

import re
import zlib

import pytest

from reference import messages
from reference.fills import BY_ODD_COUNTS, BY_WINDING
from reference.outputs import answer
from reference.pdf import HEADERS, read_pdf
from reference.reading import Wrong
from reference.svg import read_svg
from reference.vectors import Document, FilledPath, Line

BLUE, RED = (0, 0, 255), (255, 136, 1)
WINDOW = (160, 320, 800, 900)
# On a page of 1,016 by 500 units.
FIRST = [Line(1, BLUE, 24, None, (0, 448), (256, 448)), Line(1, BLUE, 24, None, (256, 448), (0, 8000)),
         Line(1, BLUE, 24, None, (5, 6), (5, 6)), Line(7, RED, 12_800, WINDOW, (-9, 8000), (16_256, 0)),
         FilledPath(1, BLUE, BY_ODD_COUNTS, None, (
             ((0, 0), (9, 0)), ((9, 0), (0, 9)), ((0, 9), (0, 0)), ((2, 2), (2, 4)), ((2, 4), (2, 2))))]
SECOND = [Line(1, BLUE, 56, WINDOW, (0, 0), (1, 1)), FilledPath(1, BLUE, BY_WINDING, WINDOW, (((3, 4), (3, 4)),))]
SVG = b"""<?xml version="1.0" encoding="UTF-8"?>
<svg xmlns="http://www.w3.org/2000/svg" width="25.4mm" height="12.5mm" viewBox="0 0 16256 8000">
<g fill="none" stroke-linecap="round" stroke-linejoin="round">
<defs>
<clipPath id="w160_7100_640_580"><rect x="160" y="7100" width="640" height="580"/></clipPath>
</defs>
<g id="sheet-1">
<path class="pen1" stroke="#0000ff" stroke-width="24" d="M0 7552l256 0L0 0M5 7994l0 0"/>
<path class="pen7" stroke="#ff8801" stroke-width="12800" clip-path="url(#w160_7100_640_580)" d="M-9 0L16256 8000"/>
<path class="pen1" stroke="#0000ff" stroke-width="24" fill="#0000ff" fill-rule="evenodd" d="M0 8000l9 0l-9 -9l0 9m2 -2l0 -2l0 2"/>
</g>
<g id="sheet-2">
<path class="pen1" stroke="#0000ff" stroke-width="56" clip-path="url(#w160_7100_640_580)" d="M0 8000l1 -1"/>
<path class="pen1" stroke="#0000ff" stroke-width="24" fill="#0000ff" clip-path="url(#w160_7100_640_580)" d="M3 7996l0 0"/>
</g>
</g></svg>
"""
# The ends of lines between elements, of which each may be a blank, or may be missing.
BETWEEN = SVG.count(b">\n") - 2
CONTENT = b"""0.004429133858 0 0 0.004429133858 0 0 cm
1 J
1 j
/OC /P1 BDC
q
0 0 1 RG
24 w
0 448 m
256 448 l
0 8000 l
5 6 m
5 6 l
S
Q
EMC
/OC /P7 BDC
q
160 320 640 580 re
W
n
1 0.533 0.004 RG
12800 w
-9 8000 m
16256 0 l
S
Q
EMC
/OC /P1 BDC
q
0 0 1 RG
24 w
0 0 1 rg
0 0 m
9 0 l
0 9 l
0 0 l
h
2 2 m
2 4 l
2 2 l
h
B*
Q
EMC
"""
OTHER = b"0.004429133858 0 0 0.004429133858 0 0 cm\n1 J\n1 j\n"
OTHER += b"/OC /P1 BDC\nq\n160 320 640 580 re\nW\nn\n0 0 1 RG\n56 w\n0 0 m\n1 1 l\nS\nQ\nEMC\n"
OTHER += b"/OC /P1 BDC\nq\n160 320 640 580 re\nW\nn\n0 0 1 RG\n24 w\n0 0 1 rg\n3 4 m\n3 4 l\nh\nB\nQ\nEMC\n"
OBJECTS = [
    b"<</Type/Catalog/Pages 3 0 R/OCProperties<</OCGs 4 0 R/D<</Order 4 0 R/ON 4 0 R>>>>>>",
    b"<</Producer(plotraster 0.3.0)/Title<FEFF0050D83DDE00>>>",
    b"<</Type/Pages/MediaBox[0 0 72 35.433]/Resources<</Properties<</P1 5 0 R/P7 6 0 R>>>>/Count 2/Kids[ 7 0 R 10 0 R]>>",
    b"[ 5 0 R 6 0 R]",
    b"<</Type/OCG/Name(Pen 1)>>",
    b"<</Type/OCG/Name(Pen 7)>>",
    b"<</Type/Page/Parent 3 0 R/Contents 8 0 R>>",
    b"<</Filter/FlateDecode/Length 9 0 R>>stream\nCONTENT\nendstream",
    b"LENGTH",
    b"<</Type/Page/Parent 3 0 R/Contents 11 0 R>>",
    b"<</Filter/FlateDecode/Length 12 0 R>>stream\nCONTENT\nendstream",
    b"LENGTH",
]


def with_streams(objects, contents):
    """Objects with the streams of contents, which are stored, and their lengths."""
    streams = [zlib.compress(content, 0) for content in contents]
    found = list(objects)
    for at, stream in zip((7, 10), streams):
        found[at] = found[at].replace(b"CONTENT", stream)
        found[at + 1] = found[at + 1].replace(b"LENGTH", b"%d" % len(stream))
    return found


def pdf_of(objects):
    """A document of these objects."""
    data, table = HEADERS[False], b"0000000000 65535 f \n"
    for number, text in enumerate(objects, 1):
        table += b"%010d 00000 n \n" % len(data)
        data += b"%d 0 obj\n%s\nendobj\n" % (number, text)
    count = len(objects) + 1
    end = b"xref\n0 %d\n%strailer\n<</Size %d/Root 1 0 R/Info 2 0 R>>\nstartxref\n%d\n%%%%EOF\n"
    return data + end % (count, table, count, len(data))


PDF = pdf_of(with_streams(OBJECTS, (CONTENT, OTHER)))


def test_svg():
    assert read_svg(SVG) == Document(1016, 500, [FIRST, SECOND])


def test_pdf():
    wanted = Document(1016, 500, [FIRST, SECOND], True, "P\N{GRINNING FACE}")
    assert read_pdf(PDF) == (wanted, "plotraster 0.3.0", [1, 7])


def test_nothing_drawn():
    """A page without lines, groups, layers and a title."""
    blank = re.sub(rb"<defs>.*</g>\n", b"", SVG, flags=re.S)
    assert read_svg(blank) == Document(1016, 500, [[]], False)
    pages = OBJECTS[2].replace(b"/P1 5 0 R/P7 6 0 R", b"").replace(b"2/Kids[ 7 0 R 10 0 R]", b"1/Kids[ 5 0 R]")
    page = OBJECTS[6].replace(b"8 0 R", b"6 0 R"), OBJECTS[7].replace(b"9 0 R", b"7 0 R"), OBJECTS[8]
    content = zlib.compress(CONTENT[:CONTENT.index(b"/OC")])
    page = [text.replace(b"CONTENT", content).replace(b"LENGTH", b"%d" % len(content)) for text in page]
    data = pdf_of([OBJECTS[0], b"<</Producer(plotraster 0.3.0)>>", pages, b"[]", *page])
    assert read_pdf(data) == (Document(1016, 500, [[]]), "plotraster 0.3.0", [])


@pytest.mark.parametrize("read, data", [(read_svg, SVG), (read_pdf, PDF)], ids=["svg", "pdf"])
def test_each_byte_counts(read, data):
    """Another byte, or one less, is no such document, or shows something else; but for blanks between elements."""
    whole, same = read(data), 0
    for at, byte in enumerate(data):
        for other in (bytes([byte ^ 1]), bytes([byte ^ 2]), b"0", b" ", b""):
            if other != data[at:at + 1]:
                try:
                    same += read(data[:at] + other + data[at + 1:]) == whole
                except Wrong:
                    pass
    assert same == (0 if data is PDF else 2 * BETWEEN)


@pytest.mark.parametrize("old, new", [
    (b'<g id="sheet-2">', b'<g id="sheet-3">'), (b"25.4mm", b"25.40mm"), (b"16256 8000", b"16256 8001"),
    (b"25.4mm", b"25.41mm"), (b'stroke-width="24"', b'stroke-width="23"'), (b'stroke-width="24"', b'stroke-width="024"'),
    (b"pen7", b"pen256"), (b"#ff8801", b"#FF8801"), (b"l256 0", b"l256 -0"), (b"l256 0", b"l256,0"), (b"M0 7552l", b"m0 7552l"),
    (b"L0 0M5 7994l0 0", b"L0 0M5 7994"), (b"M0 7552l", b"M0 7552m1 1l"), (b"<defs>", b"<defs><!-- -->"),
    (b' clip-path="url(#w160_7100_640_580)"', b""), (b'<rect x="160"', b'<rect x="161"'), (b'height="580"', b'height="580" rx="1"'),
    (b"</g></svg>\n", b"</g></svg>"), (b'<g id="sheet-1">', b'<g id="sheet-1" class="a">'), (b"</defs>", b"a</defs>"),
    (b'fill="none"', b'fill="red"'), (b"<path class", b"<path transform='scale(2)' class"),
    (b'fill="#0000ff"', b'fill="#0000fe"'), (b'fill="#0000ff" fill-rule', b"fill-rule"), (b"evenodd", b"nonzero"),
    (b' fill="#0000ff" clip-path="url(#w160_7100_640_580)"', b' clip-path="url(#w160_7100_640_580)" fill="#0000ff"'),
    (b'"24" fill', b'"25" fill'), (b"m2 -2l0 -2l0 2", b"m2 -2l0 -2l0 2z"), (b"m2 -2l0 -2l0 2", b"m2 -2"),
])
def test_wrong_svg(old, new):
    assert SVG.count(old) >= 1
    with pytest.raises(Wrong):
        read_svg(SVG.replace(old, new))


@pytest.mark.parametrize("old, new", [
    (b"/Count 2", b"/Count 3"), (b"72 35.433", b"72 35.43"), (b"(Pen 7)", b"(Pen 8)"), (b"/P7 6 0 R", b"/P7 5 0 R"),
    (b"/ON 4 0 R", b"/ON 4 0 R/OFF[]"), (b"/Parent 3 0 R", b"/Parent 1 0 R"), (b"FlateDecode", b"LZWDecode"),
    (b"[ 7 0 R 10 0 R]", b"[ 7 0 R]"), (b"[ 7 0 R 10 0 R]", b"[ 7 0 R 7 0 R]"), (b"FEFF", b"FFFE"), (b"FEFF0050D83DDE00", b"FEFF"),
    (b"plotraster 0.3.0", b"plotraster"), (b"<FEFF0050D83DDE00>", b"(P)"), (b"(Pen 1)", b"(Pen 01)"),
    (b"[ 5 0 R 6 0 R]", b"[ 6 0 R 5 0 R]"),
])
def test_wrong_objects(old, new):
    assert any(old in text for text in OBJECTS)
    with pytest.raises(Wrong):
        read_pdf(pdf_of(with_streams([text.replace(old, new) for text in OBJECTS], (CONTENT, OTHER))))


def test_wrong_number_of_objects():
    """One that nobody refers to, and one that is missing."""
    objects = with_streams(OBJECTS, (CONTENT, OTHER))
    for wrong in ([*objects, b"9"], objects[:-1]):
        with pytest.raises(Wrong):
            read_pdf(pdf_of(wrong))


@pytest.mark.parametrize("old, new", [
    (b"1 J\n", b""), (b"1 J\n", b"0 J\n"), (b"1 J\n", b"1 J\n1 J\n"), (b"0.004429133858 0 0", b"0.004429133859 0 0"),
    (b"24 w\n", b""), (b"24 w\n", b"23 w\n"), (b"24 w\n", b"24 w\n24 w\n"), (b"0 0 1 RG\n", b""), (b"0 0 1 RG", b"0 0 1 rg"),
    (b"0 0 1 RG", b"0 0 1.0 RG"), (b"1 0.533 0.004", b"1 0.534 0.004"), (b"q\n", b""), (b"Q\n", b""), (b"EMC\n", b""),
    (b"S\n", b""), (b"/P7 BDC", b"/P1 BDC"), (b"/P7 BDC", b"/P2 BDC"), (b"S\nQ\n", b"S\n9 9 m\n8 8 l\nS\nQ\n"),
    (b"S\n", b"s\n"), (b"W\n", b""), (b"W\n", b"W*\n"), (b"n\n", b""), (b"5 6 m\n", b"5 6 m\n5 6 m\n"), (b"5 6 l\n", b""),
    (b"0 448 m\n", b""), (b"0 448 m", b"-0 448 m"), (b"0 448 m", b"0 448.5 m"), (b"640 580 re", b"-640 580 re"),
    (b"160 320 640 580 re", b"0 0 16256 8000 re"), (b"S\nQ\n", b"S\nQ\nq\n"), (b"5 6 m\n5 6 l\n", b"5 6 m\n5 6 l\n" * 999),
    (b"h\nB*", b"B*"), (b"h\n2 2 m", b"2 2 m"), (b"h\n2 2 m", b"h\nh\n2 2 m"), (b"h\n2 2 m", b"h\n2 2 l"), (b"h\n2 2 m", b"h"),
    (b"2 2 m\n2 4 l\n2 2 l\nh\n", b"2 2 m\n2 4 l\nh\n"), (b"2 2 m\n", b"2 2 m\nh\n"), (b"h\nB*", b"h\n0 0 m\nB*"),
    (b"0 0 1 rg\n", b""), (b"0 0 1 rg\n", b"0 0 1 rg\n0 0 1 rg\n"), (b"0 0 1 rg", b"0 0.004 1 rg"), (b"B*", b"S"), (b"B*", b"f*"),
    (b"B*", b"B*\n0 0 m\n1 1 l\nB*"), (b"24 w\n0 0 1 rg", b"0 0 1 rg\n24 w"), (b"24 w\n0 0 1 rg", b"25 w\n0 0 1 rg"),
    (b"0 8000 l\n5 6 m", b"0 8000 l\n0 448 l\nh\n5 6 m"), (b"5 6 l\nS", b"5 6 l\nB"), (b"5 6 m\n5 6 l\n", b"5 6 m\n5 6 l\nh\n"),
])
def test_wrong_contents(old, new):
    assert CONTENT.count(old) >= 1
    with pytest.raises(Wrong):
        read_pdf(pdf_of(with_streams(OBJECTS, (CONTENT.replace(old, new), OTHER))))


# What the plain plotter says of documents

PLOT = b"PW0;PU0,0;PD100,50;PG;SP2;IW10,10,50,60;PD0,0;"
PAGE = {"width": "1000", "height": "500"}
ONE = b"pen 1 000000 width 24 from 0 0 to 1600 800\n"
TWO = b"pen 2 ff0000 width 24 in 160 160 800 960 from 1600 800 to 0 0\n"


@pytest.mark.parametrize("command, options, wanted", [
    ("svg", {}, ONE + TWO),
    ("pdf", {}, b"sheet 1\n" + ONE + TWO),
    ("svg", {"profile": "full", "sheet": "0"}, b"sheet 1\n" + ONE + b"sheet 2\n" + TWO),
    ("pdf", {"profile": "full", "sheet": "each"}, b"sheet 1\n" + ONE + b"sheet 2\n" + TWO),
    ("svg", {"profile": "full", "sheet": "2"}, TWO),
    ("pdf", {"profile": "full", "sheet": "9"}, b"sheet 1\n"),
    ("pdf", {"profile": "full", "sheet": "0", "pens": "2"}, b"sheet 1\nsheet 2\n" + TWO),
])
def test_listings(command, options, wanted):
    assert answer(command, {**PAGE, **options}, PLOT) == (0, b"page 1000 500\n" + wanted, "")


FILLS = b"SP2;PU0,0;RA2,1;IW0,0,9,9;PM0;PD2,0,0,2;PM2;FP1;IW-1,-1,-2,-2;FP;"
RED_AREA = b"pen 2 ff0000 area by odd counts from 0 0 to 32 0 from 32 0 to 32 16 from 32 16 to 0 16 from 0 16 to 0 0\n"
IN_A_WINDOW = b"pen 2 ff0000 area by winding in 0 0 144 144 from 0 0 to 32 0 from 32 0 to 0 32 from 0 32 to 0 0\n"


@pytest.mark.parametrize("command, before", [("svg", b""), ("pdf", b"sheet 1\n")])
def test_listings_of_areas(command, before):
    """An area has its rule, its window and its edges, and one whose window is empty is not there."""
    options = {**PAGE, "profile": "full", "sheet": "1"}
    assert answer(command, options, FILLS) == (0, b"page 1000 500\n" + before + RED_AREA + IN_A_WINDOW, "")
    assert answer(command, {**options, "pens": "1"}, FILLS) == (0, b"page 1000 500\n" + before, "")


def test_areas_and_labels():
    """The lines of a label are counted among areas, too."""
    plot = b"PU0,0;RA2,1;LB.\x03RA2,1;RA2,1;LB.\x03"
    found = answer("svg", {**PAGE, "profile": "full", "sheet": "1"}, plot).output.splitlines()
    assert found[-2:] == [b"label '.' of lines 1 to 2", b"label '.' of lines 4 to 5"]


def test_areas_on_the_page_around_them():
    """An area, its window and what it reaches by its edges are moved with the page."""
    plot = b"PU100,200;RA200,300;IW150,0,500,500;RA250,400;"
    wanted = [
        b"page 150 200",
        b"pen 1 000000 area by odd counts from 0 0 to 1600 0 from 1600 0 to 1600 1600 from 1600 1600 to 0 1600 from 0 1600 to 0 0",
        b"pen 1 000000 area by odd counts in 800 0 2400 3200 from 0 0 to 2400 0 from 2400 0 to 2400 3200"
        b" from 2400 3200 to 0 3200 from 0 3200 to 0 0",
    ]
    got = answer("svg", {**PAGE, "profile": "full", "sheet": "1", "fit": None, "margin": "0"}, plot)
    assert (got.output.splitlines(), got.error) == (wanted, "")


def test_files_of_documents():
    """The sheets of a PDF are in one file, whose title is the plot's name."""
    options = {**PAGE, "profile": "full", "sheet": "each", "output": "documents"}
    page = b"page 1000 500\n"
    whole = page + b"title plot.plt\nsheet 1\n" + ONE + b"sheet 2\n" + TWO
    assert answer("pdf", options, PLOT).output == b"plot.pdf %d\n%s\n" % (len(whole), whole)
    first, second = (page + lines for lines in (ONE, TWO))
    files = b"plot-1.svg %d\n%s\nplot-2.svg %d\n%s\n" % (len(first), first, len(second), second)
    assert answer("svg", options, PLOT).output == files


@pytest.mark.parametrize("options, text", [
    ({"form": "pdf", "dots": "100", "page": "plot", "width": "64"},
     messages.text("no-pixels")),
    ({"form": "SVG", "size": "16", "widths": "x"}, messages.text("widths", "x")),
    ({"form": "eps"}, "no such form of picture: use png, pdf, svg, dxf, ppm, pbm, pcl or marks, after --form or as the extension "
                      "of the output file"),
])
def test_mistakes(options, text):
    assert answer("draw", options, PLOT) == (2, b"", f"plotraster: {text}\n")
