"""Checks what the plain plotter of tests/reference has of labels, and the readers of PDF and SVG with labels, without the program:
on examples that were computed by hand, and on documents that were written by hand."""

import re
from fractions import Fraction

import pytest

from reference.full_plotter import after
from reference.geometry import Page
from reference.labels import Group, Row, Text, rows_moved
from reference.outputs import answer
from reference.pdf import read_pdf
from reference.pdf_fonts import characters_of_map, row_of
from reference.reading import Wrong
from reference.svg import read_svg
from reference.vectors import Document
from test_reference_vectors import CONTENT, FIRST, OBJECTS, OTHER, SECOND, SVG, pdf_of, with_streams

PAGE = Page(1000, 1000, 0, 0)
FULL = {"profile": "full", "width": "1000", "height": "500"}


def labels_of(plot):
    """Of each label its lines, each as its text and its three places."""
    return [[(row.text_of_svg(), *row[1:]) for row in rows] for rows in after(plot, PAGE).labels]


# A letter is 1,216 grains wide and 1,728 high; the next one is 1,824 on, and the next line 3,456 below.


@pytest.mark.parametrize("before, start, end, top", [
    (b"", (1600, 3200), (5248, 3200), (1600, 4928)),
    (b"DV1;", (1600, 4928), (1600, -1984), (2816, 4928)),
    (b"DV2;", (2816, 4928), (-832, 4928), (2816, 3200)),
    (b"DV3,1;", (2816, 3200), (2816, 10_112), (1600, 3200)),
    (b"DI0,1;", (1600, 3200), (1600, 6848), (-128, 3200)),
    (b"DI-1,0;", (1600, 3200), (-2048, 3200), (1600, 1472)),
    (b"DI0,1;DV1;", (-128, 3200), (6784, 3200), (-128, 4416)),
    (b"SL1;", (1600, 3200), (5248, 3200), (3328, 4928)),
    (b"ES.5;", (1600, 3200), (7072, 3200), (1600, 4928)),
    (b"ES-1;", (1600, 3200), (1600, 3200), (1600, 4928)),
    (b"SI-.1,.2;", (1600, 3200), (-320, 3200), (1600, 4480)),
    (b"LO5;", (80, 2336), (3728, 2336), (80, 4064)),
    (b"LO19;", (-2048, 608), (1600, 608), (-2048, 2336)),
    (b"LO5;DV1;", (1600, 4928), (1600, -1984), (2816, 4928)),
])
def test_places(before, start, end, top):
    assert labels_of(b"PU100,200;" + before + b"LBAB\x03") == [[("AB", start, end, top)]]


def test_lines():
    """A return separates parts, of which each is right-aligned by itself; other controls do not."""
    found = labels_of(b"PU100,200;LO7;LBA\rBCD\x03LO1;PU100,200;LBAB\nC\bD\tE\x03")
    assert [[(text, start) for text, start, *_ in rows] for rows in found] == [
        [("A", (384, 3200)), ("BCD", (-3264, 3200))],
        [("AB", (1600, 3200)), ("C", (5248, -256)), ("D", (5248, -256)), ("E", (16_192, -256))],
    ]
    assert [end for *_, end, _ in found[0]] == [(2208, 3200), (2208, 3200)]


@pytest.mark.parametrize("plot, wanted", [
    (b"LBa\x03SP0;LBb\x03SP2;LBc\x03", ["a", "c"]), (b"BLab\x03PB;LBc\x03PB", ["ab", "c", "ab"]), (b"SP0;BLa\x03PB;", []),
    (b"SM*;PU9,9;XT;LB \x03LB\x03", []), (b"PM;LBa\x03PM2;LB\r\n\x03", []), (b"CS33;LB{\x0e{\x0f\0}\x03", ["ä{ü"]),
    (b"LB \r\n a\x03", [" / a"]),
])
def test_which_labels(plot, wanted):
    assert ["/".join(row[0] for row in rows) for rows in labels_of(plot)] == wanted


def test_places_off_range():
    """They are cut; letters there would be refused."""
    (text, start, end, top), = labels_of(b"SI.005,.01;PU8388601,0;LBI         \r\x03")[0]
    assert (len(text), start, end, top) == (10, (134_217_616, 0), (134_217_712, 0), (134_217_616, 64))
    moved, = rows_moved([Row((65,), start, end, top)], 90, -134_217_736)
    assert moved == Row((65,), (134_217_706, -134_217_712), (134_217_712, -134_217_712), (134_217_706, -134_217_672))


@pytest.mark.parametrize("count, along, above, wanted", [
    (2, (3648, 0), (0, 1728), "3040 0 0 3072"), (2, (0, -6912), (1216, 0), "0 -5760 2161.778 0"),
    (16, (3, -3), (1, -1), "0.313 -0.313 1.778 -1.778"), (3, (1, -2), (0, 0), "0.556 -1.111 0 0"),
])
def test_matrices(count, along, above, wanted):
    """Halves of thousandths are rounded from 0."""
    row = Row((65,) * count, (7, -9), (7 + along[0], along[1] - 9), (7 + above[0], above[1] - 9))
    assert row.matrix() == (*map(Fraction, wanted.split()), 7, -9)


def test_characters():
    row = Row((65, 0xFFFD, 0xFFFE, 0xFFFF, 0x10000), *[(0, 0)] * 3)
    assert row.text_of_svg() == "A\ufffd\ufffd\ufffd\U00010000" and row.text_of_pdf() == "A\ufffd\ufffe\uffff\ufffd"


# ---- listings

PLOT = b"PW0;SI.1,.1;SP2;PU100,200;LBI\r\n I\x03PD100,200;SP1;PG;PU100,200;LBI\x03"


@pytest.mark.parametrize("command, options, wanted", [
    ("svg", {}, ["label 'I\\n I' of lines 0 to 6"]), ("svg", {"pens": "1"}, []),
    ("svg", {"pens": "1", "sheet": "2"}, ["label 'I' of lines 0 to 3"]),
    ("svg", {"sheet": "0"}, ["label 'I\\n I' of lines 0 to 6", "label 'I' of lines 0 to 3"]),
    ("pdf", {"sheet": "each"}, ["text 'I' at 1600 3200", "text ' I' at 1600 1920", "text 'I' at 1600 3200"]),
    ("pdf", {"sheet": "2", "fit": None, "margin": "0"}, ["text 'I' at -160 0"]),
])
def test_listings(command, options, wanted):
    """The letters are 640 grains wide and high, so that the matrix of each line has 1,600 and 1,137.778."""
    found = answer(command, {**FULL, **options}, PLOT).output.decode().replace("by 1600 0 0 568889/500", "at").splitlines()
    assert [it for it in found if it.startswith(("label", "text"))] == wanted


# ---- documents that were written by hand

TITLE = "<A>&\U00010000\nб"
ESCAPED = b"&lt;A&gt;&amp;\xf0\x90\x80\x80\n\xd0\xb1"
GROUP = b"<g><title>" + ESCAPED + b"</title>\n%b</g>\n"
PATH = re.search(rb'<path class="pen7".*\n', SVG)[0]
LABELLED = SVG.replace(PATH, GROUP % PATH)
WRITTEN = b"BT\n3 Tr\n1600 0 0 -0.5 -7 9 Tm\n/F0 1 Tf\n<4142> Tj\n/F4 1 Tf\n<31> Tj\n"
WRITTEN += b"0 0 2161.778 0 0 0 Tm\n/F4 1 Tf\n<3100> Tj\nET\n"
MAP = b"""/CIDInit /ProcSet findresource begin
12 dict begin
begincmap
/CMapName /F%d def
/CMapType 2 def
1 begincodespacerange
<00> <ff>
endcodespacerange
1 beginbfrange
<00> <ff> <%04x>
endbfrange
endcmap
CMapName currentdict /CMap defineresource pop
end
end
"""
FONT = b"<</Type/Font/Subtype/Type1/BaseFont/Courier/Encoding 13 0 R/ToUnicode %d 0 R>>"
FONTS = [
    b"<</Differences[0" + b"/a" * 256 + b"]>>",
    FONT % 15, b"<</Length %d>>stream\n%b\nendstream" % (len(MAP % (0, 0)), MAP % (0, 0)),
    FONT % 17, b"<</Length 18 0 R>>stream\n%b\nendstream" % (MAP % (4, 1024)), b"%d" % len(MAP % (4, 1024)),
]
NAMED = b"/Properties<</P1 5 0 R/P7 6 0 R>>/Font<</F0 14 0 R/F4 16 0 R>>"
WITH_FONTS = [text.replace(b"/Properties<</P1 5 0 R/P7 6 0 R>>", NAMED) for text in OBJECTS]


def pdf_with(contents=(CONTENT, OTHER + WRITTEN), fonts=tuple(FONTS), objects=tuple(WITH_FONTS)):
    return pdf_of([*with_streams(objects, contents), *fonts])


def test_groups():
    wanted = Document(1016, 500, [FIRST, SECOND], labels=(Group(1, 3, 4, TITLE),))
    assert read_svg(LABELLED) == wanted
    plain = LABELLED.replace(b'<g id="sheet-1">\n', b"").replace(b'</g>\n<g id="sheet-2">\n', b"")
    plain = plain.replace(b"</g>\n</g></svg>", b"</g></svg>")
    assert read_svg(plain) == wanted._replace(sheets=[FIRST + SECOND], are_numbered=False)


def test_texts():
    wanted = Text(2, "ABб", (1600, 0, 0, Fraction(-1, 2), -7, 9)), Text(2, "бЀ", (0, 0, Fraction("2161.778"), 0, 0, 0))
    assert read_pdf(pdf_with()).document == Document(1016, 500, [FIRST, SECOND], True, "P\N{GRINNING FACE}", wanted)


@pytest.mark.parametrize("old, new", [
    (b"&gt;", b">"), (b"&amp;", b"&#38;"), (b"&amp;", b"&"), (b"<title>", b"<title id='a'>"), (b"</title>\n", b"</title>"),
    (b"<g><title>", b"<g>\n<title>"), (b"<g><title>", b"<g id='a'><title>"), (PATH, b""), (ESCAPED, b""),
    (b"</title>\n", b"</title>\n<title>a</title>\n"), (b"</title>\n", b"</title>\na"), (b"<title>", b"<desc>a</desc><title>"),
    (b"<title>", b"<title><![CDATA[a]]>"), (b"&lt;A", b"&quot;A"), (b'd="M-9 0L16256 8000"', b'd="M-9 0L16256 8000&amp;"'),
    (b'stroke-width="12800"', b'stroke-width="24" fill="#ff8801"'),
])
def test_wrong_groups(old, new):
    assert LABELLED.count(old) == 1
    with pytest.raises(Wrong):
        read_svg(LABELLED.replace(old, new))


def test_each_byte_of_a_group_counts():
    whole, first = read_svg(LABELLED), LABELLED.index(b"<g><title>")
    for at in range(first, LABELLED.index(b"<path", first)):
        for other in (bytes([LABELLED[at] ^ 1]), b"0", b""):
            changed = LABELLED[:at] + other + LABELLED[at + 1:]
            try:
                assert changed == LABELLED or read_svg(changed) != whole, (at, other)
            except Wrong:
                pass


@pytest.mark.parametrize("old, new", [
    (b"BT\n", b""), (b"3 Tr\n", b""), (b"3 Tr\n", b"0 Tr\n"), (b"3 Tr\n", b"3 Tr\n3 Tr\n"), (b"ET\n", b""),
    (b"ET\n", b"ET\nBT\n3 Tr\nET\n"), (b"1600 0 0", b"1600.0 0 0"), (b"-0.5 ", b"-.5 "), (b"-0.5 ", b"-0 "),
    (b"-0.5 ", b"-0.5000 "), (b"-7 9 Tm", b"-7.5 9 Tm"),
    (b"2161.778", b"2161.7778"), (b"/F0 1 Tf\n", b""), (b"/F0 1 Tf", b"/F0 2 Tf"), (b"/F0 1 Tf", b"/F00 1 Tf"),
    (b"/F0 1 Tf", b"/F1 1 Tf"), (b"<4142> Tj\n", b""), (b"<4142>", b"<>"), (b"<4142>", b"<414>"), (b"<4142>", b"(AB)"),
    (b"<4142> Tj\n", b"<41> Tj\n<42> Tj\n"),
    (b"<4142> Tj\n", b"<41> Tj\n/F0 1 Tf\n<42> Tj\n"), (b"<3100> Tj\nET", b"<3100> Tj\n1 0 0 1 0 0 Tm\nET"), (b"BT\n", b"BT\nBT\n"),
    (b"ET\n", b"ET\n1 0 0 1 0 0 Tm\n"), (b"ET\n", b"ET\n/OC /P1 BDC\nq\n0 0 1 RG\n24 w\n0 0 m\n1 1 l\nS\nQ\nEMC\n"),
    (b"<3100> Tj\nET", b"<31> Tj\nT* ET"), (b"/F4 1 Tf\n<31> Tj\n0", b"/F0 1 Tf\n<31> Tj\n0"),
])
def test_wrong_texts(old, new):
    assert WRITTEN.count(old) == 1
    with pytest.raises(Wrong):
        read_pdf(pdf_with((CONTENT, OTHER + WRITTEN.replace(old, new))))


def test_each_byte_of_a_text_counts():
    whole = read_pdf(pdf_with())
    for at, byte in enumerate(WRITTEN):
        for other in {bytes([byte ^ 1]), b"0", b" ", b""} - {WRITTEN[at:at + 1]}:
            try:
                assert read_pdf(pdf_with((CONTENT, OTHER + WRITTEN[:at] + other + WRITTEN[at + 1:]))) != whole, (at, other)
            except Wrong:
                pass


def test_texts_at_wrong_places():
    """Before lines, in a layer, or on a page without lines."""
    begin = OTHER.index(b"/OC")
    for content in (OTHER[:begin] + WRITTEN + OTHER[begin:], OTHER.replace(b"EMC\n", WRITTEN + b"EMC\n"), OTHER[:begin] + WRITTEN):
        with pytest.raises(Wrong):
            read_pdf(pdf_with((CONTENT, content)))


@pytest.mark.parametrize("old, new", [
    (b"/Type1", b"/Type3"), (b"Courier", b"Helvetica"), (b"[0/a", b"[1/a"), (b"/a/a]", b"/a/b]"), (b"/a/a]", b"/a]"),
    (b"/Type/Font", b"/Type/XObject"), (b"/Encoding 13 0 R", b""), (b"/Encoding 13 0 R", b"/Encoding/WinAnsiEncoding"),
    (b"<</Length 18 0 R>>", b"<</Length 13 0 R>>"), (b"/F4 def", b"/F4"), (b"<0400>", b"<0500>"), (b"<0400>", b"<0401>"),
    (b"<00> <ff> <0400>", b"<00> <fe> <0400>"), (b"/ToUnicode 17 0 R", b"/ToUnicode 15 0 R"),
])
def test_wrong_fonts(old, new):
    assert any(old in text for text in FONTS)
    with pytest.raises(Wrong):
        read_pdf(pdf_with(fonts=[text.replace(old, new) for text in FONTS]))


@pytest.mark.parametrize("old, new", [
    (b"/F0 14 0 R/F4 16 0 R", b"/F4 16 0 R/F0 14 0 R"), (b"/F0 14 0 R", b""), (b"/F0 14 0 R/F4 16 0 R", b"/F0 14 0 R/F4 14 0 R"),
    (b"/F4 16 0 R", b"/F4 16 0 R/F5 16 0 R"), (b"/F0 14", b"/G0 14"), (b"/Font<</F0 14 0 R/F4 16 0 R>>", b""),
])
def test_wrong_names_of_fonts(old, new):
    assert NAMED.count(old) == 1
    with pytest.raises(Wrong):
        read_pdf(pdf_with(objects=[text.replace(NAMED, NAMED.replace(old, new)) for text in WITH_FONTS]))


def test_maps():
    """Ranges, lists and single characters have the same characters."""
    others = [
        b"2 beginbfrange\n<00> <7F> <0400>\n<80> <ff> <0480>\nendbfrange\n",
        b"1 beginbfrange\n<00> <fe> <0400>\nendbfrange\n1 beginbfchar\n<ff> <04FF>\nendbfchar\n",
        b"1 beginbfrange <00> <ff> [%b] endbfrange\n" % b" ".join(b"<%04x>" % (1024 + code) for code in range(256)),
    ]
    usual = (MAP % (4, 1024))[(MAP % (4, 1024)).index(b"1 beginbfrange"):(MAP % (4, 1024)).index(b"endcmap")]
    for other in (usual, *others):
        characters = characters_of_map((MAP % (4, 1024)).replace(usual, other))
        assert [characters[code] for code in range(256)] == row_of(4)


@pytest.mark.parametrize("old, new", [
    (b"<00> <ff>\nend", b"<0000> <ffff>\nend"), (b"<00> <ff>\nend", b"<00> <7f>\nend"), (b"1 beginbf", b"2 beginbf"),
    (b"endbfrange", b"endbfchar"), (b"endcmap\n", b""), (b"/CMapType 2", b"/CMapType 1"), (b"<0400>", b"<0400>x"),
    (b"<0400>", b"<0420>"), (b"<0400>", b"<d800>"), (b"<0400>", b"<04000400>"), (b"endbfrange", b"<00> <01> <0400>\nendbfrange"),
])
def test_wrong_maps(old, new):
    with pytest.raises(Wrong):
        characters_of_map((MAP % (4, 1024)).replace(old, new))
