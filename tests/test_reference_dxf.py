"""Checks the reader of DXF, and what the plain plotter of tests/reference has of such documents, without the program: on a document
that was written by hand, on examples that were computed by hand, and on the colours that ezdxf knows."""

import pytest
from ezdxf.colors import DXF_DEFAULT_COLORS

from reference.dxf import Drawn, Dxf, Layer, Written
from reference.dxf_colours import COLOURS, number_of
from reference.dxf_groups import bytes_of, characters_of, near, read_dxf
from reference.outputs import answer
from reference.reading import Wrong

HEAD = """0 SECTION 2 HEADER 9 $ACADVER 1 AC1009 9 $EXTMIN 10 0 20 0 30 0 9 $EXTMAX 10 25.4 20 12.5 30 0 9 $INSUNITS 70 4 0 ENDSEC
0 SECTION 2 TABLES 0 TABLE 2 LTYPE 70 1 0 LTYPE 2 CONTINUOUS 70 0 3 Solid_line 72 65 73 0 40 0 0 ENDTAB
0 TABLE 2 LAYER 70 32767 0 LAYER 2 0 70 0 62 7 6 CONTINUOUS
0 LAYER 2 S1_PEN_1 70 0 62 5 6 CONTINUOUS 0 LAYER 2 S1_PEN_30 70 0 62 30 6 CONTINUOUS 0 LAYER 2 S2_PEN_1 70 0 62 7 6 CONTINUOUS
0 ENDTAB 0 TABLE 2 STYLE 70 1 0 STYLE 2 STANDARD 70 0 40 0 41 1 50 0 71 0 42 1 3 txt 4 _ 0 ENDTAB 0 ENDSEC
0 SECTION 2 ENTITIES
"""
BODY = """0 LINE 8 S1_PEN_1 10 0.0015625 20 0 11 12.5 21 -7
0 POINT 8 S1_PEN_30 62 1 10 100 20 0.3333333
0 POLYLINE 8 S1_PEN_1 66 1 10 0 20 0 30 0 70 0 40 0.35 41 0.35
0 VERTEX 8 S1_PEN_1 10 0 20 0 0 VERTEX 8 S1_PEN_1 10 1 20 0 0 VERTEX 8 S1_PEN_1 10 0 20 0 0 SEQEND
0 POLYLINE 8 S2_PEN_1 62 5 66 1 10 0 20 0 30 0 70 1 40 0.0375 41 0.0375
0 VERTEX 8 S2_PEN_1 10 2 20 2 0 VERTEX 8 S2_PEN_1 10 1 20 0 0 SEQEND
0 TEXT 8 S2_PEN_1 10 1 20 2 40 2.7 1 A_\\U+00C4 50 359.9999 41 0.5 51 -12.25 7 STANDARD 71 4 72 5 11 3 21 4
0 TEXT 8 S2_PEN_1 10 1 20 2 40 0.0015625 1 . 50 0 41 0.0001 7 STANDARD 72 0
"""
FOOT = "0 ENDSEC 0 EOF\n"


def written_out(text):
    """The bytes of groups, of which a `_` is a blank, or nothing if it is by itself."""
    words = [(" " if "_" in it and "PEN" not in it else "_").join(it.split("_")) if it != "_" else "" for it in text.split()]
    return "".join(f"{word}\n" for word in words).encode()


DATA = written_out(HEAD + BODY + FOOT)
ONE, THIRTY, TWO = Layer(1, 1, 5), Layer(1, 30, 30), Layer(2, 1, 7)
SHOWN = Dxf(1016, 500, [ONE, THIRTY, TWO], [
    Drawn(ONE, 5, 0, False, ((15_625, 0), (125_000_000, -70_000_000))),
    Drawn(THIRTY, 1, 0, False, ((1_000_000_000, 3_333_333),)),
    Drawn(ONE, 5, 3_500_000, False, ((0, 0), (10_000_000, 0), (0, 0))),
    Drawn(TWO, 5, 375_000, True, ((20_000_000, 20_000_000), (10_000_000, 0))),
    Written(TWO, 7, "A \\U+00C4", (10_000_000, 20_000_000), 27_000_000, 3_599_999, 5_000, -122_500, True,
            (30_000_000, 40_000_000)),
    Written(TWO, 7, ".", (10_000_000, 20_000_000), 15_625, 0, 1, 0, False, None),
])


def test_reader_and_writer():
    assert read_dxf(DATA) == SHOWN and bytes_of(SHOWN) == DATA
    assert characters_of(SHOWN.texts(2)[0]) == "A Ä" and SHOWN.texts(1) == []


def test_each_byte_counts():
    """Another byte, or one less, is no such document, or shows something else."""
    for at, byte in enumerate(DATA):
        for other in {bytes([byte ^ 1]), bytes([byte ^ 2]), b"0", b" ", b""} - {DATA[at:at + 1]}:
            try:
                assert read_dxf(DATA[:at] + other + DATA[at + 1:]) != SHOWN, (at, other)
            except Wrong:
                pass


@pytest.mark.parametrize("old, new", [
    (b"\n25.4\n", b"\n25.40\n"), (b"\n25.4\n", b"\n25.41\n"), (b"-12.25", b"-85.0001"), (b"359.9999", b"360"),
    (b"\n0.5\n", b"\n0\n"),
    (b"S1_PEN_30\n70", b"S1_PEN_256\n70"), (b"S2_PEN_1\n70", b"S1_PEN_1\n70"), (b"S2_PEN_1\n70", b"PEN_1\n70"),
    (b"LINE\n8\nS1_PEN_1", b"LINE\n8\nS1_PEN_2"), (b"U+00C4", b"U+00c4"), (b"U+00C4", b"U+C4"), (b"A \\U", b"A %U"),
    (b"0\nSEQEND\n0\nPOLYLINE", b"0\nPOLYLINE"), (b"0.3333333", b"0.33333333"), (b"POINT", b"CIRCLE"), (b"0\nEOF\n", b"0\nEOF"),
    (b"62\n1\n", b"62\n30\n"), (b"0\nEOF\n", b"0\nEOF\n0\nEOF\n"), (b"\n0\nVERTEX", b"\n 0\nVERTEX"), (b"\n-7\n", b"\n-0\n"),
    (b"0\nVERTEX\n8\nS1_PEN_1\n10\n1\n20\n0\n0\nVERTEX\n8\nS1_PEN_1\n10\n0\n20\n0\n", b""), (b"\n0.35\n41", b"\n0.36\n41"),
])
def test_wrong_documents(old, new):
    assert DATA.count(old) >= 1
    with pytest.raises(Wrong):
        read_dxf(DATA.replace(old, new, 1))


def test_colours():
    """They are those of ezdxf, but for 7, which is black here."""
    assert len(COLOURS) == 255
    assert [int(bytes(colour).hex(), 16) for colour in COLOURS] == [
        0 if number == 7 else DXF_DEFAULT_COLORS[number] for number in range(1, 256)]
    for colour, number in (((0, 0, 0), 7), ((255, 255, 255), 255), ((255, 0, 0), 1), ((128, 128, 128), 8), ((1, 0, 0), 7),
                           ((255, 127, 0), 30), ((255, 128, 2), 30)):
        assert number_of(colour) == number


def test_near():
    """Only the last digits of angles may be others, and with them the length of a file."""
    wanted = b"a.dxf 20\n0\nTEXT\n50\n12.5\n51\n-3\n40\n2\n"
    got = wanted.replace(b"12.5", b"12.5001").replace(b"-3", b"-2.9998").replace(b" 20\n", b" 29\n")
    assert near(got, wanted) == wanted and near(got, got) == got
    assert near(b"50\n0\n", b"50\n359.9999\n") == b"50\n359.9999\n"
    for old, new in ((b"12.5", b"12.5003"), (b"-3", b"3"), (b"40\n2\n", b"40\n2.0001\n"), (b"a.dxf", b"b.dxf"), (b"12.5", b"x")):
        assert near(wanted.replace(old, new), wanted) != wanted


# ---- what a plot has

PAGE = {"width": "1016", "height": "500"}


def entities(plot, **options):
    """What a document has, each entity as its type and its groups."""
    lines = answer("dxf", {**PAGE, **options}, plot).output.decode().splitlines()
    found = []
    for code, value in zip(lines[::2], lines[1::2]):
        found += [[value]] if code == "0" else []
        found[-1] += [code, value] if code != "0" else []
    found = [" ".join(it) for it in found]
    return found[found.index("SECTION 2 ENTITIES") + 1:-2]


@pytest.mark.parametrize("plot, wanted", [
    (b"PU40,80;PD80,80;", ["LINE 8 PEN_1 10 1 20 2 11 2 21 2"]), (b"PU40,80;PD;", ["POINT 8 PEN_1 10 1 20 2"]),
    (b"PC1,255,0,0;PU40,80;PD;PC1,0,0,1;PU;PD;", ["POINT 8 PEN_1 10 1 20 2", "POINT 8 PEN_1 62 7 10 1 20 2"]),
    (b"PW0.5;PU0,0;PD40,0,40,40;", ["POLYLINE 8 PEN_1 66 1 10 0 20 0 30 0 70 0 40 0.5 41 0.5", "VERTEX 8 PEN_1 10 0 20 0",
                                    "VERTEX 8 PEN_1 10 1 20 0", "VERTEX 8 PEN_1 10 1 20 1", "SEQEND"]),
    (b"PU0,0;PD40,0;PW1;PD40,40;SP2;PD0,40;", ["LINE 8 PEN_1 10 0 20 0 11 1 21 0", "LINE 8 PEN_1 10 1 20 0 11 1 21 1",
                                               "LINE 8 PEN_2 10 1 20 1 11 0 21 1"]),
    # Windows: an end that is cut is rounded, a corner that is touched is a point, and what is outside is left out.
    (b"PU-30,0;PD-10,10;PD10,10;PD30,0;", [
        "POLYLINE 8 PEN_1 66 1 10 0 20 0 30 0 70 0 40 0.35 41 0.35", "VERTEX 8 PEN_1 10 0 20 0.25",
        "VERTEX 8 PEN_1 10 0.25 20 0.25", "VERTEX 8 PEN_1 10 0.75 20 0", "SEQEND"]),
    (b"PU-10,10;PD10,-10;", ["POINT 8 PEN_1 10 0 20 0"]), (b"PU-9,0;PD-9,90;PD-1,-99;", []),
    (b"PU-3,0;PD4,1;", ["LINE 8 PEN_1 10 0 20 0.0107143 11 0.1 21 0.025"]),
    (b"IW0,0,80,80;PU40,40;PD40,120,80,120;IW;PD120,120;", ["LINE 8 PEN_1 10 1 20 1 11 1 21 2",
                                                            "LINE 8 PEN_1 10 2 20 3 11 3 21 3"]),
])
def test_lines(plot, wanted):
    assert entities(b"PW0.35;" + plot) == wanted


SQUARE = ["POLYLINE 8 PEN_1 66 1 10 0 20 0 30 0 70 1 40 0.0375 41 0.0375", "VERTEX 8 PEN_1 10 1 20 1", "VERTEX 8 PEN_1 10 1 20 2",
          "VERTEX 8 PEN_1 10 2 20 2", "VERTEX 8 PEN_1 10 2 20 1", "SEQEND"]
OPEN = ["POLYLINE 8 PEN_1 66 1 10 0 20 0 30 0 70 0 40 0.0375 41 0.0375", "VERTEX 8 PEN_1 10 1 20 1", "VERTEX 8 PEN_1 10 1 20 2",
        "VERTEX 8 PEN_1 10 1.5 20 2", "SEQEND", "LINE 8 PEN_1 10 1.5 20 1 11 1 21 1"]


def test_areas():
    """An area is its outline, which is open where its window cuts it."""
    square = b"PU40,40;PM0;PD40,80,80,80,80,40,40,40;PM2;FP;"
    for before, wanted in ((b"", SQUARE), (b"IW0,0,60,500;", OPEN), (b"IW0,0,9,9;", [])):
        found = entities(before + square, profile="full")
        assert found == wanted


@pytest.mark.parametrize("before, wanted", [
    (b"", "10 1 20 2 40 2.7 1 ab 50 0 41 1.0555 7 STANDARD 72 5 11 6.7 21 2"),
    (b"DI0,1;", "10 1 20 2 40 2.7 1 ab 50 90 41 1.0555 7 STANDARD 72 5 11 1 21 7.7"),
    (b"SL1;", "10 1 20 2 40 2.7 1 ab 50 0 41 1.0555 51 45 7 STANDARD 72 5 11 6.7 21 2"),
    (b"SL-1;", "10 1 20 2 40 2.7 1 ab 50 0 41 1.0555 51 -45 7 STANDARD 72 5 11 6.7 21 2"),
    (b"SI.19,-.27;", "10 1 20 2 40 2.7 1 ab 50 0 41 1.0555 7 STANDARD 71 4 72 5 11 6.7 21 2"),
    (b"SI-.19,.27;", "10 1 20 2 40 2.7 1 ab 50 180 41 1.0555 7 STANDARD 71 4 72 5 11 -4.7 21 2"),
    (b"ES-1;", "10 1 20 2 40 2.7 1 ab 50 0 41 0.0001 7 STANDARD 72 0"),
    (b"DI0,-1;", "10 1 20 2 40 2.7 1 ab 50 270 41 1.0555 7 STANDARD 72 5 11 1 21 -3.7"),
])
def test_texts(before, wanted):
    """A letter is 1.9 mm wide and 2.7 mm high, and the next one 2.85 mm on."""
    assert entities(before + b"PU40,80;LBab\x03", profile="full") == [f"TEXT 8 PEN_1 {wanted}"]


def test_letters():
    text = "a%^\\~ Ä日\U0001f600\x7f"
    plot = b"SI.01,.01;PU40,80;LB" + text.encode() + b"\x03"
    found = read_dxf(answer("dxf", {**PAGE, "profile": "full", "characters": "utf-8"}, plot).output)
    assert found.texts() == ["a\\U+0025\\U+005E\\U+005C~ \\U+00C4\\U+65E5\\U+FFFD"]


LABELLED = b"SI.1,.1;PU0,0;PD40,0;SP2;LBI\x03SP1;PU40,0;PD40,40;SP0;LBI\x03SP1;PU40,40;PD0,40;"


def test_chains_and_labels():
    """A label breaks a chain, also one that is not drawn; one that no pen writes is none."""
    lines = ["LINE 8 PEN_1 10 0 20 0 11 1 21 0", *[
        "POLYLINE 8 PEN_1 66 1 10 0 20 0 30 0 70 0 40 0.35 41 0.35", "VERTEX 8 PEN_1 10 1 20 0", "VERTEX 8 PEN_1 10 1 20 1",
        "VERTEX 8 PEN_1 10 0 20 1", "SEQEND"]]
    whole = entities(LABELLED, profile="full")
    assert [it for it in whole if " PEN_2 " not in it] == lines
    assert len(whole) == 7 and entities(LABELLED, profile="full", pens="1") == lines


def test_sheets():
    """They have layers of their own if an instruction ends one; the colour of a layer is that of the pen's first line."""
    plot = b"SP2;PU0,0;PD40,0;PG;SP1;PD40,40;SP2;PC2,0,0,255;PD0,0;"
    for sheet, wanted in (("0", [(1, 2, 1), (2, 1, 7), (2, 2, 5)]), ("1", [(None, 2, 1)]), ("2", [(None, 1, 7), (None, 2, 5)])):
        found = read_dxf(answer("dxf", {**PAGE, "profile": "full", "sheet": sheet}, plot).output)
        assert found.layers == [Layer(*it) for it in wanted]
    core = read_dxf(answer("dxf", PAGE, plot).output)
    assert core.layers == [Layer(None, 1, 7), Layer(None, 2, 1)] and [it.colour for it in core.entities] == [1, 7, 5]
