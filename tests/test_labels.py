"""The texts of labels in PDF, SVG and DXF: other programs find them, where their letters are drawn, and read such documents without
a warning."""

import math
import re
import subprocess
import zlib
from xml.etree import ElementTree

import pytest

from cad_readers import said_of_dxf, texts_by_ezdxf
from comparing import difference, differs
from document_runs import LINE, SECONDS, SMALL, drawn, filtered
from reference.command_line import VECTORS
from reference.dxf_groups import characters_of, read_dxf
from reference.labels import lines_of_texts
from reference.pdf import read_pdf
from reference.random_labels import CHARACTERS, MARKUP
from reference.random_plots import Case
from reference.svg import read_svg
from shared import assert_nothing, need, read_bytes, run, write
from vector_pictures import READERS_OF_PDF, READERS_OF_SVG, said_of_pdf, said_of_svg

FULL = ["--profile=full", *SMALL, "--sheet=1"]
UTF_8 = [*FULL, "--characters=utf-8"]
LARGE, SMALLEST = b"SI.25,.35;", b"SI.0003,.0003;"
# What a document has if it has texts.
MARKS_OF_TEXTS = (b"/Font", b"<title>", b"\nTEXT\n")
GROUP = re.compile(rb"<g><title>[^<]*</title>\n((?:<path [^<]*/>\n)+)</g>\n")
# Of 16 units, of which 1,016 are 72 points.
POINTS_OF_A_GRAIN = 72 / 1016 / 16
# How far the box of a word may end within its strokes, and beyond them, in points: a letter has a space after it.
WITHIN, BEYOND = 0.5, 8


@pytest.fixture(autouse=True)
def readers(pytestconfig):
    need(pytestconfig, "pdftotext", "ezdxf", *READERS_OF_PDF, *READERS_OF_SVG)


def labels_of(texts, before=LARGE, step=250):
    """A plot with a label for each text, one below the other."""
    return before + b"".join(b"PU200,%d;LB%b\x03" % (2800 - step * at, text.encode()) for at, text in enumerate(texts))


def by_poppler(data, *words):
    """The lines of text that pdftotext finds."""
    found = filtered(["pdftotext", *(words or ["-raw"]), "-enc", "UTF-8", "-", "-"], data)
    return [line for line in found.decode().replace("\f", "\n").split("\n") if line]


def by_mupdf(data, folder):
    """The lines of text that mutool finds."""
    write(str(folder / "text.pdf"), data)
    found = subprocess.run(["mutool", "draw", "-q", "-F", "text", folder / "text.pdf"], capture_output=True, timeout=SECONDS)
    return [line.rstrip() for line in found.stdout.decode().replace("\f", "\n").split("\n") if line.strip()]


def documents(program, words, plot):
    """What the PDF and the SVG of a plot have."""
    return read_pdf(drawn(program, ["pdf", *words], plot)).document, read_svg(drawn(program, ["svg", *words], plot))


def texts_in(program, words, plot, sheet=1):
    """The texts of a sheet's labels; a PDF and a DXF have them as the lines of those of the SVG."""
    pdf, svg = documents(program, words, plot)
    dxf = read_dxf(drawn(program, ["dxf", *words], plot))
    number = sheet if svg.are_numbered else None
    assert lines_of_texts(pdf.texts(sheet)) == lines_of_texts(svg.texts(sheet)) == list(map(characters_of, dxf.texts(number)))
    return svg.texts(sheet)


# ---- what other programs find


@pytest.mark.parametrize("words, before, texts", [
    (UTF_8, b"", ["Pump station 3", "Größe: 10 µm", "Ωμέγα", "Насос № 5 ёж", "αβΓ and Ж", "½ of 3 × 4"]),
    (FULL, b"", ["Valve 12", "(a) [b] {c} #1", "x = 3.5 mm", "50 % & more"]),
], ids=["utf-8", "ascii"])
def test_texts(program, tmp_path, words, before, texts):
    """Texts of a line each, from top to bottom."""
    data = drawn(program, ["pdf", *words], labels_of(texts, LARGE + before))
    assert by_poppler(data) == by_mupdf(data, tmp_path) == texts
    assert texts_in(program, words, labels_of(texts, before)) == texts


@pytest.mark.parametrize("before, text, wanted", [
    (b"CS33;", b"Gr|~e {hnlich", "Größe ähnlich"), (b"CS7;", b"PE", "Åé"), (b"SD1,341;", b"\xe0\xe1\xe3\xea", "αßπΩ"),
    (b"SD1,14;", b"caf\xe9", "café"), (b"SD1,629;", b"10 \x80", "10 €"), (b"CA33;", b"[\x0e[]\x0f] {", "[ÄÜ] {"),
    (b"CS4;", b"8", "8"), (b"CA39;SA;", b"#@", "§@"),
])
def test_sets_of_characters(program, tmp_path, before, text, wanted):
    """Each code point is what the plot's set of characters has for a byte."""
    plot = LARGE + before + b"PU200,2000;LB" + text + b"\x03"
    data = drawn(program, ["pdf", *FULL], plot)
    assert texts_in(program, FULL, plot) == by_poppler(data) == by_mupdf(data, tmp_path) == [wanted]


@pytest.mark.parametrize("name, wanted", [("utf-8", "é["), ("latin-1", "Ã©["), ("pc-8", "⌐["), ("roman-8", "ûˋ[")])
def test_sets_of_the_user(program, name, wanted):
    assert texts_in(program, [*FULL, f"--characters={name}"], LARGE + b"CS33;PU200,2000;LB\xc3\xa9[\x03") == [wanted]


@pytest.mark.parametrize("text, wanted", [
    (b"one\r\ntwo three\r\n\r\nfour", ["one", "two three", "four"]), (b"one\n\r two", ["one", " two"]),
    (b"a\rb\nc\bd\te", list("abcde")), (b"\r\n\t\ba\x0eb\x0fc\0d\r", ["abcd"]), (b" \r\na", [" ", "a"]), (b"a\n\n\n ", ["a", " "]),
])
def test_lines(program, text, wanted):
    """Printed characters one after another are a line, which a return, a line feed, a back or a tab ends."""
    assert texts_in(program, FULL, LARGE + b"PU900,2000;LB" + text + b"\x03") == ["\n".join(wanted)]


def test_lines_found(program, tmp_path):
    texts = ["Pump station", "Room 12, north", "3 kW"]
    data = drawn(program, ["pdf", *FULL], LARGE + b"PU900,2000;LB" + "\r\n".join(texts).encode() + b"\x03")
    assert by_poppler(data) == by_mupdf(data, tmp_path) == texts


@pytest.mark.parametrize("before", [
    b"DI0,1;", b"DI-1,0;", b"DI0,-1;", b"RO90;", b"RO180;", b"RO270;", b"DV1;", b"DV2;", b"DV3;", b"DI0,1;DV1,1;", b"DI1,1;",
    b"DI-3,4;", b"DR1,-1;", b"SL.5;", b"SL-1;DI0,1;", b"SI-.15,.2;", b"SI.15,-.2;", b"SI-.15,-.2;", b"ES.5;", b"ES1,1;",
    b"LO5;", b"LO19;", b"DI0,1;LO5;", b"SD3,9,4,23;SI;", b"SR5,7;",
])
def test_other_directions(program, tmp_path, before):
    """A label is found whichever way it runs. Poppler gives letters on a slope, and mirrored ones, by themselves."""
    plot = b"SI.15,.2;" + before + b"PU1500,1500;LBStation7\x03"
    data = drawn(program, ["pdf", *FULL], plot)
    assert texts_in(program, FULL, plot) == by_mupdf(data, tmp_path) == ["".join(by_poppler(data))] == ["Station7"]


def boxes_of_words(data):
    """The boxes of words by their texts, as pdftotext has them: left, lower, right and upper ends in points."""
    page = ElementTree.fromstring(filtered(["pdftotext", "-bbox", "-", "-"], data)).find(".//{*}page")
    height = float(page.get("height"))
    for word in page.iterfind("{*}word"):
        left, top, right, bottom = (float(word.get(name)) for name in ("xMin", "yMin", "xMax", "yMax"))
        yield word.text, (left, height - bottom, right, height - top)


def boxes_of_labels(svg):
    """The boxes of the strokes of labels, in points."""
    for label in svg.labels:
        ends = [end for line in svg.sheets[label.sheet - 1][label.first:label.after] for end in (line.a, line.b)]
        x, y = ([POINTS_OF_A_GRAIN * number for number in numbers] for numbers in zip(*ends))
        yield label.text, (min(x), min(y), max(x), max(y))


PLACED = [
    (b"", b"300,2700"), (b"DI0,1;", b"700,500"), (b"DI-1,0;", b"1900,2500"), (b"DI0,-1;", b"1100,2300"), (b"DV1;", b"1500,2000"),
    (b"DV2;", b"2700,1700"), (b"DV3;", b"2100,300"), (b"LO5;", b"3000,2800"), (b"LO18;", b"3000,1200"), (b"SL.3;", b"2500,800"),
    (b"SI.1,.15;", b"2500,600"), (b"ES.5;", b"2500,2000"), (b"SI.3,.2;", b"2500,300"),
]


@pytest.mark.parametrize("degrees", [0, 90, 180, 270])
def test_boxes(program, degrees):
    """A word is where the strokes of its letters are, also on a page that is turned."""
    words = [*FULL, f"--rotate={degrees}"]
    texts = ["W%s" % ("abcdefghijklmnopq"[at] * 3) for at in range(len(PLACED))]
    plot = b"".join(b"DF;SI.15,.2;%bPU%b;LB%b\x03" % (*it, text.encode()) for it, text in zip(PLACED, texts))
    boxes = dict(boxes_of_words(drawn(program, ["pdf", *words], plot)))
    strokes = dict(boxes_of_labels(read_svg(drawn(program, ["svg", *words], plot))))
    assert list(strokes) == texts and set(boxes) == set(texts)
    for text, own in strokes.items():
        low = [inner - outer for inner, outer in zip(own[:2], boxes[text][:2])]
        high = [outer - inner for inner, outer in zip(own[2:], boxes[text][2:])]
        assert all(-WITHIN <= by <= BEYOND for by in (*low, *high)), (text, own, boxes[text])


def test_boxes_of_a_fitted_page(program):
    """Labels move with their strokes."""
    plot = LARGE + b"PU900,1200;LBStation\x03PU200,100;LBWard\x03"
    words = ["--profile=full", "--sheet=1", "--left=5000", "--below=700", "--fit", "--margin=3"]
    boxes = dict(boxes_of_words(drawn(program, ["pdf", *words], plot)))
    for text, own in boxes_of_labels(read_svg(drawn(program, ["svg", *words], plot))):
        assert all(abs(a - b) <= BEYOND for a, b in zip(own, boxes[text])), (text, own, boxes[text])


def test_pdfgrep(program, tmp_path, pytestconfig):
    """A search by words, as users make it."""
    need(pytestconfig, "pdfgrep")
    plot = labels_of(["Pump 7", "Насос"]) + b"PG;PU200,500;LBValve\x03"
    write(str(tmp_path / "plan.pdf"), drawn(program, ["pdf", "--profile=full", "--sheet=0", "--characters=utf-8"], plot))
    for pattern, wanted in (("Pump", b"1:Pump 7\n"), ("Насос", "1:Насос\n".encode()), ("Val?ve", b"2:Valve\n")):
        done = subprocess.run(["pdfgrep", "-n", pattern, tmp_path / "plan.pdf"], capture_output=True, timeout=SECONDS)
        assert (done.returncode, done.stdout) == (0, wanted)


# ---- which labels are there


@pytest.mark.parametrize("plot, wanted", [
    (b"BLkept\x03PB;LBread\x03PB;", ["kept", "read", "kept"]), (b"BLa\r\nb\x03;PU0,500;PB", ["a\nb"]),
    (b"SP0;LBno\x03SP1;LByes\x03", ["yes"]), (b"PM0;LBno\x03BLkept\x03PB;PM2;LByes\x03PB;", ["yes", "kept"]),
    (b"LB  \x03LB\r\n\x03LB\x03LB \x01\x03", []), (b"SM*;PU500,500;PD600,600;SM;LByes\x03", ["yes"]),
    (b"XT;YT;LBa\x03EA9,9;", ["a"]), (b"PU-9000,-9000;LByes\x03", ["yes"]),
    (b"IW-99,-99,-90,-90;LBno\x03IW;LByes\x03", ["yes"]), (b"IW100,100,200,200;LByes\x03", ["yes"]),
    (b"PU60000,0;LByes\x03", ["yes"]), (b"DT$;LBa\x03b$LBc$", ["ab", "c"]), (b"LBopen", ["open"]), (b"DT$,0;LBa$LB$", ["a$", "$"]),
    (b"PM0;PD9,9;LBno\x03PM2;EP;FP;LByes\x03", ["yes"]),
])
def test_which_labels(program, plot, wanted):
    """What an LB or a PB draws is a label, whether it is in its window or on the page or not."""
    assert texts_in(program, FULL, LARGE + b"PU500,900;" + plot) == wanted


def test_pens(program):
    """Labels of pens that are not selected are not there."""
    plot = LARGE + b"PU500,500;SP1;LBone\x03SP2;LBtwo\x03SP3;LBthree\x03"
    for pens, wanted in (("1,3", ["one", "three"]), ("2", ["two"]), ("4-9", [])):
        assert texts_in(program, [*FULL, f"--pens={pens}"], plot) == wanted
        for command in VECTORS:
            data = drawn(program, [command, *FULL, f"--pens={pens}"], plot)
            assert any(mark in data for mark in MARKS_OF_TEXTS) == bool(wanted)


SHEETS = LARGE + b"PU500,500;LBfirst\x03PG;LBsecond\x03LB 2\x03PG;PU9,9;PD99,99;PG;LBfourth\x03"


@pytest.mark.parametrize("sheet, wanted", [
    ("0", [["first"], ["second", " 2"], [], ["fourth"]]), ("1", [["first"]]), ("2", [["second", " 2"]]), ("3", [[]]), ("5", [[]]),
])
def test_sheets(program, sheet, wanted):
    """A label belongs to the sheet of its strokes."""
    words = ["--profile=full", *SMALL, f"--sheet={sheet}"]
    assert [texts_in(program, words, SHEETS, number) for number in range(1, len(wanted) + 1)] == wanted


def test_each_sheet(program, tmp_path):
    """Pages and files have their own labels."""
    write(str(tmp_path / "four.plt"), SHEETS)
    (tmp_path / "out").mkdir()
    for command in VECTORS:
        words = [command, "--profile=full", *SMALL, "--sheet=each", "-o", "out", "four.plt"]
        run(program, words, SECONDS, cwd=tmp_path, check=True)
    data = read_bytes(tmp_path / "out" / "four.pdf")
    for number, wanted in enumerate((["first"], ["second", " 2"], [], ["fourth"]), 1):
        assert by_poppler(data, "-raw", "-f", str(number), "-l", str(number)) == (["second 2"] if number == 2 else wanted)
        assert read_svg(read_bytes(tmp_path / "out" / f"four-{number}.svg")).texts() == wanted


def test_draw(program, tmp_path):
    """A preview has labels, since it is in the profile full."""
    write(str(tmp_path / "plan.plt"), LARGE + b"LBPump\x03")
    for name in ("plan.pdf", "plan.svg"):
        run(program, ["draw", "-o", name, "plan.plt"], SECONDS, cwd=tmp_path, check=True)
    assert read_svg(read_bytes(tmp_path / "plan.svg")).texts() == ["Pump"]
    assert by_poppler(read_bytes(tmp_path / "plan.pdf")) == by_mupdf(read_bytes(tmp_path / "plan.pdf"), tmp_path) == ["Pump"]


def test_labels_as_strokes(program):
    """A DXF has labels as lines, if they are asked for so, and is that of the plain plotter."""
    plot, words = SHEETS + LINES, ["--profile=full", *SMALL, "--sheet=0"]
    as_texts, as_strokes = (read_dxf(drawn(program, ["dxf", *words, *more], plot)) for more in ([], ["--labels=strokes"]))
    assert [as_texts.texts(sheet) for sheet in (1, 2, 3, 4)] == [["first"], ["second", " 2"], [], ["fourth"]]
    assert drawn(program, ["dxf", *words, "--labels", "text"], plot) == drawn(program, ["dxf", *words], plot)
    assert as_strokes == as_strokes.without_texts() and as_strokes.layers == as_texts.layers
    assert len(as_strokes.entities) > 4 * len(as_texts.without_texts().entities)
    case = Case("dxf", {"profile": "full", "width": "4000", "height": "3000", "sheet": "0", "labels": "strokes"}, plot)
    assert not differs(program, case), difference("labels as strokes", program, case)


def test_core_has_none(program):
    for command in VECTORS:
        data = drawn(program, [command, *SMALL], b"PU500,500;LBPump\x03")
        assert not any(mark in data for mark in MARKS_OF_TEXTS)
    assert [found.labels for found in documents(program, SMALL, b"LBPump\x03")] == [(), ()]


@pytest.mark.parametrize("hidden", [b"SP0;LBa\x03SP1;", b"SP9;LBa\x03SP1;", b"LB \x03PU0,0;", b"PM0;LBa\x03PM2;", b"BLa\x03"])
def test_documents_without_labels(program, hidden):
    """They are the same as if the plot had none."""
    for command in VECTORS:
        words = [command, *FULL, "--pens=1-8"]
        assert drawn(program, words, hidden + LINE) == drawn(program, words, LINE)


LINES = b"PU9,9;PD99,99;PU500,500;"


def contents_of_page(pdf):
    """The operators of the one page of a PDF."""
    found = re.findall(rb"FlateDecode[^>]*>>stream\n(.*?)\nendstream", pdf, re.S)
    page, = (it for it in map(zlib.decompress, found) if b" cm\n" in it)
    return page


@pytest.mark.parametrize("plot, wanted, runs", [
    (LINES + b"LBI\x03PD9,9;PD5,5;", "p(p)p", 1), (b"LBI\x03LBI\x03PU9,9;PD5,5;", "(p)(p)p", 1),
    (LINES + b"SP0;LBI\x03SP1;PU5,5;PD9,9;", "p", 1),
    (LINES + b"LBI\x03IW-9,-9,-8,-8;LBI\x03IW;LBI\x03", "p(p)(p)", 1), (b"SI.01,.01;LB" + b"I" * 400 + b"\x03", "(pp)", 2),
    (LINES + b"LBI\r\nI\x03SP2;PD9,9;", "p(p)p", 2), (b"SM*;PU9,9;PU99,99;SM;LBI\x03", "p(p)", 1),
])
def test_paths_of_groups(program, plot, wanted, runs):
    """A label has a group of its own paths, even if the lines before and after it look the same; in a PDF these are one run."""
    data = drawn(program, ["svg", *FULL], plot)
    marks = {b"<path ": "p", b"<g><title>": "(", b"</g>": ")"}
    assert "".join(marks[it] for it in re.findall(b"<path |<g><title>|</g>", data)) == wanted + ")"
    page = contents_of_page(drawn(program, ["pdf", *FULL], plot))
    assert page.count(b" BDC\n") == page.count(b"S\nQ\nEMC\n") == runs


# ---- the same as in the plain plotter


SLOPES = b"".join(b"PU2000,1500;DI%.4f,%.4f;LBValves 12 and 13\x03" % (math.cos(at), math.sin(at)) for at in range(80))
SPACES = b" " * 120 + b"\r\x03"


@pytest.mark.parametrize("plot, options", [
    (SLOPES, {}), (b"DV1;LO5;SL.2;" + SLOPES, {}), (b"SR2,3;IP900,0,0,700;" + SLOPES, {}), (b"ES.3,.1;DV3;" + SLOPES, {}),
    (b"SI.01,.02;PU65520,9;LBI" + SPACES, {}), (b"SI.01,.02;PU65520,9;LBI" + SPACES, {"fit": None, "margin": "0"}),
    (b"SI.01,.02;DI0,-1;PU-9,-65520;LBI" + SPACES, {"fit": None}), (b"SI.01,.02;ES100;PU-9,-9;LBI" + SPACES, {"fit": None}),
    (b"SI.01,.02;ES100;DI0,1;PU-9,-9;LBI" + SPACES, {"fit": None}), (b"PU65520,9;PD;PU-9,9;LBI\x03", {"fit": None}),
    (b"".join(b"LO%d;PU2000,1500;LBa\rbcd\r\nef\tg\b\bh\x03" % it for it in (*range(1, 10), *range(11, 20))), {}),
    (b"".join(b"LO%d;DV%d,1;PU2000,1500;LBa\rbcd\r\nef\tg\b\bh\x03" % (it, it % 4) for it in range(1, 10)), {"left": "99"}),
    (b"".join(b"RO%d;DR1,2;PU900,900;LBab\r\nc\x03" % turn for turn in (0, 90, 180, 270)), {"below": "500"}),
])
def test_same_as_in_the_reference(program, plot, options):
    """Halves of thousandths, places that are cut, also after they are moved, and origins of all parts and paths."""
    page = {"profile": "full", "sheet": "0", "width": "4000", "height": "3000"}
    cases = [Case(command, {**page, **options}, plot) for command in VECTORS]
    assert_nothing(difference(case.form, program, case) for case in cases if differs(program, case))


# ---- documents of any labels


HOSTILE = [
    *(text.decode() for text in MARKUP), "a&b<c>d", "\\(\\", "())", "]]>]]>", "<script>", "&#65;", "</title></g>", "<title>",
    "PD0,0;", "%PDF", "Tj ET Q", ">> Tj", "/F0 1 Tf", *CHARACTERS, CHARACTERS, "".join(text.decode() for text in 5 * MARKUP),
]


def test_hostile_labels(program, tmp_path):
    """Nobody finds anything wrong, whatever a label has, and each is what its bytes are."""
    texts = [text for text in HOSTILE if text.strip("\u00a0")]
    plot = b"SI.1,.15;" + b"".join(
        b"PU%d,%d;LB%b\x03" % (200 + at % 9 * 400, 2800 - at // 9 * 150, text.encode()) for at, text in enumerate(texts))
    pdf, svg, dxf = (drawn(program, [command, *UTF_8], plot) for command in VECTORS)
    said = [*said_of_pdf(pdf, tmp_path / "hostile.pdf"), *said_of_svg(svg), *said_of_dxf(dxf)]
    assert_nothing(said)
    assert [characters_of(it) for it in read_dxf(dxf).texts()] == lines_of_texts(texts)
    assert texts_by_ezdxf(dxf) == lines_of_texts(texts)
    assert read_svg(svg).texts() == [re.sub("[\ufffe\uffff]", "\ufffd", text) for text in texts]
    assert read_pdf(pdf).document.texts() == [re.sub("[\U00010000-\U0010ffff]", "\ufffd", text) for text in texts]


@pytest.mark.parametrize("text", [b"a\rb\nc\bd\te\x0ef\x0fg", bytes(range(4, 256)), b"\xc3\xbc\xff\xc0\x80", b"\xed\xa0\x80x"],
                         ids=["controls", "all", "cut", "surrogate"])
def test_bytes_of_labels(program, tmp_path, text):
    """Any bytes in any set, and with settings that make letters of no size, or that put all of them into one place."""
    before = (b"", b"CS7;", b"SD1,341;", b"ES-1;", b"ES-2;", b"SI.00005,.00005;", b"SI.01,.01;SL300;", b"SI-.3,3;", b"DV3,1;LO19;")
    for words in (FULL, UTF_8):
        plot = b"".join(b"DF;%bPU0,0;LB%b\x03" % (settings, text) for settings in before)
        pdf, svg, dxf = (drawn(program, [command, *words], plot) for command in VECTORS)
        said = [*said_of_pdf(pdf, tmp_path / "bytes.pdf"), *said_of_svg(svg), *said_of_dxf(dxf)]
        assert_nothing(said)
        assert len(read_svg(svg).texts()) == len(before)


SEEN = LARGE + b"PU200,2000;LBPump <7>\x03SP2;PD900,900;DI0,1;LBab\r\ncd\x03PD;LBe\x03"


def test_groups_are_not_seen(program):
    """The picture of an SVG is that of its paths without groups."""
    data = drawn(program, ["svg", *FULL], SEEN)
    plain = GROUP.sub(rb"\1", data)
    assert data.count(b"<title>") == 3 and plain.count(b"<title>") == 0
    whole, other = (filtered(["rsvg-convert", "-d", "150", "-p", "150"], it) for it in (data, plain))
    assert whole == other


def test_texts_are_not_seen(program, tmp_path):
    """The picture of a PDF is that of its lines, and its texts by themselves are a white page."""
    write(str(tmp_path / "plan.pdf"), drawn(program, ["pdf", *FULL], SEEN))
    words = ["gs", "-q", "-dSAFER", "-dBATCH", "-dNOPAUSE", "-sDEVICE=ppmraw", "-r100", "-sOutputFile=-"]
    without = ([], ["-dFILTERTEXT"], ["-dFILTERVECTOR"])
    whole, lines, texts = (filtered([*words, *more, tmp_path / "plan.pdf"], b"") for more in without)
    assert whole == lines and len(texts) == len(whole)
    assert set(texts.split(b"\n255\n", 1)[1]) == {255} < set(whole)


@pytest.mark.parametrize("plot, count", [
    (b"".join(b"PU%d,%d;LBP%d\x03" % (at % 100 * 40, at // 100 * 10, at) for at in range(20_000)), 20_000),
    (b"LB" + b"lot " * 25_000 + b"\x03", 1), (b"LB" + b"a\r" * 50_000 + b"\x03", 1),
], ids=["labels", "letters", "lines"])
def test_many(program, plot, count):
    """Many labels, or one of many letters or lines, take little time."""
    for command in VECTORS:
        done = run(program, [command, *FULL], 20, input=SMALLEST + plot)
        assert (done.returncode, done.stderr) == (0, b"")
    assert len(texts_in(program, FULL, SMALLEST + plot)) == count
