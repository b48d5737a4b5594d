"""`draw` writes what the other commands write, with other defaults."""

import os

import pytest
from reference import messages
from reference.command_line import DOCUMENTS, VECTORS
from reference.outputs import FORMS
from shared import EXAMPLES, read_bytes, run
from terminals import with_terminal

SECONDS = 60
# What the defaults of draw are in words of the other commands.
WHOLE = ["--page=plot", "--fit", "--margin=5"]
READ = ["--profile=full", "--dots=150"]
SMOOTHED = {"png": ["--smooth=4"], "ppm": ["--smooth=4"]}
ALL_SHEETS = {"pdf": ["--sheet=0"]}
PLOTS = {
    "without a size": b"SP2;PU-500,-300;PD900,700;LT2;PD0,0;",
    "with a size": b"PS3000,2000;RO90;PW1;PU100,100;PD900,700;",
    "of two sheets": b"PU5,5;PD500,500;PG;PD900,100;",
    "flange": read_bytes(os.path.join(EXAMPLES, "flange.plt")),
}


def picture(program, words, plot):
    """What a command line writes of a plot."""
    done = run(program, words, SECONDS, input=plot)
    assert done.returncode == 0, (words, done.stderr)
    return done.stdout


@pytest.mark.parametrize("form", [*DOCUMENTS, *FORMS])
@pytest.mark.parametrize("plot", PLOTS.values(), ids=PLOTS)
def test_defaults(program, plot, form):
    given = picture(program, ["draw", f"--form={form}"], plot)
    read = READ[:1] if form in VECTORS else READ
    assert given == picture(program, [form, *WHOLE, *read, *SMOOTHED.get(form, []), *ALL_SHEETS.get(form, [])], plot)


@pytest.mark.parametrize("words", [["--page=a5"], ["--width=900"], ["--height=700", "--left=600"], ["--page=plot"]])
def test_given_page(program, words):
    """A page that is given is not fitted, unless --fit is given, too."""
    for plot in PLOTS.values():
        assert picture(program, ["draw", *words], plot) == picture(program, ["png", *READ, *SMOOTHED["png"], *words], plot)
        fitted = picture(program, ["png", *READ, *SMOOTHED["png"], *words, "--fit", "--margin=5"], plot)
        assert picture(program, ["draw", *words, "--fit"], plot) == fitted


def test_overrides(program):
    """Each default gives way to its option."""
    plot = PLOTS["of two sheets"]
    for words in (["--margin=0"], ["--dots=100"], ["--dots=400"], ["--smooth=1"], ["--sheet=2"], ["--pens=1"]):
        others = [*WHOLE, *READ, *SMOOTHED["png"]]
        names = {it.split("=")[0] for it in words}
        others = [it for it in others if it.split("=")[0] not in names]
        if words == ["--dots=400"]:
            others[others.index("--smooth=4")] = "--smooth=3"
        assert picture(program, ["draw", *words], plot) == picture(program, ["png", *others, *words], plot), words
    core = picture(program, ["png", *WHOLE, "--dots=150", *SMOOTHED["png"]], plot)
    assert picture(program, ["draw", "--profile=core"], plot) == core


def test_form_by_extension(program, tmp_path):
    """The extension of the file says the form, and a folder's name says none."""
    plot = PLOTS["with a size"]
    for name, form in [(f"plan.{it}", it) for it in [*DOCUMENTS, *FORMS]] + [("PLAN.PBM", "pbm"), ("plan", "png")]:
        path = tmp_path / name
        assert picture(program, ["draw", "-o", str(path)], plot) == b""
        assert path.read_bytes() == picture(program, ["draw", f"--form={form}"], plot), name
    (tmp_path / "one.plt").write_bytes(plot)
    (tmp_path / "pictures.d").mkdir()
    picture(program, ["draw", str(tmp_path / "one.plt"), "-o", str(tmp_path / "pictures.d") + "/"], b"")
    assert (tmp_path / "pictures.d" / "one.png").read_bytes() == picture(program, ["draw"], plot)


LINE = b"PU0,0;PD300,200;"
BLANK = b"IN;"
OFF_PAGE = b"PU3000,3000;PD4000,4000;"
TOO_LARGE = b"PU-300000,0;PD300000,0;"
AROUND_PAGE = b"PU-100,-100;RA1000,1000;"
BESIDE_PAGE = b"PU-100,-100;RA1000,-10;"
SKIPPED = b"XX;"
REPORT = "see plotraster report --profile full"
NOTHING = messages.text("blank", "plotraster report --profile full")
# A command line, a plot, and what is said of the picture.
REMARKS = [
    (["draw"], LINE, []),
    (["draw", "--verbose"], LINE, [f"1 line, 0 off the page; 0 notes, {REPORT}"]),
    (["draw", "--quiet", "--verbose"], LINE, [f"1 line, 0 off the page; 0 notes, {REPORT}"]),
    (["draw"], BLANK, [NOTHING]),
    (["draw", "--quiet"], BLANK, []),
    (["draw", "--width=800"], BLANK, [NOTHING]),
    (["draw", "--width=800", "--quiet"], BLANK, []),
    (["draw", "--pens=3"], LINE, [NOTHING]),
    (["draw", "--profile=core"], BLANK, [messages.text("blank", "plotraster report")]),
    (["draw", "--width=800", "--height=800"], OFF_PAGE, [NOTHING]),
    (["draw", "--width=800", "--height=800", "--quiet"], OFF_PAGE, []),
    # The page is black, although each edge of the fill is off it.
    (["draw", "--width=800", "--height=800"], AROUND_PAGE, []),
    (["draw", "--form=svg", "--width=800", "--height=800"], AROUND_PAGE, []),
    (["draw", "--width=800", "--height=800"], BESIDE_PAGE, [NOTHING]),
    (["draw", "--width=800", "--height=800"], b"IW100,100,200,200;" + AROUND_PAGE, []),
    (["draw"], b"IW100,100,200,200;" + AROUND_PAGE, []),
    (["draw"], b"IW-20,-20,-10,-10;" + AROUND_PAGE, [NOTHING]),
    (["draw", "--form=pdf"], BLANK, [NOTHING]),
    (["draw", "--form=svg", "--width=800", "--height=800"], OFF_PAGE, [NOTHING]),
    (["draw", "--dots=10"], TOO_LARGE, [messages.text("too-large-to-fit")]),
    (["draw", "--dots=10", "--quiet"], TOO_LARGE, [messages.text("too-large-to-fit")]),
    (["draw"], LINE + 1 * SKIPPED, []),
    (["draw"], LINE + 2 * SKIPPED, [f"2 notes on 1 line: {REPORT}"]),
    (["draw", "--profile=core"], LINE + 2 * SKIPPED, ["2 notes on 1 line: see plotraster report"]),
    (["draw", "--pens=1"], b"SP1;" + LINE + b"SP2;" + LINE + 2 * SKIPPED, []),
    (["draw", "--pens=1"], b"SP1;" + LINE + b"SP2;" + LINE + 3 * SKIPPED, [f"3 notes on 2 lines: {REPORT}"]),
    (["draw", "--quiet"], LINE + 2 * SKIPPED, []),
    (["draw", "--verbose"], LINE + 2 * SKIPPED, [f"1 line, 0 off the page; 2 notes, {REPORT}"]),
    (["draw"], 2 * SKIPPED, [NOTHING]),
    (["png", "--profile=full"], LINE + 2 * SKIPPED, []),
    (["draw"], PLOTS["of two sheets"] + 9 * SKIPPED, [messages.text("first-sheet", 2)]),
    (["draw", "--form=pdf"], PLOTS["of two sheets"] + 9 * SKIPPED, [f"9 notes on 2 lines: {REPORT}"]),
    (["draw"], PLOTS["of two sheets"], [messages.text("first-sheet", 2)]),
    (["draw", "--quiet"], PLOTS["of two sheets"], []),
    (["draw", "--sheet=1"], PLOTS["of two sheets"], []),
    (["draw", "--form=svg"], PLOTS["of two sheets"], [messages.text("first-sheet", 2)]),
    (["draw", "--form=pdf"], PLOTS["of two sheets"], []),
    (["draw", "--profile=core"], PLOTS["of two sheets"], []),
    (["png", "--profile=full"], PLOTS["of two sheets"], [messages.text("first-sheet", 2)]),
    (["pdf", "--profile=full"], PLOTS["of two sheets"], [messages.text("first-sheet", 2)]),
    (["png", "--fit"], BLANK, [messages.text("blank-to-fit")]),
    (["png"], BLANK, []),
    (["pbm", "--page=plot"], LINE, [messages.text("no-size")]),
    (["report", "--fit"], BLANK, [messages.text("blank-to-fit")]),
    (["report", "--profile=full"], PLOTS["of two sheets"], []),
]


@pytest.mark.parametrize("words, plot, said", REMARKS)
def test_remarks(program, words, plot, said):
    done = run(program, words, SECONDS, input=plot)
    assert (done.returncode, done.stderr.decode().splitlines()) == (0, [f"plotraster: {line}" for line in said])


def test_no_picture_to_a_terminal(program, tmp_path):
    """Only draw refuses it, and only if its picture would go there."""
    done, got = with_terminal("stdout", program, ["draw"], LINE)
    said = b"plotraster: a picture is not written to a terminal: use -o\n"
    assert (done.returncode, done.stderr, got) == (2, said, b"")
    done, got = with_terminal("stdout", program, ["draw", "-o", str(tmp_path / "plan.png")], LINE)
    assert (done.returncode, done.stderr, got) == (0, b"", b"")
    assert (tmp_path / "plan.png").read_bytes() == picture(program, ["draw"], LINE)
    done, got = with_terminal("stdout", program, ["pbm"], LINE)
    assert (done.returncode, done.stderr, got) == (0, b"", picture(program, ["pbm"], LINE))
