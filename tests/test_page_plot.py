"""What `--page plot` does: the page of the size that the plot asks for by `PS`."""

import pytest
from reference import messages
from reference.command_line import DOCUMENTS, VECTORS
from reference.outputs import FORMS
from shared import run

SECONDS = 60
ASKED = ["--page=plot"]
DRAWN = b"SP1;PU10,10;PD390,290;"
DEFAULT = (11880, 8400)
# What a plot has before its lines, and the page that it asks for.
PLOTS = {
    b"PS400,300;": (400, 300),
    b"IN;PS400,300;": (400, 300),
    b"ps 400 300": (400, 300),
    b"PS\t400,\r\n,300,7,8;": (400, 300),
    b"PS400.49,299.5;": (400, 300),
    b"PS+400,+300.000;": (400, 300),
    b"PS0400,000300;": (400, 300),
    b"PS64,65536;": (64, 65536),
    b"PS500;": (500, 8400),
    b"PS500,;": (500, 8400),
    b"PS400,300;PS500,500;": (400, 300),
    b"PS;PS63,64;PS400:;PS-400,300;PS524288.5,64;PS8388608;PS400,300;": (400, 300),
    b"PS\x1b": None,
}
# Plots that ask for no page, or in a way that asks for nothing.
NONE = [
    b"", b"PS;", b"PS", b"PS,;", b"PS0,0;", b"PS63.4,300;", b"PS400,63;", b"PS524289;", b"PS-400,-300;", b"PS400,300:;",
    b"PS99999999999999999999,300;", b"PS.;", b"PS+;", b"P S400,300;", b"LBPS400,300;\3", b"NPS400,300;", b"PS\"400,300\";",
]
NO_SIZE = messages.said("no-size")


def page_of(program, words, plot, errors=b""):
    """The numbers of the page that a report has."""
    done = run(program, ["report", *words], SECONDS, input=plot)
    assert (done.returncode, done.stderr) == (0, errors), (words, plot)
    return tuple(map(int, done.stdout.split(b"\n")[0].split()[1:]))


def drawn(program, words, plot, errors=b""):
    done = run(program, words, SECONDS, input=plot)
    assert (done.returncode, done.stderr) == (0, errors), (words, plot)
    return done.stdout


@pytest.mark.parametrize("profile", ["core", "full"])
def test_pages(program, profile):
    """The page has the size that is asked for, and the corner that is given."""
    words = [*ASKED, f"--profile={profile}"]
    for plot, size in PLOTS.items():
        errors = NO_SIZE if size is None else b""
        wanted = size or DEFAULT
        assert page_of(program, words, plot + b";" + DRAWN, errors) == (*wanted, 0, 0), plot
        assert page_of(program, [*words, "--left=7", "--below=65536"], plot, errors) == (*wanted, 7, 65536), plot
    for plot in NONE:
        assert page_of(program, words, plot, NO_SIZE) == (*DEFAULT, 0, 0), plot
        assert page_of(program, words, DRAWN + plot + b";" + DRAWN, NO_SIZE) == (*DEFAULT, 0, 0), plot


def test_profiles(program):
    """A comment of the profile full ends at its semicolon; core passes over its letters alone."""
    plot = b"CO PS400,300;PS500,200;"
    assert page_of(program, ASKED, plot) == (400, 300, 0, 0)
    assert page_of(program, [*ASKED, "--profile=full"], plot) == (500, 200, 0, 0)


@pytest.mark.parametrize("command", [*DOCUMENTS, *FORMS])
def test_pictures(program, command):
    """The picture and the report are those of the page that is asked for."""
    for plot, size in PLOTS.items():
        sides = [f"--{side}={number}" for side, number in zip(("width", "height"), size or DEFAULT)]
        errors = NO_SIZE if size is None else b""
        dots = [] if command in VECTORS else ["--dots=75"]
        for words in (dots, ["--left=100", "--below=50", *dots, "--profile=full"]):
            plotted = plot + b";" + DRAWN
            assert drawn(program, [command, *ASKED, *words], plotted, errors) == drawn(program, [command, *sides, *words], plotted)
    report = drawn(program, ["report", *ASKED], b"PS400,300;" + DRAWN)
    assert report == drawn(program, ["report", "--width=400", "--height=300"], b"PS400,300;" + DRAWN)


def test_without_the_option(program):
    """Without --page plot a PS changes no page."""
    for words in ([], ["--page=a5"], ["--width=700"], ["--fit"]):
        assert page_of(program, words, b"PS400,300;" + DRAWN) == page_of(program, words, b"NP255;" + DRAWN)


def test_refused_on_the_page(program):
    """A plot is refused for the page that it asks for, and not for another."""
    narrow, wide = b"PS64,64;RO90;PD0,66000;", b"PS65536,64;RO90;PD0,80000;"
    for command in ("pbm", "report"):
        refused = run(program, [command, *ASKED], SECONDS, input=narrow)
        assert (refused.returncode, refused.stdout) == (1, b"")
        assert refused.stderr == messages.said("off-range", 13)
        assert run(program, [command], SECONDS, input=narrow).returncode == 0
        assert run(program, [command, *ASKED, "--dots=10"][:2 if command == "report" else 3], SECONDS, input=wide).returncode == 0
        assert run(program, [command], SECONDS, input=wide).returncode == 1


def test_verbose(program):
    """The line on the page comes before that on the drawing."""
    said = b"plotraster: 1 line, 0 off the page; 0 notes, see plotraster report\n"
    drawn(program, ["pbm", "--verbose", *ASKED], DRAWN, NO_SIZE + said)
    said = said.replace(b"report", b"report --profile full")
    drawn(program, ["pbm", "--verbose", *ASKED, "--profile=full"], b"PS400,300;" + DRAWN, said)


def test_conflicts(program):
    """With --page plot no side is given, and no margin without --fit."""
    for words, message in [
        (["--width=400"], messages.text("page-and-sides")),
        (["--fit", "--height=400"], messages.text("page-and-sides")),
        (["--margin=3"], messages.text("margin-without-fit")),
    ]:
        for command in ("draw", *DOCUMENTS, *FORMS, "report"):
            done = run(program, [command, *ASKED, *words], SECONDS, input=b"PS400,300;")
            assert (done.returncode, done.stdout, done.stderr) == (2, b"", f"plotraster: {message}\n".encode()), words
