"""Strips of pictures in rows, by `--from` and `--rows`: joined, they are the whole picture, whatever else is asked for."""

import os
import re
import resource
import signal

import pytest

from document_runs import SMALL, drawn
from reference import messages
from reference.outputs import FORMS
from shared import EXAMPLES, read_bytes, run

SECONDS = 60
# A pixel is 8 units, and the page of 4,000 by 3,000 units has 500 by 375 pixels.
WHOLE = [*SMALL, "--dots=127"]
ROWS = 375
FULL = ["--profile=full", "--sheet=1"]
NAMES = ("figures", "windows", "hatching")


def example(name):
    return read_bytes(os.path.join(EXAMPLES, f"{name}.plt"))


def strips(program, words, plot, rows, height):
    """The strips of a picture of so many rows."""
    return [drawn(program, [*words, f"--from={row}", f"--rows={height}"], plot) for row in range(0, rows, height)]


@pytest.mark.parametrize("name", NAMES)
@pytest.mark.parametrize("words", [
    *([form] for form in FORMS if form != "pcl"), ["marks", *FULL], ["pbm", *FULL, "--band=7"],
    ["ppm", "--smooth=3"], ["ppm", *FULL, "--smooth=2", "--band=10"], ["pbm", "--pens=2-4", "--rotate=180"],
], ids=" ".join)
def test_joined(program, name, words):
    plot, words = example(name), [*words, *WHOLE]
    whole = drawn(program, words, plot)
    for height in (1, 50, 64, 125, 374, 375, 376) if words[0] == "pbm" else (50, 125, 374, 400_000):
        assert b"".join(strips(program, words, plot, ROWS, height)) == whole, height


def test_printers(program):
    """Only the first strip has the header of PCL, and only the last one its foot."""
    plot, words = example("figures"), ["pcl", *SMALL, "--dots=100"]
    whole = drawn(program, words, plot)
    for height in (1, 100, 294, 295, 296):
        parts = strips(program, words, plot, 295, height)
        assert b"".join(parts) == whole
        assert [part.startswith(b"\x1bE") for part in parts] == [True] + [False] * (len(parts) - 1)
        assert [part.endswith(b"\x1b*rB\x1bE") for part in parts] == [False] * (len(parts) - 1) + [True]


def test_pages(program):
    """The rows are those of the page that is shown: around the drawing, of the plot, or turned."""
    plot = b"PS3000,4000;SP1;PU100,100;PD2000,1500;PU300,900;CI250;"
    for words in (["--fit"], ["--page=plot"], ["--rotate=90", "--width=4000", "--height=3000"], ["--fit", "--rotate=270"]):
        words = ["pbm", "--dots=50", *words]
        whole = drawn(program, words, plot)
        rows = int(whole.split(b"\n", 2)[1].split()[1])
        assert b"".join(strips(program, words, plot, rows, 17)) == whole, words
    words = ["pbm", *WHOLE, "--from=376", "--rows=1"]
    done = run(program, words, SECONDS, input=plot)
    assert (done.returncode, done.stdout, done.stderr) == (2, b"", messages.said("first-row"))


def test_files(program, tmp_path):
    """A file of each plot, and of each sheet."""
    plot = b"SP1;PU0,2900;PD4000,2900;PG;SP1;PU0,100;PD4000,100;"
    for name in ("a.plt", "b.plt"):
        (tmp_path / name).write_bytes(plot)
    os.mkdir(tmp_path / "out")
    words = ["pbm", *WHOLE, "--profile=full", "--from=5", "--rows=20"]
    done = run(program, [*words, "--sheet=each", "-o", "out", "a.plt", "b.plt"], SECONDS, cwd=tmp_path)
    assert (done.returncode, done.stderr) == (0, b"")
    wanted = {f"{name}-{sheet}.pbm": drawn(program, [*words, f"--sheet={sheet}"], plot) for name in "ab" for sheet in (1, 2)}
    assert {name: read_bytes(tmp_path / "out" / name) for name in os.listdir(tmp_path / "out")} == wanted
    assert {len(data) for data in wanted.values()} == {20 * 63}


def test_broken_off(program, tmp_path):
    """A strip goes on from the row of the message, with as many rows as are left of it."""
    plot = example("figures")
    for form, words, room in (("pbm", WHOLE, 3000), ("ppm", [*WHOLE, "--smooth=2"], 70_000), ("pcl", [*SMALL, "--dots=150"], 5000)):
        words = [form, *words]
        strip = drawn(program, [*words, "--from=100", "--rows=100"], plot)
        words_of_strip = [*words, "--from=100", "--rows=100", "-o", "out"]
        done = run(program, words_of_strip, SECONDS, input=plot, cwd=tmp_path, preexec_fn=limit_of(room))
        row, whole = map(int, re.fullmatch(messages.said("broken-off", r"(\d+)", r"(\d+)"), done.stderr).groups())
        assert done.returncode == 3 and 100 < row < 200
        rest = drawn(program, [*words, f"--from={row}", f"--rows={200 - row}"], plot)
        assert read_bytes(tmp_path / "out.part")[:whole] + rest == strip


def limit_of(room):
    """What lets a process write files of so many bytes only."""
    def limit():
        signal.signal(signal.SIGXFSZ, signal.SIG_IGN)
        resource.setrlimit(resource.RLIMIT_FSIZE, (room, room))
    return limit
