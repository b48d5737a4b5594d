"""What `--progress` shows of a picture: one line on standard error, if that is a terminal, and nothing else."""

import os
import re
import resource
import signal
import subprocess

import pytest
from reference import messages
from reference.outputs import FORMS
from shared import EXAMPLES, read_bytes, run, write
from terminals import with_terminal

SECONDS = 60
PLOT = b"SP1;PU0,0;PD10000,8000;XX;"
# At 100 dots per inch A4 has 827 rows. A band has all of them as bits, or 112 of them as cells.
ROWS = 827
MOST_ROWS = {"marks": 112, "pbm": 827, "ppm": 112, "pcl": 827}
# A page of 63 rows.
SMALL = ["--width=640", "--height=640"]
A4 = ["--page=a4"]
# Pages of many rows.
HIGH = ["--width=64", "--height=65536", "--dots=1200"]
ROWS_OF_HIGH = 77405


def on_terminal(program, words, plot=PLOT, **how):
    """The exit status and the output of a run whose standard error is a terminal, and what the terminal gets."""
    done, got = with_terminal("stderr", program, words, plot, **how)
    return done.returncode, done.stdout, got


def line(done, rows):
    return f"\rplotraster: {done} of {rows} rows, {rows - done} left    ".encode()


def shown(rows, band, upto=None):
    """What is shown of a picture of so many rows of which the first `upto` are written: a line at each hundredth."""
    upto = rows if upto is None else upto
    text, last = b"", 0
    for done in [*range(band, rows, band), rows]:
        if done <= upto and 100 * done // rows > last and (text or done < rows):
            text, last = text + line(done, rows), 100 * done // rows
    return text + b"\n" if text else b""


@pytest.mark.parametrize("command", FORMS)
def test_bands_are_shown(program, command):
    """A line is written again after bands, and is ended. The picture is the same."""
    picture = run(program, [command, "--dots=100"], SECONDS, input=PLOT).stdout
    for band in (1, 7, 100, 112, 413, 414, 826, 4096):
        words = [command, "--dots=100", f"--band={band}", "--progress"]
        assert on_terminal(program, words) == (0, picture, shown(ROWS, min(band, MOST_ROWS[command]))), band


def test_lines_that_are_shown(program):
    """The same, by its letters."""
    text = b"\rplotraster: 400 of 827 rows, 427 left    \rplotraster: 800 of 827 rows, 27 left    "
    text += b"\rplotraster: 827 of 827 rows, 0 left    \n"
    assert on_terminal(program, ["pbm", "--band=400", "--progress"])[2] == text


def test_bands_of_a_large_picture(program):
    """A picture that is painted in several bands because it is large."""
    status, _, text = on_terminal(program, ["pbm", "--dots=600", "--progress"])
    steps = [tuple(map(int, it)) for it in re.findall(rb"(\d+) of (\d+) rows, (\d+) left", text)]
    assert status == 0 and len(steps) > 3 and steps[-1] == (4961, 4961, 0)
    assert text == b"".join(line(done, 4961) for done, _, _ in steps) + b"\n"


def test_one_band_is_not_shown(program):
    """A picture that is painted at once, or that has no rows."""
    for words in ([], ["--band=63"], ["--from=10"], ["--from=63"], ["--band=7", "--from=56"]):
        for command in FORMS:
            assert on_terminal(program, [command, *SMALL, *words, "--progress"])[::2] == (0, b""), (command, words)


def test_rows_from_a_later_one(program):
    """The rows of this run are counted."""
    picture = run(program, ["pbm", "--from=300"], SECONDS, input=PLOT).stdout
    words = ["pbm", "--from=300", "--band=90", "--progress"]
    assert on_terminal(program, words) == (0, picture, shown(ROWS - 300, 90))


def test_a_hundred_times_at_most(program):
    """Bands of one row are not shown one by one."""
    status, _, text = on_terminal(program, ["pbm", *HIGH, "--band=1", "--progress"])
    assert (status, text) == (0, shown(ROWS_OF_HIGH, 1))
    assert text.count(b"\r") == 100


def test_shorter_lines_hide_longer_ones(program):
    """What a reader sees after each return to the line's beginning is what was written last."""
    for band in (1, 1000, 4000, 4096):
        _, _, text = on_terminal(program, ["marks", *HIGH, f"--band={band}", "--progress"])
        seen = b""
        for new in text.rstrip(b"\n").split(b"\r")[1:]:
            seen = new + seen[len(new):]
            assert seen.rstrip(b" ") == new.rstrip(b" ")


def test_several_plots_are_named(program, tmp_path):
    for name in ("a.plt", "b.plt"):
        write(str(tmp_path / name), PLOT)
    status, _, text = on_terminal(program, ["pbm", "--band=400", "--progress", "-o", ".", "a.plt", "b.plt"], cwd=tmp_path)
    wanted = [shown(ROWS, 400).replace(b"plotraster:", b"plotraster: %s:" % name) for name in (b"a.plt", b"b.plt")]
    assert (status, text) == (0, b"".join(wanted))


@pytest.mark.parametrize("words", [
    ["pbm", "--profile=full", "--sheet=each", "--band=400", "--progress"], ["draw", *A4], ["draw", "--form=ppm", *A4, "--size=900"],
])
def test_sheets_are_named(program, tmp_path, words):
    """Each is shown as it is by itself. draw shows it unless it is to be quiet."""
    write(str(tmp_path / "two.plt"), PLOT + b"PG;" + PLOT)
    write(str(tmp_path / "one.plt"), PLOT)
    alone = on_terminal(program, [it for it in [*words, "--sheet=1"] if it != "--sheet=each"])[2]
    assert alone.startswith(b"\rplotraster: ") and alone.endswith(b"\n")
    for plots, abouts in [(["two.plt"], ["sheet 1: ", "sheet 2: "]),
                          (["two.plt", "one.plt"], ["two.plt: sheet 1: ", "two.plt: sheet 2: ", "one.plt: "])]:
        wanted = b"".join(alone.replace(b"plotraster: ", b"plotraster: " + about.encode()) for about in abouts)
        assert on_terminal(program, [*words, "-o", ".", *plots], cwd=tmp_path)[::2] == (0, wanted)
        if words[0] == "draw":
            assert on_terminal(program, [*words, "--quiet", "-o", ".", *plots], cwd=tmp_path)[::2] == (0, b"")


def test_nothing_without_the_option(program):
    assert on_terminal(program, ["pbm", "--band=1"])[::2] == (0, b"")


def test_nothing_unless_it_is_a_terminal(program, tmp_path):
    """A pipe and a file get nothing, and the device for nothing neither."""
    words = ["pbm", "--band=10", "--progress"]
    picture = run(program, words[:2], SECONDS, input=PLOT).stdout
    done = run(program, words, SECONDS, input=PLOT)
    assert (done.returncode, done.stdout, done.stderr) == (0, picture, b"")
    with open(tmp_path / "errors", "wb") as errors, open(tmp_path / "picture", "wb") as to:
        how = {"stdout": to, "stderr": errors, "input": PLOT, "timeout": SECONDS}
        assert subprocess.run(["plotraster", *words], executable=program, **how).returncode == 0
    assert (read_bytes(tmp_path / "errors"), read_bytes(tmp_path / "picture")) == (b"", picture)


def test_messages_follow_on_a_line_of_their_own(program):
    words = ["pbm", "--band=200", "--verbose", "--progress"]
    said = b"plotraster: 1 line, 0 off the page; 1 note, see plotraster report\n"
    assert on_terminal(program, words)[2] == shown(ROWS, 200) + said
    kept = messages.said("blank-to-fit")
    assert on_terminal(program, ["pbm", "--band=200", "--fit", "--progress"], b"PU5,5;")[2] == shown(ROWS, 200) + kept


def test_refused_plots(program):
    """Of a plot that is refused only the refusal is said."""
    words = ["pbm", "--band=1", "--progress"]
    assert on_terminal(program, words, b"PD8388607.9,0;") == (1, b"", messages.said("off-range", 0))


def test_full_device(program):
    """A picture that fails in its header has shown nothing."""
    with open("/dev/full", "wb") as full:
        status, _, text = on_terminal(program, ["pbm", "--band=1", "--progress"], stdout=full)
    assert (status, text) == messages.refused("broken-off", 0, 0)


def test_failed_write(program, tmp_path):
    """The line is ended before the message. It has the rows of the bands before the one that failed."""
    def limit():
        signal.signal(signal.SIGXFSZ, signal.SIG_IGN)
        resource.setrlimit(resource.RLIMIT_FSIZE, (20000, 20000))
    with open(tmp_path / "picture", "wb") as to:
        status, _, text = on_terminal(program, ["pbm", "--band=50", "--progress"], stdout=to, preexec_fn=limit)
    # A header of 12 bytes, and 147 bytes a row.
    assert (status, text) == (3, shown(ROWS, 50, 100) + messages.said("broken-off", 135, 19857))


def test_failed_sync(program, tmp_path, refuse):
    """The line is ended before the message. It has all rows."""
    how = {"env": dict(os.environ, LD_PRELOAD=refuse, SYNC_FAILS="1")}
    status, _, text = on_terminal(program, ["pbm", "-o", "picture", "--band=50", "--progress"], cwd=tmp_path, **how)
    assert (status, text) == (3, shown(ROWS, 50) + messages.said("broken-off", 0, 0))


def test_file_of_the_output(program, tmp_path):
    """The same for a picture that is written to a file by --output."""
    path = str(tmp_path / "picture")
    assert on_terminal(program, ["ppm", "-o", path, "--band=30", "--progress"]) == (0, b"", shown(ROWS, 30))
    assert read_bytes(path) == run(program, ["ppm"], SECONDS, input=PLOT).stdout


def test_examples(program):
    for name in ("line", "rose"):
        plot = read_bytes(os.path.join(EXAMPLES, f"{name}.plt"))
        picture = run(program, ["ppm"], SECONDS, input=plot).stdout
        assert on_terminal(program, ["ppm", "--band=64", "--progress"], plot) == (0, picture, shown(ROWS, 64))
