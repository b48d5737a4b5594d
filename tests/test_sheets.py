"""Plots of which each sheet is written into a file of its own."""

import os
import resource
import signal
import threading

import pytest
from reference import messages
from reference.command_line import VECTORS
from reference.outputs import FORMS
from shared import read_bytes, run, write

SECONDS = 60
PAGE = ["--width=1500", "--height=1500", "--dots=100"]
FULL = ["--profile=full", *PAGE]
EACH = [*FULL, "--sheet=each", "-o", "out"]
OFF_RANGE = b"PU5,5;PD500,500;PG;PD8388607.9,0;"
OLD = b"an older picture\n"


def plot_of(sheets):
    """A plot of so many sheets, each with a line of its own."""
    numbers = range(1, sheets + 1)
    return b"PG;".join(b"SP%d;PU5,%d;PD900,%d;" % (number % 8 + 1, 100 * number, 90 * number + 20) for number in numbers)


@pytest.fixture
def folder(tmp_path):
    """Plots, and an empty folder `out`."""
    plots = {"one.plt": 1, "two.plt": 2, "twelve.plt": 12, "deep/two.plt": 3}
    for name, sheets in plots.items():
        write(str(tmp_path / name), plot_of(sheets))
    write(str(tmp_path / "blank.plt"), b"IN;")
    write(str(tmp_path / "far.plt"), OFF_RANGE)
    os.mkdir(tmp_path / "out")
    return tmp_path


def ends_of(program, folder, words, **how):
    """The exit status and the lines on standard error of a run in a folder, which writes nothing to standard output."""
    done = run(program, words, SECONDS, cwd=folder, **how)
    assert done.stdout == b""
    return done.returncode, done.stderr.decode().splitlines()


def sheet_of(program, words, sheet, plot):
    """What the program writes to standard output of one sheet."""
    done = run(program, [*words, f"--sheet={sheet}"], SECONDS, input=plot)
    assert (done.returncode, done.stderr) == (0, b"")
    return done.stdout


def files_in(folder):
    """The files of the folder `out`, each with its bytes."""
    return {name: read_bytes(folder / "out" / name) for name in os.listdir(folder / "out")}


@pytest.mark.parametrize("command", ["png", "svg", "dxf", *FORMS])
def test_each_sheet_has_a_file(program, folder, command):
    """Each has the bytes of its sheet by itself. The numbers have as many digits as the last one."""
    words = [command, *(it for it in FULL if command not in VECTORS or "--dots" not in it)]
    plots = ["one.plt", "two.plt", "twelve.plt", "blank.plt"]
    assert ends_of(program, folder, [*words, "--sheet=each", "-o", "out", *plots]) == (0, [])
    wanted = {f"{name}.{command}": sheet_of(program, words, 1, plot)
              for name, plot in [("one", plot_of(1)), ("blank", b"IN;")]}
    for name, sheets, digits in [("two", 2, 1), ("twelve", 12, 2)]:
        for sheet in range(1, sheets + 1):
            wanted[f"{name}-{sheet:0{digits}}.{command}"] = sheet_of(program, words, sheet, plot_of(sheets))
    assert files_in(folder) == wanted
    # Sheets of one number are the same in all plots, and each other one is another picture.
    assert len(set(wanted.values())) == 13


def test_draw_into_a_folder(program, folder):
    """Each sheet has a file unless one is named, or the profile has no sheets. Nobody need be told of several."""
    plot, bits = plot_of(2), ["draw", "--form=pbm"]
    cases = [
        (["draw"], {f"two-{sheet}.png": sheet_of(program, ["draw", *PAGE], sheet, plot) for sheet in (1, 2)}),
        (bits, {f"two-{sheet}.pbm": sheet_of(program, [*bits, *PAGE], sheet, plot) for sheet in (1, 2)}),
        (["draw", "--sheet=2"], {"two.png": sheet_of(program, ["draw", *PAGE], 2, plot)}),
        (["draw", "--sheet=0"], {"two.png": sheet_of(program, ["draw", *PAGE], 0, plot)}),
        (["draw", "--profile=core"], {"two.png": run(program, ["draw", "--profile=core", *PAGE], SECONDS, input=plot).stdout}),
    ]
    for words, wanted in cases:
        assert ends_of(program, folder, [*words, *PAGE, "-o", "out", "two.plt"]) == (0, []), words
        assert files_in(folder) == wanted, words
        for name in wanted:
            os.remove(folder / "out" / name)


def test_sheets_of_a_size(program, folder):
    """Each picture has at most so many pixels, as that of its sheet by itself has."""
    for form in ("png", "pbm", "ppm", "marks"):
        words = ["draw", f"--form={form}", *PAGE[:2], "--size=40"]
        assert ends_of(program, folder, [*words, "-o", "out", "two.plt"]) == (0, [])
        wanted = {f"two-{sheet}.{form}": sheet_of(program, words, sheet, plot_of(2)) for sheet in (1, 2)}
        assert files_in(folder) == wanted
        assert form != "png" or all(it[16:24] == bytes([0, 0, 0, 40] * 2) for it in wanted.values())
        for name in wanted:
            os.remove(folder / "out" / name)
    # Also on the page around all sheets.
    assert ends_of(program, folder, ["draw", "--size=40", "-o", "out", "two.plt"]) == (0, [])
    whole = sheet_of(program, ["draw", "--size=40"], 0, plot_of(2))
    assert [it[16:24] for it in files_in(folder).values()] == [whole[16:24]] * 2 and max(whole[16:24]) == 40


def test_quiet(program, folder):
    """All sheets are written."""
    assert ends_of(program, folder, ["draw", "--quiet", *PAGE, "-o", "out", "two.plt", "one.plt"]) == (0, [])
    wanted = {f"two-{sheet}.png": sheet_of(program, ["draw", *PAGE], sheet, plot_of(2)) for sheet in (1, 2)}
    assert files_in(folder) == {**wanted, "one.png": sheet_of(program, ["draw", *PAGE], 1, plot_of(1))}


def test_many_sheets(program, folder):
    write(str(folder / "many.plt"), b"PU0,0;PD900,900;PG;" * 120)
    assert ends_of(program, folder, ["pbm", *EACH, "many.plt"]) == (0, [])
    assert sorted(files_in(folder)) == [f"many-{sheet:03}.pbm" for sheet in range(1, 121)]


def test_plot_is_read_once(program, folder):
    """A pipe can be read only once."""
    os.mkfifo(folder / "pipe.plt")
    writer = threading.Thread(target=write_pipe, args=(folder / "pipe.plt", plot_of(3)))
    writer.start()
    assert ends_of(program, folder, ["png", *EACH, "pipe.plt"]) == (0, [])
    writer.join(SECONDS)
    assert sorted(files_in(folder)) == ["pipe-1.png", "pipe-2.png", "pipe-3.png"]


def write_pipe(path, data):
    with open(path, "wb") as pipe:
        pipe.write(data)


def test_one_page_for_all_sheets(program, folder):
    """A page is fitted to the lines of all sheets."""
    assert ends_of(program, folder, ["draw", "-o", "out", "two.plt"]) == (0, [])
    whole = sheet_of(program, ["draw"], 0, plot_of(2))
    alone = sheet_of(program, ["draw"], 1, plot_of(2))
    pictures = files_in(folder)
    # The columns and the rows of a PNG are its bytes 16 to 23.
    assert pictures["two-1.png"][16:24] == pictures["two-2.png"][16:24] == whole[16:24] != alone[16:24]


def test_names_that_are_taken(program, folder):
    """A plot's own name may be that of another plot's sheet."""
    write(str(folder / "two-1.plt"), plot_of(1))
    plots = ["two.plt", "two-1.plt"]
    lines = ["plotraster: two-1.plt: " + messages.text("output", "out/two-1.png", "taken")]
    assert ends_of(program, folder, ["png", *EACH, *plots]) == (3, lines)
    assert sorted(files_in(folder)) == ["two-1.png", "two-2.png"]
    assert files_in(folder)["two-1.png"] == sheet_of(program, ["png", *FULL], 1, plot_of(2))
    lines = ["plotraster: two.plt: sheet 1: " + messages.text("output", "out/two-1.png", "taken")]
    assert ends_of(program, folder, ["png", *EACH, *plots[::-1]]) == (3, lines)
    assert files_in(folder) == {
        "two-1.png": sheet_of(program, ["png", *FULL], 1, plot_of(1)),
        "two-2.png": sheet_of(program, ["png", *FULL], 2, plot_of(2)),
    }


def test_plots_of_one_name(program, folder):
    """Only the first of them is drawn, whatever numbers of sheets they have and whether it is good."""
    write(str(folder / "deep/far.plt"), plot_of(2))
    lines = [
        "plotraster: deep/two.plt: " + messages.text("output", "out/two.png", "taken"),
        f"plotraster: far.plt: {messages.text('off-range', 19)}",
        "plotraster: deep/far.plt: " + messages.text("output", "out/far.png", "taken"),
    ]
    assert ends_of(program, folder, ["png", *EACH, "two.plt", "deep/two.plt", "far.plt", "deep/far.plt"]) == (3, lines)
    assert sorted(files_in(folder)) == ["two-1.png", "two-2.png"]


def test_plots_are_not_overwritten(program, folder):
    """Neither as a sheet's file nor as FILE.part; the name that a plot has without a number is written only for one sheet."""
    for name, sheets in [("out/two-2.png", 1), ("out/twelve-03.png.part", 1), ("out/pair.png", 2), ("out/single.png", 1)]:
        write(str(folder / name), plot_of(sheets))
    plots = ["two.plt", "out/two-2.png", "twelve.plt", "out/twelve-03.png.part", "out/pair.png", "out/single.png"]
    status, lines = ends_of(program, folder, ["png", *EACH, *plots])
    assert status == 3 and lines == [
        "plotraster: two.plt: sheet 2: " + messages.text("output", "out/two-2.png", "a-plot"),
        "plotraster: out/two-2.png: " + messages.text("output", "out/two-2.png", "taken"),
        "plotraster: twelve.plt: sheet 3: " + messages.text("output", "out/twelve-03.png.part", "a-plot"),
        "plotraster: out/single.png: " + messages.text("output", "out/single.png", "a-plot"),
    ]
    files = files_in(folder)
    assert files["two-2.png"] == files["twelve-03.png.part"] == files["single.png"] == plot_of(1)
    assert files["pair.png"] == plot_of(2)
    assert {"two-1.png", "twelve-01.png", "twelve-12.png", "pair-1.png", "pair-2.png", "twelve-03.png.png"} <= set(files)
    assert "twelve-03.png" not in files


def test_only_plot(program, folder):
    """The messages of one plot do not name it."""
    write(str(folder / "two-2.png"), plot_of(1))
    words = ["png", *FULL, "--sheet=each", "-o", "."]
    assert ends_of(program, folder, [*words, "far.plt"]) == (1, [f"plotraster: {messages.text('off-range', 19)}"])
    write(str(folder / "one.png"), plot_of(1))
    assert ends_of(program, folder, [*words, "one.png"]) == (3, ["plotraster: " + messages.text("output", "./one.png", "the-plot")])
    assert ends_of(program, folder, [*words, ".."]) == (3, ["plotraster: " + messages.text("not-opened", "..", "a-folder")])
    assert ends_of(program, folder, ["ppm", *words[1:], ".."]) == (3, [f"plotraster: {messages.text('read')}"])
    assert ends_of(program, folder, [*words, "none.plt"])[0] == 3


def test_what_is_said_of_a_sheet(program, folder):
    """A line names the sheet if there are several."""
    write(str(folder / "off.plt"), b"PU5,5;PD500,500;PG;PU3000,3000;PD4000,4000;")
    words = ["draw", *PAGE, "-o", "out"]
    blank = messages.text("blank", "plotraster report --profile full")
    assert ends_of(program, folder, [*words, "off.plt"]) == (0, [f"plotraster: sheet 2: {blank}"])
    lines = [f"plotraster: off.plt: sheet 2: {blank}", f"plotraster: blank.plt: {blank}"]
    assert ends_of(program, folder, [*words, "off.plt", "blank.plt"]) == (0, lines)
    assert ends_of(program, folder, [*words, "--quiet", "off.plt", "blank.plt"]) == (0, [])


def test_old_files(program, folder):
    """A sheet's file is replaced; a refused plot leaves all files as they were, and no others."""
    for name in ("two-1.png", "two-2.png.part", "far.png", "far-1.png"):
        write(str(folder / "out" / name), OLD)
    assert ends_of(program, folder, ["png", *EACH, "two.plt", "far.plt"])[0] == 1
    files = files_in(folder)
    assert sorted(files) == ["far-1.png", "far.png", "two-1.png", "two-2.png"]
    assert files["far-1.png"] == files["far.png"] == OLD != files["two-1.png"]


def test_device_that_is_full(program, folder):
    """One sheet cannot be written; the others are."""
    os.symlink("/dev/full", folder / "out" / "two-1.ppm")
    lines = [f"plotraster: sheet 1: {messages.text('broken-off', 0, 0)}"]
    assert ends_of(program, folder, ["ppm", *EACH, "two.plt"]) == (3, lines)
    assert os.path.islink(folder / "out" / "two-1.ppm")
    assert read_bytes(folder / "out" / "two-2.ppm") == sheet_of(program, ["ppm", *FULL], 2, plot_of(2))
    os.symlink("/dev/full", folder / "out" / "two-2.png")
    assert ends_of(program, folder, ["png", *EACH, "two.plt"]) == (3, [f"plotraster: sheet 2: {messages.text('write')}"])


def test_limit_on_files(program, folder):
    """A part of a form stays after a failed write, and that of a PNG does not."""
    def limit():
        signal.signal(signal.SIGXFSZ, signal.SIG_IGN)
        resource.setrlimit(resource.RLIMIT_FSIZE, (200, 200))
    for command, left in [("ppm", ["two-1.ppm.part", "two-2.ppm.part"]), ("png", [])]:
        status, lines = ends_of(program, folder, [command, *EACH, "two.plt"], preexec_fn=limit)
        assert (status, len(lines)) == (3, 2)
        assert all(f"sheet {number}: {messages.text('write')}" in line for number, line in enumerate(lines, 1))
        assert sorted(files_in(folder)) == left
        for name in left:
            os.remove(folder / "out" / name)


def test_no_folder(program, folder):
    """Nothing is read or written if the sheets have no folder to go to, or the plot has no name."""
    for name, reason in [("none", "no-such-folder"), ("one.plt", "not-a-folder"), ("/dev/null", "not-a-folder")]:
        for plots in (["two.plt"], ["two.plt", "one.plt"], []):
            lines = ["plotraster: " + messages.text("output", name, reason)]
            assert ends_of(program, folder, ["png", *FULL, "--sheet=each", "-o", name, *plots]) == (3, lines)
    lines = ["plotraster: " + messages.text("output", "out", "no-name")]
    assert ends_of(program, folder, ["png", *EACH], input=plot_of(2)) == (3, lines)
    assert files_in(folder) == {}
    assert read_bytes(folder / "one.plt") == plot_of(1)


def test_refused_allocations(program, folder, refuse):
    """Each allocation of a run is refused in turn: some sheets are lost, or all, and a line says why."""
    whole, without_effect, number, seen = {"two-1.png", "two-2.png"}, 0, 0, set()
    while without_effect < 10:
        number += 1
        surroundings = dict(os.environ, LD_PRELOAD=refuse, MEMORY_FAILS=str(number))
        status, lines = ends_of(program, folder, ["png", *EACH, "two.plt"], env=surroundings)
        found = set(files_in(folder))
        assert found <= whole
        about = "" if not found else f"sheet {3 - int(min(found)[4])}: "
        assert (status, lines) == ((0, []) if found == whole else (4, [f"plotraster: {about}{messages.text('memory')}"]))
        seen.add(len(found))
        without_effect = without_effect + 1 if found == whole else 0
        for name in found:
            os.remove(folder / "out" / name)
    assert seen == {0, 1, 2}
