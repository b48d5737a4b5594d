"""What the program does with several plots in one run, and with a plot whose output goes into a folder."""

import os
import re
import resource
import signal
import stat

import pytest

from reference import messages
from reference.command_line import DOCUMENTS
from reference.outputs import FORMS
from shared import read_bytes, run, write

SECONDS = 60
SMALL = ["--width", "4000", "--height", "3000"]
LINE = b"SP1;PU0,0;PD3000,2000;"
DOWN = b"SP2;PU0,2900;PD3900,100;"
OFF_RANGE = b"PD8388607.9,0;"
OLD = b"an older picture\n"
COMMANDS = [*DOCUMENTS, *FORMS, "report"]


@pytest.fixture
def folder(tmp_path):
    """Plots, and an empty folder `out`."""
    for name, plot in [("a.plt", LINE), ("b.plt", DOWN), ("far.plt", OFF_RANGE), ("deep/a.plt", DOWN)]:
        write(str(tmp_path / name), plot)
    os.mkdir(tmp_path / "out")
    return tmp_path


def ends_of(program, folder, words, **how):
    """The exit status and the lines on standard error of a run in a folder, which writes nothing to standard output."""
    done = run(program, [words[0], *SMALL, *words[1:]], SECONDS, cwd=folder, **how)
    assert done.stdout == b""
    return done.returncode, done.stderr.decode().splitlines()


def drawn(program, command, plot):
    """What the program writes to standard output for one plot."""
    done = run(program, [command, *SMALL], SECONDS, input=plot)
    assert (done.returncode, done.stderr) == (0, b"")
    return done.stdout


def files_in(folder):
    return sorted(os.listdir(folder))


@pytest.mark.parametrize("command", COMMANDS)
def test_each_plot_has_a_file(program, folder, command):
    assert ends_of(program, folder, [command, "-o", "out", "a.plt", "b.plt"]) == (0, [])
    assert files_in(folder / "out") == [f"a.{command}", f"b.{command}"]
    for name in ("a", "b"):
        alone = run(program, [command, *SMALL, f"{name}.plt"], SECONDS, cwd=folder)
        assert (alone.returncode, alone.stderr) == (0, b"")
        assert read_bytes(folder / "out" / f"{name}.{command}") == alone.stdout != b""


@pytest.mark.parametrize("words", [
    ["b.plt", "a.plt", "-o", "out"], ["a.plt", "--output=out/", "b.plt"], ["-o", "./out//", "--", "./a.plt", "deep/../b.plt"],
])
def test_orders_of_words(program, folder, words):
    assert ends_of(program, folder, ["pbm", *words]) == (0, [])
    assert files_in(folder / "out") == ["a.pbm", "b.pbm"]


def test_names(program, folder):
    """The last extension of a file's name is replaced, or the name gets one."""
    wanted = {
        "plan": "plan.ppm", "plan.v2.hpgl": "plan.v2.ppm", ".plan": ".plan.ppm", "dot.": "dot.ppm", "a plan.PLT": "a plan.ppm",
        "-": "-.ppm", "pl\u00e4n.plt": "pl\u00e4n.ppm", "..plt": "..ppm", "deep/x.y/z": "z.ppm", "out.d/inner.plt": "inner.ppm",
    }
    for name in wanted:
        write(str(folder / name), LINE)
    assert ends_of(program, folder, ["ppm", "-oout", "--", *wanted]) == (0, [])
    assert files_in(folder / "out") == sorted(wanted.values())


def test_one_plot_into_a_folder(program, folder):
    """The messages are those of one plot."""
    assert ends_of(program, folder, ["pbm", "a.plt", "-o", "out"]) == (0, [])
    assert read_bytes(folder / "out" / "a.pbm") == drawn(program, "pbm", LINE)
    assert ends_of(program, folder, ["pbm", "far.plt", "-o", "out"]) == (1, [f"plotraster: {messages.text('off-range', 0)}"])
    status, (line,) = ends_of(program, folder, ["pbm", "--verbose", "a.plt", "-o", "out"])
    assert (status, line) == (0, "plotraster: 1 line, 0 off the page; 0 notes, see plotraster report")
    assert files_in(folder / "out") == ["a.pbm"]


def test_refused_plots(program, folder):
    """Each has one line, and the others are drawn. The exit status is the greatest."""
    lines = [
        f"plotraster: far.plt: {messages.text('off-range', 0)}",
        "plotraster: " + messages.text("open", "none.plt"),
        f"plotraster: deep: {messages.text('read')}",
        f"plotraster: ..: {messages.text('read')}",
    ]
    plots = ["a.plt", "far.plt", "none.plt", "deep", "..", "b.plt"]
    assert ends_of(program, folder, ["pbm", "-o", "out", *plots]) == (3, lines)
    assert files_in(folder / "out") == ["a.pbm", "b.pbm"]
    assert ends_of(program, folder, ["report", "-o", "out", *reversed(plots)]) == (3, lines[::-1])
    assert files_in(folder / "out") == ["a.pbm", "a.report", "b.pbm", "b.report"]


@pytest.mark.parametrize("plots, status", [
    (["far.plt", "a.plt"], 1), (["a.plt", "far.plt"], 1), (["none.plt", "far.plt"], 3), (["far.plt", "none.plt"], 3),
])
def test_exit_status_is_the_greatest(program, folder, plots, status):
    assert ends_of(program, folder, ["marks", "-o", "out", *plots])[0] == status


def test_refused_for_the_options(program, folder):
    """Each plot has its line: a resolution that PCL lacks, and a first row past the last row."""
    lines = [f"plotraster: {name}: {messages.text('resolution')}" for name in ("a.plt", "b.plt")]
    assert ends_of(program, folder, ["pcl", "--dots=127", "-o", "out", "a.plt", "b.plt"]) == (2, lines)
    lines = [f"plotraster: {name}: {messages.text('first-row')}" for name in ("a.plt", "b.plt")]
    assert ends_of(program, folder, ["pbm", "--from=9999", "-o", "out", "a.plt", "b.plt"]) == (2, lines)
    assert files_in(folder / "out") == []


def test_rows_from_a_row_on(program, folder):
    assert ends_of(program, folder, ["pbm", "--from=200", "-o", "out", "a.plt", "b.plt"]) == (0, [])
    assert drawn(program, "pbm", LINE).endswith(read_bytes(folder / "out" / "a.pbm"))
    assert drawn(program, "pbm", DOWN).endswith(read_bytes(folder / "out" / "b.pbm"))


def test_old_files(program, folder):
    """A file is replaced if the plot is drawn, and stays if it is refused."""
    for name in ("a.pbm", "far.pbm", "b.pbm.part"):
        write(str(folder / "out" / name), OLD)
    assert ends_of(program, folder, ["pbm", "-o", "out", "a.plt", "b.plt", "far.plt"])[0] == 1
    assert files_in(folder / "out") == ["a.pbm", "b.pbm", "far.pbm"]
    assert read_bytes(folder / "out" / "a.pbm") == drawn(program, "pbm", LINE)
    assert read_bytes(folder / "out" / "b.pbm") == drawn(program, "pbm", DOWN)
    assert read_bytes(folder / "out" / "far.pbm") == OLD


def test_plots_of_one_name(program, folder):
    """Only the first of them is drawn."""
    write(str(folder / "a.hpgl"), DOWN)
    plots = ["a.plt", "deep/a.plt", "b.plt", "a.hpgl", "./a.plt"]
    lines = [f"plotraster: {name}: " + messages.text("output", "out/a.pbm", "taken")
             for name in ("deep/a.plt", "a.hpgl", "./a.plt")]
    assert ends_of(program, folder, ["pbm", "-o", "out", *plots]) == (3, lines)
    assert files_in(folder / "out") == ["a.pbm", "b.pbm"]
    assert read_bytes(folder / "out" / "a.pbm") == drawn(program, "pbm", LINE)


def test_refused_plots_take_their_names(program, folder):
    """A later plot of the name of a refused one, or of one whose output is a plot, is not drawn."""
    write(str(folder / "deep" / "far.plt"), LINE)
    write(str(folder / "out" / "a.pbm"), LINE)
    plots = ["far.plt", "deep/far.plt", "a.plt", "deep/a.plt", "out/a.pbm"]
    assert ends_of(program, folder, ["pbm", "-o", "out", *plots]) == (3, [
        f"plotraster: far.plt: {messages.text('off-range', 0)}",
        "plotraster: deep/far.plt: " + messages.text("output", "out/far.pbm", "taken"),
        "plotraster: a.plt: " + messages.text("output", "out/a.pbm", "a-plot"),
        "plotraster: deep/a.plt: " + messages.text("output", "out/a.pbm", "taken"),
        "plotraster: out/a.pbm: " + messages.text("output", "out/a.pbm", "taken"),
    ])
    assert files_in(folder / "out") == ["a.pbm"]
    assert read_bytes(folder / "out" / "a.pbm") == LINE


def test_plot_that_is_missing_takes_no_name(program, folder):
    lines = ["plotraster: " + messages.text("open", "none/a.plt")]
    assert ends_of(program, folder, ["pbm", "-o", "out", "none/a.plt", "a.plt"]) == (3, lines)
    assert files_in(folder / "out") == ["a.pbm"]


def test_plots_are_not_overwritten(program, folder):
    """Also through a link, if the plot comes later, or as FILE.part."""
    write(str(folder / "out" / "a.pbm"), LINE)
    write(str(folder / "out" / "c.pbm.part"), LINE)
    write(str(folder / "c.plt"), DOWN)
    os.symlink("out/a.pbm", folder / "link.plt")
    os.link(folder / "b.plt", folder / "out" / "b.pbm")
    plots = ["a.plt", "b.plt", "link.plt", "c.plt", "out/c.pbm.part"]
    status, lines = ends_of(program, folder, ["pbm", "-o", "out", *plots])
    assert status == 3 and lines == [
        "plotraster: a.plt: " + messages.text("output", "out/a.pbm", "a-plot"),
        "plotraster: b.plt: " + messages.text("output", "out/b.pbm", "a-plot"),
        "plotraster: c.plt: " + messages.text("output", "out/c.pbm.part", "a-plot"),
    ]
    assert read_bytes(folder / "out" / "a.pbm") == read_bytes(folder / "out" / "c.pbm.part") == LINE
    assert read_bytes(folder / "out" / "b.pbm") == DOWN
    assert files_in(folder / "out") == ["a.pbm", "b.pbm", "c.pbm.part", "c.pbm.pbm", "link.pbm"]


def test_last_of_many_plots_is_not_overwritten(program, folder):
    """Each plot of a run is a plot, however many there are."""
    names = [f"many/{number}.plt" for number in range(300)]
    for name in names:
        write(str(folder / name), LINE)
    for last in ("0.pbm", "7.pbm.part"):
        write(str(folder / "out" / last), DOWN)
    plots = [*names, "out/0.pbm", "out/7.pbm.part"]
    status, lines = ends_of(program, folder, ["pbm", "--dots=10", "-o", "out", *plots])
    assert status == 3 and lines == [
        "plotraster: many/0.plt: " + messages.text("output", "out/0.pbm", "a-plot"),
        "plotraster: many/7.plt: " + messages.text("output", "out/7.pbm.part", "a-plot"),
        "plotraster: out/0.pbm: " + messages.text("output", "out/0.pbm", "taken"),
    ]
    assert read_bytes(folder / "out" / "0.pbm") == read_bytes(folder / "out" / "7.pbm.part") == DOWN


def test_the_only_plot_is_not_overwritten(program, folder):
    write(str(folder / "a.pbm"), LINE)
    lines = ["plotraster: " + messages.text("output", "./a.pbm", "the-plot")]
    assert ends_of(program, folder, ["pbm", "-o", ".", "a.pbm"]) == (3, lines)
    assert read_bytes(folder / "a.pbm") == LINE


def test_no_folder(program, folder):
    """Nothing is read or written if the plots have no folder to go to."""
    needs = (2, [f"plotraster: {messages.text('no-folder')}"])
    for command in COMMANDS:
        assert ends_of(program, folder, [command, "a.plt", "none.plt"]) == needs
    for name, reason in [("none", "no-such-folder"), ("none/out", "no-such-folder"), ("", "no-such-folder"),
                         ("b.plt", "not-a-folder"), ("b.plt/out", "Not a directory (os error 20)"),
                         ("/dev/null", "not-a-folder")]:
        lines = ["plotraster: " + messages.text("output", name, reason)]
        assert ends_of(program, folder, ["ppm", f"--output={name}", "a.plt", "none.plt"]) == (3, lines)
    assert files_in(folder) == ["a.plt", "b.plt", "deep", "far.plt", "out"]


def test_standard_input_has_no_name(program, folder):
    lines = ["plotraster: " + messages.text("output", "out", "Is a directory (os error 21)")]
    assert ends_of(program, folder, ["pbm", "-o", "out"], input=LINE) == (3, lines)


def test_what_is_said_of_each_plot(program, folder):
    """The lines of --verbose and of --fit name the plots, as those of refused plots do. Why a file cannot be opened follows."""
    write(str(folder / "blank.plt"), b"IN;")
    plots = ["a.plt", "none.plt", "blank.plt", "far.plt"]
    status, lines = ends_of(program, folder, ["pbm", "--fit", "--verbose", "-o", "out", *plots])
    assert status == 3 and lines == [
        "plotraster: a.plt: 1 line, 0 off the page; 0 notes, see plotraster report",
        "plotraster: " + messages.text("open", "none.plt"),
        f"plotraster: {messages.reason('no-such-file')}",
        f"plotraster: blank.plt: {messages.text('blank-to-fit')}",
        "plotraster: blank.plt: nothing is drawn: 0 lines, 0 off the page; 0 notes, see plotraster report",
        f"plotraster: far.plt: {messages.text('off-range', 0)}",
    ]


def test_files_that_cannot_be_written(program, folder):
    """A folder under the name of the output, and a name that is too long; a device of this name is written."""
    os.mkdir(folder / "out" / "a.pbm.part")
    write(str(folder / ("n" * 251)), LINE)
    os.symlink("/dev/null", folder / "out" / "deep.pbm")
    write(str(folder / "deep.plt"), LINE)
    status, lines = ends_of(program, folder, ["pbm", "-o", "out", "a.plt", "n" * 251, "deep.plt", "b.plt"])
    assert status == 3 and lines == [
        "plotraster: a.plt: " + messages.text("output", "out/a.pbm.part", "Is a directory (os error 21)"),
        f"plotraster: {'n' * 251}: " + messages.text("output", f"out/{'n' * 251}.pbm.part", "File name too long (os error 36)"),
    ]
    assert files_in(folder / "out") == ["a.pbm.part", "b.pbm", "deep.pbm"]
    assert stat.S_ISCHR(os.stat(folder / "out" / "deep.pbm").st_mode)


def test_limit_on_files(program, folder):
    """A failed write names its plot, and its part of the picture stays; a plot whose report is short is written."""
    def limit():
        signal.signal(signal.SIGXFSZ, signal.SIG_IGN)
        resource.setrlimit(resource.RLIMIT_FSIZE, (20000, 20000))
    status, lines = ends_of(program, folder, ["ppm", "-o", "out", "a.plt", "b.plt"], preexec_fn=limit)
    found = [re.fullmatch(r"plotraster: (.)\.plt: " + messages.text("broken-off", r"\d+", r"\d+"), it)[1] for it in lines]
    assert (status, found) == (3, ["a", "b"])
    assert files_in(folder / "out") == ["a.ppm.part", "b.ppm.part"]
    assert drawn(program, "ppm", LINE).startswith(read_bytes(folder / "out" / "a.ppm.part"))


def test_many_plots(program, folder):
    """Again, when all files are there."""
    names = [f"many/{number}.plt" for number in range(500)]
    for name in names:
        write(str(folder / name), LINE)
    for _ in range(2):
        assert ends_of(program, folder, ["pbm", "-o", "out", "--dots=10", *names]) == (0, [])
    assert len(files_in(folder / "out")) == 500


def test_refused_allocations(program, folder, refuse):
    """Each allocation of a run is refused in turn: all plots are drawn, or all but one, or none, and each time a line says why."""
    write(str(folder / "c.plt"), LINE)
    names, found, number, without_effect = ["a", "b", "c"], set(), 0, 0
    while without_effect < 10:
        number += 1
        surroundings = dict(os.environ, LD_PRELOAD=refuse, MEMORY_FAILS=str(number))
        status, lines = ends_of(program, folder, ["pbm", "-o", "out", *(f"{name}.plt" for name in names)], env=surroundings)
        drawn_names = [name.removesuffix(".pbm") for name in files_in(folder / "out")]
        for name in drawn_names:
            os.remove(folder / "out" / f"{name}.pbm")
        lost = [name for name in names if name not in drawn_names]
        about = "" if len(lost) == 3 else "".join(f"{name}.plt: " for name in lost)
        assert len(lost) in (0, 1, 3)
        assert (status, lines) == ((4, [f"plotraster: {about}{messages.text('memory')}"]) if lost else (0, []))
        found.add((status, about))
        without_effect = 0 if lost else without_effect + 1
    assert found == {(0, ""), (4, ""), *((4, f"{name}.plt: ") for name in names)}
