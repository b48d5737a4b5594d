"""Outputs that cannot be synced, outputs that are the plot, files that are open already, and folders of any name."""

import os
import subprocess

import pytest

from reference import messages
from reference.command_line import DOCUMENTS, NO_SUCH_FORM
from reference.outputs import FORMS
from shared import read_bytes, run, write

SECONDS = 60
SMALL = ["--width=4000", "--height=3000"]
LINE = b"SP1;PU0,0;PD3000,2000;"
TWO = b"SP2;PU0,0;PD3000,2000;PG;SP1;PU0,900;PD3000,9;"
OFF_RANGE = b"PD8388607.9,0;"
OLD = b"an older picture\n"
COMMANDS = [*DOCUMENTS, *FORMS, "report"]
NOT_WRITTEN = messages.text("write")
GO_ON = messages.text("broken-off", 0, 0)
# Words of a shell that close standard files.
CLOSED = {"error": "2>&-", "output and error": "1>&- 2>&-", "input and error": "0<&- 2>&-", "all": "0<&- 1>&- 2>&-"}


@pytest.fixture
def folder(tmp_path):
    """Plots, and an empty folder `out`."""
    for name, plot in [("a.plt", LINE), ("b.plt", LINE), ("c.plt", LINE), ("two.plt", TWO), ("blank.plt", b"IN;")]:
        write(str(tmp_path / name), plot)
    os.mkdir(tmp_path / "out")
    return tmp_path


def ends_of(program, folder, words, **how):
    """The exit status and the messages of a run in a folder, which writes nothing to standard output."""
    done = run(program, words, SECONDS, cwd=folder, **how)
    assert done.stdout == b"", words
    lines = done.stderr.decode().splitlines()
    assert all(line.startswith("plotraster: ") for line in lines), lines
    return done.returncode, [line.removeprefix("plotraster: ") for line in lines]


def drawn(program, words, plot=LINE):
    """What the program writes to standard output."""
    done = run(program, words, SECONDS, input=plot)
    assert (done.returncode, done.stderr) == (0, b""), words
    return done.stdout


def files_in(folder):
    return sorted(os.listdir(folder))


def with_failing_sync(refuse, number=1):
    """The surroundings of a run of which this sync fails."""
    return {"env": dict(os.environ, LD_PRELOAD=refuse, SYNC_FAILS=str(number))}


# ---- files that cannot be synced


def not_synced(form):
    """What is said of a file of this form that cannot be synced."""
    return NOT_WRITTEN if form in DOCUMENTS else GO_ON


def parts(*names):
    """The files FILE.part that are left: they stay for forms that can be gone on with."""
    return [f"{name}.part" for name in names if name.split(".")[-1] not in DOCUMENTS]


def assert_not_synced(program, folder, refuse, words, form):
    """An older file stays, and there is no new one; FILE.part has the whole output."""
    names = [f"old.{form}", f"new.{form}"]
    write(str(folder / names[0]), OLD)
    whole = drawn(program, words)
    for name in names:
        ends = ends_of(program, folder, [*words, "-o", name], input=LINE, **with_failing_sync(refuse))
        assert ends == (3, [not_synced(form)])
    assert files_in(folder) == sorted([names[0], *parts(*names)])
    assert read_bytes(folder / names[0]) == OLD and all(read_bytes(folder / name) == whole for name in parts(*names))


@pytest.mark.parametrize("command", COMMANDS)
def test_failed_sync(program, tmp_path, refuse, command):
    assert_not_synced(program, tmp_path, refuse, [command, *SMALL], command)


@pytest.mark.parametrize("form", COMMANDS[:-1])
def test_failed_sync_of_draw(program, tmp_path, refuse, form):
    assert_not_synced(program, tmp_path, refuse, ["draw", f"--form={form}", *SMALL], form)


def test_failed_sync_of_later_rows(program, tmp_path, refuse):
    """Nothing after the first row of the run is safe."""
    ends = ends_of(program, tmp_path, ["pbm", *SMALL, "--from=200", "-o", "out"], input=LINE, **with_failing_sync(refuse))
    assert ends == (3, [messages.text("broken-off", 200, 0)])
    assert drawn(program, ["pbm", *SMALL]).endswith(read_bytes(tmp_path / "out.part"))


@pytest.mark.parametrize("command", COMMANDS)
def test_failed_sync_of_one_plot(program, folder, refuse, command):
    """Each file is synced once. The others are written."""
    words = [command, *SMALL, "-o", "out", "a.plt", "b.plt", "c.plt"]
    ends = ends_of(program, folder, words, **with_failing_sync(refuse, 2))
    assert ends == (3, [f"b.plt: {not_synced(command)}"])
    assert files_in(folder / "out") == [f"a.{command}", *parts(f"b.{command}"), f"c.{command}"]


@pytest.mark.parametrize("words, form", [
    (["png"], "png"), (["svg"], "svg"), (["dxf"], "dxf"), (["ppm"], "ppm"), (["draw"], "png"), (["draw", "--form=pbm"], "pbm"),
])
def test_failed_sync_of_one_sheet(program, folder, refuse, words, form):
    words = [*words, *SMALL, "--profile=full", "--sheet=each", "-o", "out"]
    said = f"sheet 2: {not_synced(form)}"
    for plots, about in [(["two.plt"], ""), (["two.plt", "c.plt"], "two.plt: ")]:
        assert ends_of(program, folder, [*words, *plots], **with_failing_sync(refuse, 2)) == (3, [about + said])
    assert files_in(folder / "out") == [f"c.{form}", f"two-1.{form}", *parts(f"two-2.{form}")]


@pytest.mark.parametrize("words, plot", [
    (["pbm", "--verbose"], LINE), (["report", "--verbose"], LINE), (["png", "--fit"], b"IN;"), (["draw"], b"IN;"),
    (["draw", "--form=svg"], TWO), (["draw"], LINE + b"XX;XX;"), (["marks", "--page=plot"], LINE),
])
def test_remarks_on_a_file_that_is_not_synced(program, tmp_path, refuse, words, plot):
    """Only the failure is said, and without it the remark is."""
    done = run(program, words, SECONDS, input=plot)
    assert done.returncode == 0 and done.stderr.startswith(b"plotraster: ")
    status, (line,) = ends_of(program, tmp_path, [*words, "-o", "new"], input=plot, **with_failing_sync(refuse))
    assert status == 3 and line.startswith(NOT_WRITTEN)


def test_remarks_on_the_other_files(program, folder, refuse):
    """Also on the other sheets of one plot."""
    words = ["pbm", *SMALL, "--verbose", "-o", "out", "a.plt", "b.plt"]
    said = "1 line, 0 off the page; 0 notes, see plotraster report"
    assert ends_of(program, folder, words, **with_failing_sync(refuse)) == (3, [f"a.plt: {GO_ON}", f"b.plt: {said}"])
    words = ["draw", *SMALL, "--verbose", "-o", "out", "two.plt"]
    ends = ends_of(program, folder, words, **with_failing_sync(refuse))
    assert ends == (3, [f"sheet 1: {NOT_WRITTEN}", f"sheet 2: {said} --profile full"])


@pytest.mark.parametrize("command", COMMANDS)
def test_failed_sync_of_a_refused_plot(program, tmp_path, refuse, command):
    """Of a plot that is not written only the refusal is said."""
    ends = ends_of(program, tmp_path, [command, "-o", "new"], input=OFF_RANGE, **with_failing_sync(refuse))
    assert (ends, files_in(tmp_path)) == ((1, [messages.text("off-range", 0)]), [])


@pytest.mark.parametrize("command", COMMANDS)
def test_what_is_not_synced(program, tmp_path, refuse, command):
    """Devices, pipes and what is open already."""
    words, how, whole = [command, *SMALL], with_failing_sync(refuse), drawn(program, [command, *SMALL])
    assert ends_of(program, tmp_path, [*words, "-o", "/dev/null"], input=LINE, **how) == (0, [])
    assert run(program, words, SECONDS, input=LINE, **how).stdout == whole
    os.mkfifo(tmp_path / "pipe")
    with open(tmp_path / "piped", "wb") as to, subprocess.Popen(["cat", "pipe"], stdout=to, cwd=tmp_path) as reader:
        assert ends_of(program, tmp_path, [*words, "-o", "pipe"], input=LINE, **how) == (0, [])
        assert reader.wait(SECONDS) == 0
    for name, more in [("output", []), ("named", ["-o", "/dev/stdout"])]:
        with open(tmp_path / name, "wb") as to:
            given = {"executable": program, "cwd": tmp_path, "input": LINE, "timeout": SECONDS, **how}
            done = subprocess.run(["plotraster", *words, *more], stdout=to, stderr=subprocess.PIPE, **given)
        assert (done.returncode, done.stderr) == (0, b"")
    assert [read_bytes(tmp_path / name) for name in ("piped", "output", "named")] == 3 * [whole]


# ---- files that are open already


@pytest.mark.parametrize("name", ["/dev/fd/3", "/proc/self/fd/3"])
@pytest.mark.parametrize("command", ["png", "ppm", "report"])
def test_open_file_by_its_name(program, tmp_path, refuse, name, command):
    """It is written as a device, and not synced."""
    words = ["sh", "-c", 'exec "$@" 3> picture', "sh", program, command, *SMALL, "-o", name]
    done = subprocess.run(words, input=LINE, capture_output=True, cwd=tmp_path, timeout=SECONDS, **with_failing_sync(refuse))
    assert (done.returncode, done.stdout, done.stderr) == (0, b"", b"")
    assert read_bytes(tmp_path / "picture") == drawn(program, [command, *SMALL])
    assert files_in(tmp_path) == ["picture"] and not os.path.exists(f"{name}.part")


@pytest.mark.parametrize("closed", CLOSED.values(), ids=CLOSED)
@pytest.mark.parametrize("words, plot, name", [
    (["draw"], "blank", "new"), (["draw"], "blank", "out/blank.png"), (["draw", "--form=pbm", "--verbose"], "two", "out/two-2.pbm"),
    (["pbm", "--verbose"], "a", "new"), (["report", "--verbose"], "a", "out/a.report"), (["svg", "--fit"], "blank", "new"),
])
def test_nothing_is_said_into_a_file(program, folder, closed, words, plot, name):
    """An output that is opened gets the number of a standard file that is closed."""
    words = [*words, *(SMALL if "--fit" not in words else [])]
    to = "out" if name.startswith("out/") else name
    done = ["sh", "-c", f'exec "$@" {closed}', "sh", program, *words, "-o", to, f"{plot}.plt"]
    assert subprocess.run(done, cwd=folder, stdout=subprocess.DEVNULL, timeout=SECONDS).returncode == 0
    sheet = ["--sheet=2"] if plot == "two" else []
    assert read_bytes(folder / name) == run(program, [*words, *sheet, f"{plot}.plt"], SECONDS, cwd=folder).stdout


@pytest.mark.parametrize("command", COMMANDS)
def test_closed_standard_input(program, tmp_path, command):
    """What is written is not read as the plot."""
    words = ["sh", "-c", 'exec "$@" 0<&-', "sh", program, command, "-o", "new"]
    done = subprocess.run(words, cwd=tmp_path, capture_output=True, timeout=SECONDS)
    assert (done.returncode, done.stdout, done.stderr) == (3, b"", messages.said("read"))
    assert files_in(tmp_path) == []


# ---- the plot on standard input


def ends_with_plot(program, folder, name, words):
    """How a run ends whose standard input is the file of this name."""
    with open(folder / name, "rb") as plot:
        return ends_of(program, folder, words, stdin=plot)


@pytest.mark.parametrize("command", COMMANDS)
def test_plot_on_standard_input_is_not_overwritten(program, tmp_path, command):
    """By whatever name it is open."""
    write(str(tmp_path / "out.part"), LINE)
    os.symlink("out.part", tmp_path / "link")
    os.link(tmp_path / "out.part", tmp_path / "hard")
    for name in ("out.part", "link", "hard"):
        ends = ends_with_plot(program, tmp_path, name, [command, "-o", "out"])
        assert ends == (3, [messages.text("output", "out.part", "the-plot")])
    assert files_in(tmp_path) == ["hard", "link", "out.part"] and read_bytes(tmp_path / "out.part") == LINE


def test_part_that_is_a_link_to_the_plot_on_standard_input(program, tmp_path):
    write(str(tmp_path / "plot"), LINE)
    for make in (os.symlink, os.link):
        make("plot" if make is os.symlink else tmp_path / "plot", tmp_path / "out.part")
        ends = ends_with_plot(program, tmp_path, "plot", ["pbm", "-o", "out"])
        assert ends == (3, [messages.text("output", "out.part", "the-plot")])
        os.remove(tmp_path / "out.part")
    assert files_in(tmp_path) == ["plot"] and read_bytes(tmp_path / "plot") == LINE


@pytest.mark.parametrize("command", COMMANDS)
def test_plot_on_standard_input_is_replaced(program, tmp_path, command):
    """As it is by its name; another name that it has stays that of the plot."""
    write(str(tmp_path / "out"), LINE)
    os.link(tmp_path / "out", tmp_path / "plot")
    for name in ("out", "plot"):
        assert ends_with_plot(program, tmp_path, name, [command, "-o", "out"]) == (0, [])
        assert read_bytes(tmp_path / "out") == drawn(program, [command])
    assert files_in(tmp_path) == ["out", "plot"] and read_bytes(tmp_path / "plot") == LINE


def test_standard_input_that_is_not_read(program, tmp_path):
    """It is no plot if a plot is named."""
    write(str(tmp_path / "a.plt"), LINE)
    write(str(tmp_path / "out.part"), OLD)
    assert ends_with_plot(program, tmp_path, "out.part", ["pbm", "a.plt", "-o", "out"]) == (0, [])
    assert files_in(tmp_path) == ["a.plt", "out"] and read_bytes(tmp_path / "out") == drawn(program, ["pbm"])


# ---- files of one number on two devices


def test_numbers_on_two_devices(program, tmp_path, one_number):
    """A file is a plot by its number and its device. Here all files of a device are one."""
    how = {"env": dict(os.environ, LD_PRELOAD=one_number)}
    for name in ("other/a.plt", "other/b.plt"):
        write(str(tmp_path / name), LINE)
    for name in ("a.pbm", "b.pbm", "c.part"):
        write(str(tmp_path / name), OLD)
    assert ends_of(program, tmp_path, ["pbm", "-o", ".", "other/a.plt", "other/b.plt"], **how) == (0, [])
    assert ends_of(program, tmp_path, ["pbm", "-o", "c", "other/a.plt"], **how) == (0, [])
    write(str(tmp_path / "d.part"), OLD)
    with open(tmp_path / "other" / "a.plt", "rb") as plot:
        assert ends_of(program, tmp_path, ["pbm", "-o", "d"], stdin=plot, **how) == (0, [])
    assert files_in(tmp_path) == ["a.pbm", "b.pbm", "c", "d", "other"]
    assert {read_bytes(tmp_path / name) for name in ("a.pbm", "b.pbm", "c", "d")} == {drawn(program, ["pbm"])}
    write(str(tmp_path / "other" / "c.part"), OLD)
    said = [messages.text("output", "other/c.part", "the-plot")]
    assert ends_of(program, tmp_path, ["pbm", "-o", "other/c", "other/a.plt"], **how) == (3, said)
    assert ends_of(program, tmp_path, ["pbm", "-o", "other", "other/a.plt"], **how) == (0, [])
    said = [messages.text("output", "other/a.pbm", "the-plot")]
    assert ends_of(program, tmp_path, ["pbm", "-o", "other", "other/a.plt"], **how) == (3, said)


# ---- folders


@pytest.mark.parametrize("name", ["pictures.2026", "pictures.pdf", "pictures.plt.d", "pictures.report", "pictures"])
@pytest.mark.parametrize("is_link", [False, True])
def test_folder_of_any_name(program, folder, name, is_link):
    """Its name says no form."""
    os.mkdir(folder / "to")
    if is_link:
        os.symlink("to", folder / name)
    else:
        os.rename(folder / "to", folder / name)
    for words, file in [([], "a.png"), (["--form=svg"], "a.svg"), (["--form=PPM"], "a.ppm")]:
        assert ends_of(program, folder, ["draw", *SMALL, *words, "-o", name, "a.plt"]) == (0, [])
        assert files_in(folder / name) == [file] and read_bytes(folder / name / file) == drawn(program, ["draw", *SMALL, *words])
        os.remove(folder / name / file)
    assert ends_of(program, folder, ["draw", *SMALL, "-o", f"{name}/", "b.plt", "two.plt"]) == (0, [])
    assert files_in(folder / name) == ["b.png", "two-1.png", "two-2.png"]


@pytest.mark.parametrize("plots", [["a.plt"], ["a.plt", "b.plt"]])
def test_no_folder_of_this_name(program, folder, plots):
    """The extension of a file names a form."""
    write(str(folder / "file.2026"), OLD)
    os.symlink("none", folder / "dangling.2026")
    os.symlink("file.2026", folder / "link.2026")
    before = files_in(folder)
    for name in ("pictures.2026", "file.2026", "dangling.2026", "link.2026", "none/pictures.2026"):
        assert ends_of(program, folder, ["draw", *SMALL, "-o", name, *plots]) == (2, [NO_SUCH_FORM])
    assert files_in(folder) == before and read_bytes(folder / "file.2026") == OLD


def test_extension_of_a_file(program, folder):
    """It names the form, unless there is a folder of this name."""
    words = ["draw", *SMALL, "-o", "pictures.svg", "a.plt"]
    assert ends_of(program, folder, words) == (0, [])
    assert read_bytes(folder / "pictures.svg") == drawn(program, ["draw", *SMALL, "--form=svg"])
    os.remove(folder / "pictures.svg")
    os.mkdir(folder / "pictures.svg")
    assert ends_of(program, folder, words) == (0, [])
    assert files_in(folder / "pictures.svg") == ["a.png"]


def test_no_name_in_a_folder_of_any_name(program, folder):
    """The plot on standard input has none."""
    os.mkdir(folder / "pictures.2026")
    status, (line,) = ends_of(program, folder, ["draw", *SMALL, "-o", "pictures.2026"], input=LINE)
    assert status == 3 and line.startswith(messages.text("output", "pictures.2026", ""))
    assert files_in(folder / "pictures.2026") == []


@pytest.mark.parametrize("words, said", [
    *(([command], messages.text("not-opened", "{}", "a-folder")) for command in ("draw", *DOCUMENTS)),
    *((["draw", f"--form={form}"], messages.text("not-opened", "{}", "a-folder")) for form in FORMS),
    *(([command], messages.text("read")) for command in (*FORMS, "report")),
])
def test_folder_as_a_plot(program, folder, words, said):
    """Also if it is empty, a link, or one of several plots. The others are drawn."""
    form = words[-1].removeprefix("--form=").replace("draw", "png")
    os.mkdir(folder / "deep")
    os.symlink("deep", folder / "link")
    for name in ("deep", "deep/", "link", ".", "out/.."):
        assert ends_of(program, folder, [*words, *SMALL, name]) == (3, [said.format(name)])
        assert ends_of(program, folder, [*words, *SMALL, "-o", "new", name]) == (3, [said.format(name)])
    assert "new" not in files_in(folder) and "new.part" not in files_in(folder)
    about = "{}: " if said == messages.text("read") else ""
    lines = [(about + said).format(name, name) for name in ("deep", "..")]
    assert ends_of(program, folder, [*words, *SMALL, "-o", "out", "deep", "a.plt", "..", "b.plt"]) == (3, lines)
    assert files_in(folder / "out") == [f"a.{form}", f"b.{form}"]
