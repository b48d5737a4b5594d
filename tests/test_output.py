"""What the program does with the file that `-o` or `--output` names."""

import os
import re
import resource
import shutil
import signal
import stat
import subprocess
import tempfile

import pytest
from reference import messages
from reference.command_line import DOCUMENTS
from reference.outputs import FORMS
from shared import read_bytes, run, write

SECONDS = 30
SMALL = ["--width", "4000", "--height", "3000"]
LINE = b"SP1;PU0,0;PD3000,2000;"
OLD = b"an older picture\n"


def write_to(program, folder, words, plot=LINE, **how):
    """A run in a folder, on a small page."""
    done = run(program, [*words, *SMALL], SECONDS, input=plot, cwd=folder, **how)
    assert done.stdout == b""
    return done.returncode, done.stderr


def cannot_write(name, reason):
    return messages.refused("output", name, reason)


def wanted(program, command, plot=LINE):
    """What the program writes to standard output."""
    done = run(program, [command, *SMALL], SECONDS, input=plot)
    assert (done.returncode, done.stderr) == (0, b"")
    return done.stdout


@pytest.mark.parametrize("command", [*DOCUMENTS, *FORMS, "report"])
def test_file_has_what_standard_output_has(program, tmp_path, command):
    for name, words in [("a", ["-o", "a"]), ("b", ["--output=b"]), ("c.c", ["-oc.c"]), ("-", ["--output", "-"])]:
        assert write_to(program, tmp_path, [command, *words]) == (0, b"")
        assert read_bytes(tmp_path / name) == wanted(program, command)
    assert sorted(os.listdir(tmp_path)) == ["-", "a", "b", "c.c"]


def test_old_file_is_replaced(program, tmp_path):
    """Also by a shorter one, over an older FILE.part, and if it is the plot."""
    write(str(tmp_path / "out"), OLD * 9999)
    write(str(tmp_path / "out.part"), OLD * 9999)
    assert write_to(program, tmp_path, ["report", "-o", "out"]) == (0, b"")
    assert read_bytes(tmp_path / "out") == wanted(program, "report")
    write(str(tmp_path / "out"), LINE)
    assert write_to(program, tmp_path, ["pbm", "out", "-o", "out"]) == (0, b"")
    assert read_bytes(tmp_path / "out") == wanted(program, "pbm")
    assert os.listdir(tmp_path) == ["out"]


@pytest.mark.parametrize("plot, ends", [(LINE, (0, b"")), (b"PD8388607.9,0;", messages.refused("off-range", 0))])
@pytest.mark.parametrize("make", [os.symlink, os.link, lambda _, part: os.mkfifo(part)], ids=["link", "hard link", "pipe"])
def test_older_part_is_replaced(program, tmp_path, make, plot, ends):
    """Not what it leads to, also if it is no file of its own; a refused plot leaves that, too."""
    write(str(tmp_path / "other"), OLD)
    make(tmp_path / "other", tmp_path / "out.part")
    assert write_to(program, tmp_path, ["pbm", "-o", "out"], plot) == ends
    assert read_bytes(tmp_path / "other") == OLD and sorted(os.listdir(tmp_path)) == (["other"] if ends[0] else ["other", "out"])
    assert ends[0] or not os.path.islink(tmp_path / "out") and read_bytes(tmp_path / "out") == wanted(program, "pbm")


@pytest.mark.parametrize("words, plot, ends", [
    ([], b"PD8388607.9,0;", messages.refused("off-range", 0)),
    (["--dots=10", "--from=999"], LINE, messages.refused("first-row")),
    (["folder"], LINE, messages.refused("read")),
    (["missing.plt"], LINE, messages.refused("open", "missing.plt")),
    (["missing.plt", "--verbose"], LINE, (3, messages.said("open", "missing.plt") + messages.said_why("no-such-file"))),
    (["--pens=0"], LINE, messages.refused("pens")),
])
def test_refused_plot_leaves_the_old_file(program, tmp_path, words, plot, ends):
    os.mkdir(tmp_path / "folder")
    write(str(tmp_path / "out"), OLD)
    assert write_to(program, tmp_path, ["pbm", *words, "-o", "out"], plot) == ends
    assert write_to(program, tmp_path, ["pbm", *words, "-o", "new"], plot) == ends
    assert (sorted(os.listdir(tmp_path)), read_bytes(tmp_path / "out")) == (["folder", "out"], OLD)


def test_plot_too_long_leaves_the_old_file(program, tmp_path):
    write(str(tmp_path / "out"), OLD)
    ends = messages.refused("too-long")
    assert write_to(program, tmp_path, ["pbm", "-o", "out"], b" " * 67108865) == ends
    assert (os.listdir(tmp_path), read_bytes(tmp_path / "out")) == (["out"], OLD)


def test_files_that_cannot_be_written(program, tmp_path):
    os.mkdir(tmp_path / "folder")
    for name, refused, reason in [
        ("missing/out", "missing/out.part", "no-such-folder"),
        ("folder", "folder", "Is a directory (os error 21)"),
        ("n" * 255, "n" * 255 + ".part", "File name too long (os error 36)"),
    ]:
        assert write_to(program, tmp_path, ["ppm", "-o", name]) == cannot_write(refused, reason)
    assert os.listdir(tmp_path) == ["folder"]


def test_file_that_cannot_be_renamed(program, tmp_path):
    """The output stays in FILE.part."""
    assert write_to(program, tmp_path, ["ppm", "--output="]) == cannot_write("", "no-such-folder")
    assert os.listdir(tmp_path) == [".part"]
    assert read_bytes(tmp_path / ".part") == wanted(program, "ppm")


def test_refusal_of_the_plot_file_comes_first(program, tmp_path):
    ends = messages.refused("open", "missing.plt")
    assert write_to(program, tmp_path, ["pbm", "missing.plt", "-o", "missing/out"]) == ends
    ends = cannot_write("missing/out.part", "no-such-folder")
    assert write_to(program, tmp_path, ["pbm", "-o", "missing/out"], b"PD8388607.9,0;") == ends


def test_plot_is_not_overwritten(program, tmp_path):
    write(str(tmp_path / "out.part"), LINE)
    os.symlink("out.part", tmp_path / "link")
    for name in ["out.part", "./out.part", "link"]:
        assert write_to(program, tmp_path, ["pbm", name, "-o", "out"]) == cannot_write("out.part", "it is the plot")
    assert (sorted(os.listdir(tmp_path)), read_bytes(tmp_path / "out.part")) == (["link", "out.part"], LINE)


def test_folder_that_may_not_be_written(program):
    """Root may write to all, so root runs the program as another user."""
    another = {"user": 65534} if os.geteuid() == 0 else {}
    with tempfile.TemporaryDirectory() as folder:
        os.chmod(folder, 0o755)
        copy = shutil.copy(program, folder)
        os.chmod(copy, 0o755)
        os.mkdir(os.path.join(folder, "locked"), 0o555)
        ends = cannot_write("locked/out.part", "denied")
        assert write_to(copy, folder, ["pbm", "-o", "locked/out"], **another) == ends
        assert os.listdir(os.path.join(folder, "locked")) == []


def test_devices_stay_what_they_are(program, tmp_path):
    assert write_to(program, tmp_path, ["pbm", "-o", "/dev/null"]) == (0, b"")
    assert stat.S_ISCHR(os.stat("/dev/null").st_mode) and not os.path.exists("/dev/null.part")
    status, message = write_to(program, tmp_path, ["pbm", "-o", "/dev/full"])
    assert (status, message) == messages.refused("broken-off", 0, 0)
    os.mkfifo(tmp_path / "pipe")
    with open(tmp_path / "read", "wb") as to, subprocess.Popen(["cat", "pipe"], stdout=to, cwd=tmp_path) as reader:
        assert write_to(program, tmp_path, ["ppm", "--output", "pipe"]) == (0, b"")
        assert reader.wait(SECONDS) == 0
    assert read_bytes(tmp_path / "read") == wanted(program, "ppm")
    assert sorted(os.listdir(tmp_path)) == ["pipe", "read"] and stat.S_ISFIFO(os.stat(tmp_path / "pipe").st_mode)


@pytest.mark.parametrize("name", ["/dev/stdout", "/dev/fd/1", "/proc/self/fd/1"])
def test_standard_output_by_its_name(program, tmp_path, name):
    """The picture goes on where standard output is, and the link to it stays."""
    picture = run(program, ["pbm"], SECONDS, input=LINE).stdout
    with open(tmp_path / "both", "wb") as both:
        both.write(b"before")
        both.flush()
        done = subprocess.run([program, "pbm", "-o", name], input=LINE, stdout=both, stderr=subprocess.PIPE, timeout=SECONDS)
    assert (done.returncode, done.stderr) == (0, b"")
    assert (tmp_path / "both").read_bytes() == b"before" + picture
    assert os.path.islink("/dev/stdout") and not os.path.exists(f"{name}.part")


def test_standard_error_by_its_name(program, tmp_path):
    """It is written as a device, and the link to it stays."""
    picture = run(program, ["pbm"], SECONDS, input=LINE).stdout
    with open(tmp_path / "errors", "wb") as errors:
        done = subprocess.run([program, "pbm", "-o", "/dev/stderr"], input=LINE, stderr=errors, timeout=SECONDS)
    assert done.returncode == 0 and (tmp_path / "errors").read_bytes() == picture
    assert os.path.islink("/dev/stderr") and not os.path.exists("/dev/stderr.part")


def test_full_disk(program, tmp_path):
    """FILE stays as it was, and FILE.part has the bytes that the message names."""
    def limit():
        signal.signal(signal.SIGXFSZ, signal.SIG_IGN)
        resource.setrlimit(resource.RLIMIT_FSIZE, (20000, 20000))
    write(str(tmp_path / "out"), OLD)
    status, message = write_to(program, tmp_path, ["ppm", "-o", "out"], preexec_fn=limit)
    found = re.fullmatch(messages.said("broken-off", r"(\d+)", r"(\d+)"), message)
    row, whole = map(int, found.groups())
    assert status == 3 and 0 < whole <= 20000 and read_bytes(tmp_path / "out") == OLD
    picture, part = wanted(program, "ppm"), read_bytes(tmp_path / "out.part")
    assert len(part) == 20000 and picture.startswith(part)
    rest = run(program, ["ppm", *SMALL, "--from", str(row)], SECONDS, input=LINE)
    assert part[:whole] + rest.stdout == picture
