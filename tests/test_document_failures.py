"""PNG, PDF, SVG and DXF that are not written: refusals, devices that are full, writes that fail, and memory that is refused."""

import functools
import os
import subprocess

import pytest

from document_runs import LINE, NOT_WRITTEN, OLD, SECONDS, SMALL, colours, drawn, ends_of, limit, plot_in
from reference import messages
from reference.command_line import DOCUMENTS
from shared import EXAMPLES, read_bytes, run, write

SHEETS = b"SP2;PU0,0;PD3000,2000;PG;IW0,0,900,900;PD5,5;"
LABELS = b"LBab\r\nc\xd0\x96\x03PG;SP2;BL<d>\x03PB;PD9,9;"
FULL = ["--profile=full", "--sheet=0"]
EACH = ["--profile=full", "--sheet=each"]
# How messages on the sheets of a plot begin.
APART = ["sheet 1: ", "sheet 2: "]
# The words of a document, a plot, and the options that tell kinds of documents.
KINDS = [
    ("png", LINE, []), ("png", plot_in(colours(257)), []), ("pdf", LINE, []), ("pdf", SHEETS, FULL), ("svg", LINE, []),
    ("svg", SHEETS, FULL), ("pdf", LABELS, [*FULL, "--characters=utf-8"]), ("svg", LABELS, [*FULL, "--characters=utf-8"]),
    ("dxf", LINE, []), ("dxf", SHEETS, FULL), ("dxf", LABELS, [*FULL, "--characters=utf-8"]),
]
NAMES = ["palette", "truecolour", "pdf", "pdf of sheets", "svg", "svg of sheets", "pdf of labels", "svg of labels",
         "dxf", "dxf of sheets", "dxf of labels"]


@pytest.mark.parametrize("command", DOCUMENTS)
@pytest.mark.parametrize("words, plot, ends", [
    ([], b"PD8388607.9,0;", messages.refused("off-range", 0)),
    (["--pens=0"], LINE, messages.refused("pens")),
    (["missing.plt"], LINE, messages.refused("not-opened", "missing.plt", "no-such-file")),
    (["folder"], LINE, messages.refused("not-opened", "folder", "a-folder")),
])
def test_refusals(program, tmp_path, command, words, plot, ends):
    """Nothing is written, and an old file stays."""
    os.mkdir(tmp_path / "folder")
    write(str(tmp_path / "out"), OLD)
    for where in ([], ["-o", "out"], ["-o", "new"]):
        assert ends_of(program, [command, *words, *where], plot, cwd=tmp_path) == ends
    assert (sorted(os.listdir(tmp_path)), read_bytes(tmp_path / "out")) == (["folder", "out"], OLD)


@pytest.mark.parametrize("command", DOCUMENTS)
def test_options_of_rows(program, command):
    for word in ("--from=0", "--from=5", "--rows=1", "--band=64"):
        status, message = ends_of(program, [command, word], LINE)
        assert status == 2 and message.startswith(b"error: ")


@pytest.mark.parametrize("command", DOCUMENTS)
def test_full_device(program, command):
    with open("/dev/full", "wb") as full:
        done = subprocess.run(["plotraster", command, *SMALL], executable=program, input=LINE, stdout=full,
                              stderr=subprocess.PIPE, timeout=SECONDS)
    assert (done.returncode, done.stderr) == NOT_WRITTEN
    assert ends_of(program, [command, *SMALL, "-o", "/dev/full"], LINE) == NOT_WRITTEN
    assert not os.path.exists("/dev/full.part")


@pytest.mark.parametrize("command", DOCUMENTS)
@pytest.mark.parametrize("size", [0, 1, 100])
def test_full_disk(program, tmp_path, command, size):
    """FILE stays as it was, and FILE.part is removed, since there is nowhere to go on from."""
    write(str(tmp_path / "out"), OLD)
    limited = functools.partial(limit, size)
    for name in ("out", "new"):
        assert ends_of(program, [command, *SMALL, "-o", name], LINE, cwd=tmp_path, preexec_fn=limited) == NOT_WRITTEN
    assert (os.listdir(tmp_path), read_bytes(tmp_path / "out")) == (["out"], OLD)


@pytest.mark.parametrize("words, about", [
    (["png", *EACH], APART), (["svg", *EACH], APART), (["dxf", *EACH], APART),
    (["pdf", *EACH], [""]), (["draw", "--form=pdf"], [""]), (["svg", *FULL], [""]), (["dxf", *FULL], [""]),
])
def test_full_disk_of_sheets(program, tmp_path, words, about):
    """Of sheets in files of their own each has a line. No part of a file is left."""
    write(str(tmp_path / "two.plt"), SHEETS)
    os.mkdir(tmp_path / "out")
    words = [*words, *SMALL, "-o", "out", "two.plt"]
    status, message = ends_of(program, words, b"", cwd=tmp_path, preexec_fn=functools.partial(limit, 100))
    assert (status, message.decode().splitlines()) == (3, [f"plotraster: {it}{messages.text('write')}" for it in about])
    assert os.listdir(tmp_path / "out") == []


@pytest.mark.parametrize("command", DOCUMENTS)
def test_each_write_fails(program, refuse, command):
    """What was written before is a beginning of the document."""
    plot = read_bytes(os.path.join(EXAMPLES, "figures.plt"))
    words = [command, *SMALL, *(["--dots=300"] if command == "png" else [])]
    whole, number = drawn(program, words, plot), 0
    while True:
        number += 1
        surroundings = dict(os.environ, LD_PRELOAD=refuse, WRITE_FAILS=str(number))
        done = run(program, words, SECONDS, input=plot, env=surroundings)
        assert whole.startswith(done.stdout)
        if done.returncode == 0:
            break
        assert (done.returncode, done.stderr) == NOT_WRITTEN and done.stdout != whole
    assert number > 1 and done.stdout == whole


@pytest.mark.parametrize("command, plot, more", KINDS, ids=NAMES)
def test_refused_allocations(program, refuse, command, plot, more):
    """Each allocation of a run is refused in turn: nothing is written, or the whole document."""
    words, number, without_effect = [command, "--width=64", "--height=64", *more], 0, 0
    whole = drawn(program, words, plot)
    while without_effect < 10:
        number += 1
        surroundings = dict(os.environ, LD_PRELOAD=refuse, MEMORY_FAILS=str(number))
        done = run(program, words, SECONDS, input=plot, env=surroundings)
        ended = (done.returncode, done.stdout, done.stderr)
        assert ended in ((0, whole, b""), (4, b"", messages.said("memory")))
        without_effect = 0 if done.returncode else without_effect + 1
    assert number > 11
