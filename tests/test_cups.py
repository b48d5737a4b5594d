"""Calls the filter for CUPS as CUPS does: with a job's number, user, title, copies and options, and a file or standard input."""

import os
import re
import shutil
import signal
import subprocess
import time

import pytest

from reference import messages
from shared import TOP, read, run

SECONDS = 60
FILTER = os.path.join(TOP, "packaging", "cups", "hpgltopdf")
PLOT = b"IN;SP1;PU100,100;PD3000,100,3000,2000;"
SHEETS = b"SP1;PU0,0;PD3000,0;PG;SP2;PD3000,2000;"
BAD = b"IN;PU0,0;PD8388607.9,0;"


class Queue:
    """Where CUPS calls the filter: the command is on the path."""

    def __init__(self, program, folder):
        self.folder = folder
        os.makedirs(folder / "bin")
        os.symlink(program, folder / "bin" / "plotraster")
        self.surroundings = {**os.environ, "PATH": f"{folder}/bin:/usr/bin:/bin"}

    def start(self, *words, **how):
        how = {"stdin": subprocess.DEVNULL, "stdout": subprocess.PIPE, **how}
        return subprocess.Popen([FILTER, *words], cwd=self.folder, env=self.surroundings, stderr=subprocess.PIPE, **how)

    def send(self, plot, *words, **how):
        """Runs the filter, on standard input if a plot is given: its status, its output, and its messages by their kinds."""
        if plot is not None:
            how["stdin"] = subprocess.PIPE
        with self.start(*words, **how) as job:
            output, said = job.communicate(plot, timeout=SECONDS)
        lines = [re.fullmatch(r"(WARNING|ERROR): (.+)", line) for line in said.decode().splitlines()]
        assert None not in lines, said
        return job.returncode, output, [line.groups() for line in lines]


@pytest.fixture
def queue(program, tmp_path):
    return Queue(program, tmp_path)


def test_plots(program, queue):
    """The lines of all sheets, from standard input and from a file, which does not name the document."""
    for plot, pages in ((PLOT, 1), (SHEETS, 2)):
        (queue.folder / "d00001-001").write_bytes(plot)
        wanted = run(program, ["draw", "--form", "pdf"], SECONDS, input=plot).stdout
        assert len(re.findall(rb"/Type */Page\b", wanted)) == pages
        for data, file in ((plot, []), (None, ["d00001-001"]), (None, [str(queue.folder / "d00001-001")])):
            assert queue.send(data, "1", "user", "plan.plt", "1", "", *file) == (0, wanted, [])


def test_words_of_a_job(queue):
    """No word of a job is run, or read as an option: not of the title, the user, the copies, the options, or the file."""
    odd = ("$(touch touched)", "`touch touched`", "; touch touched", "--help", "-o touched", "a\nb", "%s%n", "", "'\"", "\u00e4")
    wanted = queue.send(PLOT, "1", "user", "title", "1", "")
    for word in odd:
        assert queue.send(PLOT, word, word, word, word, f"{word} media=A4 {word}=1") == wanted
        if word:
            (queue.folder / word.replace("/", "")).write_bytes(PLOT)
            assert queue.send(None, "1", "user", word, "3", "fit-to-page", word) == wanted
    assert "touched" not in os.listdir(queue.folder)


def test_errors(queue):
    """A message that CUPS shows, another status than 0, and nothing printed."""
    job = ("1", "user", "title", "1", "")
    assert queue.send(BAD, *job) == (1, b"", [("ERROR", f"plotraster: {messages.text('off-range', 9)}")])
    assert queue.send(None, *job, "none.plt") == (1, b"", [("ERROR", "the plot cannot be read")])
    assert queue.send(None, *job, str(queue.folder)) == (1, b"", [("ERROR", "the plot cannot be read")])
    for words in (job[:4], (*job, "file", "more")):
        status, output, said = queue.send(None, *words)
        assert (status, output) == (1, b"") and said[0][1].startswith("usage: "), words


def test_warnings(queue):
    """A plot that draws nothing is printed as an empty page, one that is hardly understood as what it draws, and one that is
    larger than a page is cut off, with a message."""
    large = b"SP1;PU-300000,-32000;PD-300000,32767,32767,32767;PU300000,65000;PD0,0;"
    for plot, message in ((b"IN;PU;", messages.text("blank", "plotraster report --profile full")),
                          (b"PU0,0;PD300,200;XX;XX;", "2 notes on 1 line: see plotraster report --profile full"),
                          (large, messages.text("too-large-to-fit"))):
        status, output, said = queue.send(plot, "1", "user", "title", "1", "")
        assert (status, output[:5], said) == (0, b"%PDF-", [("WARNING", f"plotraster: {message}")])


def test_failures(queue):
    """The next filter has ended, and there is no command."""
    reading, writing = os.pipe()
    os.close(reading)
    status, _, said = queue.send(PLOT, "1", "user", "title", "1", "", stdout=writing)
    os.close(writing)
    assert (status, said) == (3, [("ERROR", f"plotraster: {messages.text('write')}")])
    os.remove(queue.folder / "bin" / "plotraster")
    queue.surroundings["PATH"] = f"{queue.folder}/bin:{os.path.dirname(shutil.which('sed'))}"
    if not shutil.which("plotraster", path=queue.surroundings["PATH"]):
        status, output, said = queue.send(b"", "1", "user", "title", "1", "")
        assert (status, output) == (127, b"") and said[0][1].endswith("plotraster: not found")


def test_cancelled(queue):
    """A job that is cancelled at any time, while its plot arrives, ends at once, and so does all that it has started."""
    for wait in range(30):
        reading, writing = os.pipe()
        job = queue.start("1", "user", "title", "1", "", stdin=reading)
        os.close(reading)
        time.sleep(wait / 1000)
        job.send_signal(signal.SIGTERM)
        # The end of its messages is that of the last command that writes them.
        output, _ = job.communicate(timeout=SECONDS)
        os.close(writing)
        assert (job.returncode, output) == (-signal.SIGTERM, b"")


def test_conversion():
    """The line of the conversion and that of the type have the same type, and name the filter."""
    line, = (it for it in read("packaging", "cups", "plotraster.convs").splitlines() if not it.startswith("#"))
    types = [it for it in read("packaging", "cups", "plotraster.types").splitlines() if not it.startswith(("#", "\t"))]
    source, target, _, name = line.split()
    assert [it.split()[0] for it in types] == [source] and target == "application/pdf"
    assert name == os.path.basename(FILTER) and os.access(FILTER, os.X_OK)


# What CUPS says of files, by their names: plots are converted, and nothing else is.
PLOTS = {
    "plan.plt": PLOT, "PLAN.PLT": PLOT, "small.hpgl": b"in;sp1;pu0,0;pd1,1;", "begins": PLOT, "after": b"\r\n ;IN;",
    "pen": b"SP1;PU0,0;", "moves": b"PU0,0;PD9,9;",
    "colours": b"PC1,200,0,0;SP1;", "escape": b"\x1b.(;IN;", "into": b"\x1b%0BIN;SP1",
    "job": b"\x1b%-12345X@PJL ENTER LANGUAGE=HPGL2\r\nIN;SP1;",
}
OTHERS = {
    "script.plt": b"set output 'a.png'\nplot sin(x)\n", "text": b"IN the beginning; and", "sp": b"SP is short;", "put": b"PUT;1",
    "picture.plt": b"\x89PNG\r\n\x1a\nIN;", "document.plt": b"%PDF-1.4\nPU0,0;", "pcl": b"\x1bE\x1b&l1O\x1b%0BIN;SP1;",
    "job of pcl": b"\x1b%-12345X@PJL ENTER LANGUAGE=PCL\r\n\x1bE\x1b%0BIN;", "text.txt": b"a text with SP1;\n",
}


def test_types_by_cups(tmp_path):
    """CUPS itself, if it is installed, which tests need not: it knows plots, and nothing else becomes a plot."""
    command, data = "/usr/sbin/cupsfilter", "/usr/share/cups"
    if not os.path.exists(command):
        pytest.skip("there is no cupsfilter: Debian's cups brings it")
    os.makedirs(tmp_path / "data" / "mime")
    os.makedirs(tmp_path / "bin" / "filter")
    for folder in (os.path.join(data, "mime"), os.path.join(TOP, "packaging", "cups")):
        for name in os.listdir(folder):
            if name.endswith((".types", ".convs")):
                os.symlink(os.path.join(folder, name), tmp_path / "data" / "mime" / name)
    for path in (FILTER, "/usr/lib/cups/filter/texttopdf"):
        os.symlink(path, tmp_path / "bin" / "filter" / os.path.basename(path))
    (tmp_path / "files.conf").write_text(f"ServerBin {tmp_path}/bin\nDataDir {tmp_path}/data\nServerRoot {tmp_path}\n")
    for name, content in {**PLOTS, **OTHERS}.items():
        (tmp_path / name).write_bytes(content)
        words = [command, "-c", tmp_path / "files.conf", "--list-filters", "-m", "application/pdf", tmp_path / name]
        said = subprocess.run(words, capture_output=True, text=True, timeout=SECONDS)
        assert (said.stdout == "hpgltopdf\n") == (name in PLOTS), f"{name}: {said.stdout}{said.stderr}"
