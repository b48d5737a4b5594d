"""Runs of the program that write documents: PNG, PDF, SVG and DXF."""

import resource
import signal
import subprocess

from reference import messages
from shared import run

SECONDS = 60
SMALL = ["--width=4000", "--height=3000"]
LINE = b"SP1;PU0,0;PD3000,2000;"
WHITE = b"\xff\xff\xff"
OLD = b"an older picture\n"
NOT_WRITTEN = messages.refused("write")


def drawn(program, words, plot):
    """What the program writes, without a message."""
    done = run(program, words, SECONDS, input=plot)
    assert (done.returncode, done.stderr) == (0, b""), words
    return done.stdout


def ends_of(program, words, plot, **how):
    """The exit status and the message of a run that writes nothing to standard output."""
    done = run(program, words, SECONDS, input=plot, **how)
    assert done.stdout == b"", words
    return done.returncode, done.stderr


def filtered(command, data):
    """What a command makes of data."""
    return subprocess.run(command, input=data, capture_output=True, check=True, timeout=SECONDS).stdout


def colours(count):
    """So many colours, of which the first is white."""
    return [WHITE, *(bytes((i * 7 % 256, i // 256, 255 - i % 256)) for i in range(1, count))]


def plot_in(its_colours):
    """A plot with a dot of a pixel in each colour but white, in rows of 100."""
    dots = []
    for number, colour in enumerate(its_colours[1:]):
        column, row = number % 100, number // 100
        dots.append("PC1,%d,%d,%d;PU%d,%d;PD;" % (*colour, 16 * column + 4, 16 * row + 4))
    return "".join(["SP1;PW0;", *dots]).encode()


def limit(size):
    """From here on no file may have more bytes, and a write beyond them fails."""
    signal.signal(signal.SIGXFSZ, signal.SIG_IGN)
    resource.setrlimit(resource.RLIMIT_FSIZE, (size, size))
