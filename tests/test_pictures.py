"""Compares what the built program writes for the small plots of pictures.txt, which explains its format."""

import os

from shared import HERE, assert_nothing, read_bytes, run
from test_full_reference import plot_of

CASES = os.path.join(HERE, "pictures.txt")
SECONDS = 60


def cases():
    """Each case: its words, its plot and its lines."""
    found = []
    for line in read_bytes(CASES).decode().splitlines():
        if line.startswith("    "):
            found[-1][1].append(line.strip())
        elif line and not line.startswith("#"):
            found.append((line.split(), []))
    return [(words, plot_of(plot), lines) for words, (plot, *lines) in found]


def words_of(words):
    """The command line: an option of the case stands for the usual one."""
    usual = [("--width", "64"), ("--height", "64"), ("--dots", "127")]
    return words + [it for name, value in usual if name not in words and (name != "--dots" or words[0] != "report")
                    for it in (name, value)]


def output_of(words, lines):
    """What the lines of a case stand for."""
    if words[0] != "pbm":
        return "".join(f"{line}\n" for line in lines).encode()
    rows = bytes.fromhex("".join(lines))
    return b"P4\n%d 8\n" % len(rows) + rows


def differences(program):
    for words, plot, lines in cases():
        done = run(program, words_of(words), SECONDS, input=plot)
        if (done.returncode, done.stdout, done.stderr) != (0, output_of(words, lines), b""):
            yield f"{' '.join(words)}, {plot}: {done}"


def test_pictures(program):
    assert len(cases()) == 42
    assert_nothing(differences(program))
