"""How many instructions a command takes, by callgrind of valgrind: the same number on each run, whatever else a machine does."""

import re
import subprocess

WORDS = ["valgrind", "--tool=callgrind", "--callgrind-out-file=/dev/null"]


def instructions(words, plot):
    """How many instructions a command takes that reads a plot from a file; what it writes is thrown away."""
    with open(plot, "rb") as text:
        ran = subprocess.run([*WORDS, *words], stdin=text, stdout=subprocess.DEVNULL, stderr=subprocess.PIPE, env={}, check=False)
    told = ran.stderr.decode(errors="replace")
    found = re.search(r"^==\d+== Collected : (\d+)$", told, re.MULTILINE)
    if ran.returncode != 0 or not found:
        raise RuntimeError(f"{' '.join(words)}: status {ran.returncode}\n{told}")
    return int(found[1])
