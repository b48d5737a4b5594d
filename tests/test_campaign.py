"""tests/campaign: the program withstands some attacks of each kind, and programs that break are noticed."""

import os
import re
import subprocess

import pytest

from reference import messages
from shared import HERE, need, write

SECONDS = 120
KINDS = ("mutilated_plots", "wrong_words", "plots_into_a_folder", "plots_into_files", "devices_that_fail", "refused_memory")
# What broken programs do instead.
BROKEN = {
    "a signal": "kill -SEGV $$", "an unknown status": "exit 5", "no output": "exit 0", "no message": "exit 1",
    "an unknown message": "echo plotraster: oh >&2; exit 1",
    "a message of another status": f"echo plotraster: {messages.text('memory')} >&2; exit 1",
}


def attacked(program, *words):
    """How a campaign of these words ended, and what it printed."""
    done = subprocess.run([os.path.join(HERE, "campaign"), program, *words], capture_output=True, text=True, timeout=SECONDS)
    assert done.stderr == ""
    return done.returncode, done.stdout


@pytest.mark.parametrize("kind, cases", zip(KINDS, (200, 100, 50, 50, 10, 1)))
def test_attacks(program, pytestconfig, kind, cases):
    need(pytestconfig, "cc")
    status, printed = attacked(program, f"--kind={kind}", f"--cases={cases}", "--jobs=1")
    assert status == 0, printed
    assert re.search(rf"^{kind}: [1-9][0-9]* runs, .* with status .*0 [1-9]", printed, re.M), printed
    assert re.search(rf"^campaign: {cases} cases .*, 0 failed", printed, re.M), printed


@pytest.mark.parametrize("script", BROKEN.values(), ids=BROKEN)
def test_programs_that_break(tmp_path, pytestconfig, script):
    need(pytestconfig, "cc")
    write(str(tmp_path / "broken"), f"#!/bin/sh\n{script}\n".encode(), 0o755)
    status, printed = attacked(str(tmp_path / "broken"), "--kind=mutilated_plots", "--cases=9", "--jobs=1", f"--keep={tmp_path}")
    assert status == 1 and re.search("^campaign: 9 cases .*, [1-9] failed", printed, re.M), printed
