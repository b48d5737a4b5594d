"""The format of the code, the scripts by flake8 and shellcheck, the names that two things must not share, and the texts
that mutants change."""

import os
import re
import subprocess
import sys

import pytest

from shared import TOP, need

sys.path.insert(0, os.path.join(TOP, "tools"))
from edits import CRATES, all_mutants, below, dependencies  # noqa: E402

SECONDS = 60


def first_line(path):
    with open(os.path.join(TOP, path), "rb") as file:
        return file.readline()


def listed(*patterns):
    """The files of the repository, or those that these patterns match."""
    done = subprocess.run(["git", "ls-files", *patterns], cwd=TOP, capture_output=True, text=True, check=True)
    return done.stdout.splitlines()


def scripts(*marks):
    """The files of the repository whose first line, or whose ending, is one of these."""
    for path in listed():
        if os.path.isfile(os.path.join(TOP, path)):
            if path.endswith(marks) or first_line(path).strip().endswith(tuple(it.encode() for it in marks)):
                yield path


@pytest.mark.parametrize("command, files", [
    (["flake8"], sorted(scripts(".py", "env python3"))),
    (["shellcheck"], sorted(scripts(".sh", "bin/sh", "bin/bash"))),
], ids=["flake8", "shellcheck"])
def test_scripts(command, files, pytestconfig):
    need(pytestconfig, *command)
    assert len(files) > 3
    done = subprocess.run([*command, *files], cwd=TOP, capture_output=True, text=True, timeout=SECONDS)
    assert done.returncode == 0, done.stdout + done.stderr


def test_format():
    """All code and all definitions stand as `rt fmt` writes them, which rt ci asks for, but only after a long time."""
    files = listed("*.rt", "*.antt")
    assert len(files) > 300
    done = subprocess.run(["rattle", "fmt", "--check", *files], cwd=TOP, capture_output=True, text=True, timeout=5 * SECONDS)
    assert done.returncode == 0, done.stdout + done.stderr


@pytest.mark.parametrize("script", ["crc_table", "deflate_codes", "sine_table", "tangent_table"])
def test_tables(script):
    """The tables of the sources are those that these scripts compute."""
    words = [os.path.join(TOP, "tools", script), "--check"]
    done = subprocess.run(words, capture_output=True, text=True, timeout=SECONDS)
    assert done.returncode == 0, done.stderr


def test_names_of_scripts():
    """A script of one folder has not the name of another folder's."""
    names = [name for folder in ("bench", "tests", "tools") for name in os.listdir(os.path.join(TOP, folder))]
    names = [it for it in names if it != "__pycache__"]
    assert len(names) == len(set(names)), sorted(it for it in names if names.count(it) > 1)


def sources(crate):
    """The text of each source file of a crate, by its path in the crate."""
    for folder, _, files in os.walk(os.path.join(CRATES, crate, "src")):
        for file in files:
            path = os.path.join(folder, file)
            with open(path, encoding="utf-8") as text:
                yield os.path.relpath(path, os.path.join(CRATES, crate)), text.read()


def test_names_of_modules():
    """No module has the name of a library that its crate stands on, which rt ci refuses."""
    uses = dependencies()
    for crate in uses:
        modules = {it for _, text in sources(crate) for it in re.findall(r"^\s*(?:pub )?mod (\w+)", text, re.M)}
        assert not modules & (below(crate, uses) - {crate}), crate


def faults_of(name, mutant):
    """What a mutant says of its crate, and of the crate with its test, that is not so."""
    texts = dict(sources(name.split("/")[0]))
    for file, old, _ in mutant.edit + mutant.control:
        if texts[file].count(old) != 1:
            yield f"{name}: {file}: {old}"
    module, _, function = mutant.function.rpartition("::")
    files = ["src/lib.rt"] if function and not module else texts
    if not any(re.search(rf"\bfn {function}\b", texts[it]) for it in files):
        yield f"{name}: fn {mutant.function}"
    tester, _, test = mutant.test.partition("::")
    if test and not any(re.search(rf"\bfn {test.split('::')[-1]}\(", it) for _, it in sources(tester)):
        yield f"{name}: {mutant.test}"


def test_mutants():
    """Each mutant changes texts that stand in its files once, and names a function and a test that are there. PROOF.md
    says how many there are."""
    mutants = all_mutants()
    with open(os.path.join(TOP, "docs", "PROOF.md"), encoding="utf-8") as proof:
        assert f"There are {len(mutants)} mutants" in proof.read()
    wrong = [fault for name, mutant in mutants.items() for fault in faults_of(name, mutant)]
    assert not wrong, wrong


@pytest.mark.parametrize("script, wanted", [
    ("fuzz", {"--fit", "--pens", "--apart", "--draw", "--vector"}), ("campaign", {"--cases", "--seed"}),
])
def test_options_that_make_passes(script, wanted):
    """`make fuzz` calls its scripts with options that they have."""
    made = subprocess.run(["make", "-n", "fuzz"], cwd=TOP, capture_output=True, text=True, check=True, timeout=SECONDS)
    called = "\n".join(re.findall(rf"^tests/{script} .*", made.stdout, re.M))
    helped = subprocess.run([os.path.join(TOP, "tests", script), "--help"], capture_output=True, text=True, timeout=SECONDS)
    assert helped.returncode == 0, helped.stderr
    options = re.findall(r"--\w+", called)
    assert set(options) > wanted, called
    assert all(it in helped.stdout for it in options), called


def test_targets_of_make():
    """Each target that the Makefile names at its top has a recipe that make can read."""
    with open(os.path.join(TOP, "Makefile"), encoding="utf-8") as file:
        targets = re.findall(r"^# make (\w+)  ", file.read(), re.M)
    assert len(targets) > 10
    for target in targets:
        done = subprocess.run(["make", "-n", target], cwd=TOP, capture_output=True, text=True, timeout=SECONDS)
        assert done.returncode == 0, done.stderr
