"""What pytest sets up for the tests: the program that they run."""

import os
import subprocess
import sys

import pytest

sys.path.insert(0, os.path.dirname(os.path.abspath(__file__)))
pytest.register_assert_rewrite("shared")

from shared import HERE, TOP, need  # noqa: E402

PROGRAM = os.path.join(TOP, "crates", "plotraster_program", "out", "plotraster_program")


def pytest_addoption(parser):
    parser.addoption("--program", default=PROGRAM, help="the program to test; by default the one that make built")
    parser.addoption("--no-skips", action="store_true", help="a missing command fails the tests that need it")


@pytest.fixture(scope="session")
def program(pytestconfig):
    """The path of the built program."""
    path = os.path.abspath(pytestconfig.getoption("--program"))
    if not os.access(path, os.X_OK):
        pytest.exit(f"{path} is not there: run `make` first, which proves and builds it", returncode=2)
    return path


def built(pytestconfig, tmp_path_factory, name):
    """A library of a C file of this folder, to be preloaded before the program."""
    need(pytestconfig, "cc")
    library = tmp_path_factory.mktemp(name) / f"{name}.so"
    source = os.path.join(HERE, f"{name}.c")
    subprocess.run(["cc", "-O1", "-shared", "-fPIC", "-o", library, source, "-ldl"], check=True)
    return str(library)


@pytest.fixture(scope="session")
def refuse(pytestconfig, tmp_path_factory):
    """The library that makes a read, a write, a sync or an allocation of the program fail."""
    return built(pytestconfig, tmp_path_factory, "refuse")


@pytest.fixture(scope="session")
def one_number(pytestconfig, tmp_path_factory):
    """The library that gives all files one number, on two devices."""
    return built(pytestconfig, tmp_path_factory, "one_number")
