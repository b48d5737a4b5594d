"""Compares the built program with tests/reference on plots that are the same each time: the examples, all
characters, all whole angles, and random plots: 3,000 in the profile core and 3,000 in full, and of both 1,200 on the page
around their drawing, 1,200 with colours and widths of pens by option, 600 as previews, 600 with their sheets apart, and 2,400
as PDF, SVG or DXF. `make fuzz` compares new ones."""

import glob
import os

import pytest

from comparing import difference, differs
from reference.command_line import VECTORS
from reference.random_fitted_plots import random_fitted_case
from reference.random_full_plots import random_full_case
from reference.random_options import random_apart_case, random_drawn_case, random_pens_case
from reference.random_plots import Case, random_case
from reference.random_vectors import random_vector_case
from shared import EXAMPLES, assert_nothing, read_bytes
from test_full_reference import marks_case, options_of, plot_of, rows

COUNT = 3000
# The cases whose options change what is drawn, or how much of it, and how many there are.
OTHERS = {
    random_fitted_case: 1200, random_pens_case: 1200, random_apart_case: 600, random_drawn_case: 600, random_vector_case: 2400,
}
PARTS = 12


def examples():
    """The plots of examples/, each as a report, as a small picture, and as documents."""
    page = {"width": "4000", "height": "3000"}
    for path in sorted(glob.glob(os.path.join(EXAMPLES, "*.plt"))):
        plot = read_bytes(path)
        yield os.path.basename(path), Case("report", page, plot)
        yield os.path.basename(path), Case("ppm", {**page, "dots": "10"}, plot)
        yield from ((os.path.basename(path), Case(form, page, plot)) for form in VECTORS)


def characters():
    """Each character, large and thin."""
    for byte in range(32, 127):
        plot = b"PW0;PU12,4;SI.1,.14;LB%c\x03" % byte
        yield f"character {byte}", Case("marks", {"width": "64", "height": "64", "dots": "508"}, plot)


def angles():
    """An arc of one chord by each whole angle, each by a pen of its own, so that a report tells its end."""
    for turn in ("", "-"):
        plot = "".join(f"SP{angle + 1};PU60000,0;PD;AA0,0,{turn}{angle},180;" for angle in range(181))
        yield f"angles {turn}0 to {turn}180", Case("report", {}, plot.encode())


def full_examples():
    """The examples of the profile full, as reports, as documents of lines and areas, and those about pixels as marks."""
    for name, keys in rows():
        plot = plot_of(keys["plot"][0])
        yield name, Case("report", options_of(keys), plot)
        yield from ((name, Case(form, options_of(keys), plot)) for form in VECTORS)
        if {"pixels", "marks"} & set(keys):
            yield name, Case("marks", marks_case(keys), plot)


def random_plots(case_of, part, count=COUNT):
    """A part of the random plots, by their seeds."""
    for seed in range(part, count, PARTS):
        yield f"seed {seed}", case_of(seed)


def assert_same(program, cases):
    assert_nothing(difference(name, program, case) for name, case in cases if differs(program, case))


@pytest.mark.parametrize("name, case", examples())
def test_examples(name, case, program):
    assert_same(program, [(name, case)])


def test_characters(program):
    assert_same(program, characters())


def test_angles(program):
    assert_same(program, angles())


def test_full_examples(program):
    cases = list(full_examples())
    assert len(cases) >= 300
    assert_same(program, cases)


@pytest.mark.parametrize("part", range(PARTS))
def test_random_plots(part, program):
    assert_same(program, random_plots(random_case, part))


@pytest.mark.parametrize("part", range(PARTS))
def test_random_full_plots(part, program):
    assert_same(program, random_plots(random_full_case, part))


@pytest.mark.parametrize("part", range(PARTS))
@pytest.mark.parametrize("case_of", OTHERS, ids=[case_of.__name__ for case_of in OTHERS])
def test_other_random_plots(case_of, part, program):
    assert_same(program, random_plots(case_of, part, OTHERS[case_of]))
