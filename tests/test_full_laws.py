"""Checks laws of the profile full on random plots, by the plain plotter of tests/reference, without the program."""

from collections import Counter
from functools import partial
from string import ascii_lowercase
from unittest.mock import patch

import pytest

from reference import full_cutting, full_plotter, messages, plotter
from reference.geometry import Page
from reference.plotter import FARTHEST_END, Refused
from reference.random_full_plots import FullWriter
from reference.random_plots import random_case
from reference.shapes import is_area, is_image, strokes_of
from shared import assert_nothing

CORE_PLOTS, FULL_PLOTS, PARTS = 2000, 1200, 4
# A plot with more strokes takes long.
MOST = 2000
WIDEST = 12_800
# Labels with capitals for small letters, and tildes for the other bytes that core draws in another way.
PLAIN = bytes(
    byte - 32 if chr(byte) in ascii_lowercase else 126 if byte in (8, 9, 14, 15) or byte > 127 else byte for byte in range(256)
)
SQUARE = Page(1000, 1000, 0, 0)
CORE = "IN DF IP SC RO IW SP PW PC PU PD PA PR PE EA ER CI AA AR LB DT SI DI".split()


def page_of(case):
    """The page of a case; an option that is out of range is as if it were absent."""
    sides = {"width": 640, "height": 480, "left": 0, "below": 0}
    texts = {name: case.options.get(name, "") for name in sides}
    return Page(*(int(texts[name]) if texts[name].isdigit() else sides[name] for name in sides))


def drawn(draw, plot, page):
    """The shapes and the notes of a plot, or the text of its refusal."""
    try:
        return draw(plot, page)
    except Refused as refusal:
        return str(refusal)


def is_too_far(got):
    """Whether a plot is refused for a place off range."""
    return isinstance(got, str) and got.startswith(messages.text("off-range", ""))


def without_labels(got):
    """What is drawn, as core draws it, which has no labels."""
    return got if isinstance(got, str) else ([stroke._replace(label=None, labels=0) for stroke in got[0]], got[1])


# What both profiles draw


def is_core(item):
    """Whether an item is the core's, without a direction along no axis, and a label or a terminator that both draw alike."""
    if item.code == "DI" and item.kind == "numbers":
        return len(item.has) < 2 or 0 in item.has[:2]
    if item.kind == "damaged":
        return False
    if item.kind == "label":
        return item.has == item.has.translate(PLAIN)
    if item.kind == "terminator":
        return not isinstance(item.has, full_cutting.Printed)
    return item.code in CORE or item.kind == "stray"


def only_core(plot):
    """A plot with moves instead of other items; None if there are always others."""
    for _ in range(50):
        others = [item for item in full_cutting.items(plot) if not is_core(item)]
        if not others:
            return plot
        for item in others:
            plot = with_core(plot, item)
    return None


def with_core(plot, item):
    """A plot with a plain label instead of another one, and with a move instead of another item."""
    at = item.at
    if item.kind == "label":
        return plot[:at + 2] + item.has.translate(PLAIN) + plot[at + 2 + len(item.has):]
    if item.kind == "damaged":
        return plot[:at] + b"SP" + plot[at + 2 :]
    return plot[:at] + (b"PR", b"PD", b"SP")[at % 3] + plot[at + 2 :]


def core_plots(part):
    """Plots with only the core's items, of cases of both profiles."""
    for seed in range(part, CORE_PLOTS, PARTS):
        case = FullWriter(seed).case() if seed % 4 == 0 else random_case(seed)
        plot = only_core(case.plot)
        if plot:
            yield seed, plot, page_of(case)


@pytest.mark.parametrize("part", range(PARTS))
def test_core_is_the_same_in_both(part):
    """A plot with only the core's items has the same strokes and notes in both profiles, or the same refusal, if places may lie as
    far in core as in full. Core itself draws the same, or refuses the plot for a place off its range."""
    wrong, sizes, too_far, farther = [], [], 0, 0
    for seed, plot, page in core_plots(part):
        core, full = (without_labels(drawn(profile.draw, plot, page)) for profile in (plotter, full_plotter))
        with patch.object(plotter.Plotter, "farthest", FARTHEST_END):
            wide = drawn(plotter.draw, plot, page)
        sizes.append(0 if isinstance(wide, str) else len(wide[0]))
        too_far += is_too_far(full)
        farther += core != wide
        if wide != full or core != wide and not is_too_far(core):
            wrong.append(f"seed {seed}: {plot!r} on {page}")
    assert_nothing(wrong)
    # Nearly all are compared, and many draw. Some are refused for a place in both profiles, and some only in core.
    assert len(sizes) > 0.9 * CORE_PLOTS / PARTS and sum(size > 5 for size in sizes) > len(sizes) / 4
    assert min(too_far, farther) > len(sizes) / 100


@pytest.mark.parametrize("plot, page, refused", [
    (b"PU65536,-65536;PD;", SQUARE, None),
    (b"PU;PD65536.03,0;PU65537,0;", SQUARE, 16),
    (b"PD65536.03,65536.03;PU0,-65537;PD;", SQUARE, 20),
    (b"PD65536.04,0;", SQUARE, 0),
    (b"PU-8388607,0;", SQUARE, 0),
    (b"PU-65536,0;PD65535,0;PD65536,0;", SQUARE._replace(left=1), 21),
    (b"PD0,-65540;PD;PU0,-65541;", SQUARE._replace(below=4), 14),
    (b"SP1;PU65536,0;SI1,1;LBL\3", SQUARE, 20),
])
def test_places_that_only_core_refuses(plot, page, refused):
    """Core refuses a plot for a place more than 65,536 units from the corner of the page, which full draws."""
    core, full = drawn(plotter.draw, plot, page), drawn(full_plotter.draw, plot, page)
    assert not isinstance(full, str)
    if refused is None:
        assert core == without_labels(full)
    else:
        assert core == messages.text("off-range", refused)


@pytest.mark.parametrize("part", range(PARTS))
def test_shapes_are_in_range(part):
    """Ends and widths of all strokes and edges are in range, and sheets are numbered without gaps. The edges of an area
    lead round: as many end at a place as begin there."""
    wrong, drawings, areas = [], 0, 0
    for seed in range(part, FULL_PLOTS, PARTS):
        case = FullWriter(seed).case()
        got = drawn(partial(full_plotter.draw, most=MOST), case.plot, page_of(case))
        if isinstance(got, str):
            continue
        drawings += len(got[0]) > 5
        sheets = {shape.sheet for shape in got[0]}
        for shape, stroke in ((shape, stroke) for shape in got[0] for stroke in strokes_of(shape)):
            is_drawn = is_image(shape) or stroke.pen
            if max(map(abs, (*stroke.a, *stroke.b))) > FARTHEST_END or not 0 <= stroke.width <= WIDEST or not is_drawn:
                wrong.append(f"seed {seed}: {stroke}")
        for area in filter(is_area, got[0]):
            areas += 1
            if not area.edges or Counter(a for a, _ in area.edges) != Counter(b for _, b in area.edges):
                wrong.append(f"seed {seed}: {area}")
        if sheets != set(range(1, len(sheets) + 1)):
            wrong.append(f"seed {seed}: sheets {sorted(sheets)}")
    assert_nothing(wrong)
    assert min(drawings, areas) > FULL_PLOTS / PARTS / 4
