"""Random plots of either profile on the page around their drawing, by `--fit`.

The case of a seed is that of the same seed without `--fit`, with a margin and perhaps with more before the plot: a line that is
hidden, or in the profile full a fill around its window or around the page. If the picture has too many pixels for the reference,
it gets another resolution, or is a report.
"""

import random

from .command_line import DOTS_OF_PCL, FIT_OPTIONS, MOST_DOTS, PAGE_OPTIONS, TEXTS, VECTORS, Mistake, request_of
from .cutting import MILLION
from .fitting import LONGEST
from .geometry import Page
from .outputs import shown_by
from .plotter import Refused
from .random_full_plots import random_full_case
from .random_numbers import spelled
from .random_plots import DOTS, MOST_PIXELS, random_case
from .raster import count

MARGINS = (0, 0, 0, 1, 2, 3, 10, 100)
WRONG_MARGINS = ("101", "-1", "1.5", "")
# The options that a report has, too.
OF_REPORTS = (*PAGE_OPTIONS, *FIT_OPTIONS, *TEXTS)


def random_fitted_case(seed):
    """The case of a seed; every other one is in the profile full."""
    return fitted_case(base_case(seed), random.Random(seed))


def base_case(seed):
    """The case of a seed without `--fit`."""
    return random_full_case(seed) if seed % 2 else random_case(seed)


def fitted_case(case, chance):
    """A case with `--fit`."""
    case = case._replace(options=fitted_options(case.options, chance), plot=beginning(case, chance) + case.plot)
    return case if case.form in ("report", *VECTORS) else light_case(case, chance)


def fitted_options(options, chance):
    """The options with `fit`, and mostly with a margin."""
    kind = chance.randrange(100)
    if kind == 0:
        return {**options, "margin": "1"}
    if kind == 1:
        return {**options, "fit": None, "margin": chance.choice(WRONG_MARGINS)}
    return {**options, "fit": None} if kind < 30 else {**options, "fit": None, "margin": str(chance.choice(MARGINS))}


def beginning(case, chance):
    """What comes before a plot: perhaps a width, which need be no whole units and may be odd in grains, and perhaps a fill, or a
    line that a window hides and that may be too far from the page around the others."""
    width = b"PW%s;" % spelled(chance.randint(0, MILLION)).encode() if chance.random() < 0.5 else b""
    if case.options.get("profile") == "full" and chance.random() < 0.3:
        return width + filled(case, chance)
    if chance.random() < 0.9:
        return width
    x, y = (chance.choice((-1, 1)) * (LONGEST - chance.choice((0, 1, 100, 2000))) - number(case, name, *PAGE_OPTIONS[name])
            for name in ("left", "below"))
    return width + b"IW0,0,1,1;PU%d,%d;PD;IW;PU0,0;" % (x, y)


def filled(case, chance):
    """A fill in a window, or on the page: every other one is around it, and of the others each side is inside or outside. The plot
    after it is drawn without the window."""
    page = [number(case, name, *PAGE_OPTIONS[name]) for name in ("width", "height")]
    low = [chance.randint(-side // 4, side) for side in page]
    window = *low, *(place + chance.randint(1, side) for place, side in zip(low, page))
    has_window, is_around = chance.random() < 0.8, chance.random() < 0.5
    sides = zip(window if has_window else (0, 0, *page), (-1, -1, 1, 1))
    places = [place + (out if is_around else chance.choice((-1, 1))) * chance.randint(0, max(page)) for place, out in sides]
    return (b"IW%d,%d,%d,%d;" % window if has_window else b"") + b"PU%d,%d;RA%d,%d;IW;PU0,0;" % tuple(places)


def light_case(case, chance):
    """The case with a picture of few pixels, or as a report."""
    page, times = page_of(case), number(case, "smooth", 1, 8, 1)
    most = MOST_PIXELS if times == 1 else 4 * MOST_PIXELS
    choices = DOTS_OF_PCL if case.form == "pcl" else DOTS
    allowed = [
        str(dots) for dots in choices
        if dots * times <= MOST_DOTS and times * times * count(page.width, dots) * count(page.height, dots) <= most
    ]
    if not allowed:
        return case._replace(form="report", options={name: case.options[name] for name in case.options if name in OF_REPORTS})
    options = dict(case.options)
    if options.get("dots") not in allowed:
        options["dots"] = chance.choice(allowed)
    rows = count(page.height, int(options["dots"]))
    if number(case, "from", 0, 399_999, 0) > rows and chance.random() < 0.8:
        options["from"] = str(chance.randint(0, rows))
    return case._replace(options=options)


def number(case, name, least, most, default):
    """The number of an option, or its default if it is not given or is bad."""
    text = case.options.get(name, "")
    return int(text) if text.isdigit() and least <= int(text) <= most else default


def page_of(case):
    """The page that a case shows."""
    # A picture of marks has no resolution that is wrong.
    options = {name: case.options[name] for name in case.options if name in (*OF_REPORTS, "pens", "output")}
    try:
        return shown_by(request_of("marks", options), case.plot).page
    except (Mistake, Refused):
        return Page(*(number(case, name, *limits) for name, limits in PAGE_OPTIONS.items()))
