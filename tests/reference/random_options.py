"""Random plots of either profile with options that change what is drawn, or how much of it: colours and widths of pens,
characters, sheets apart, and previews by `draw`.

The plot of a seed is that of the same seed without these options; sheets apart are of the profile full, and have ends of
sheets put between items.
"""

import random

from .carousel import NAMES
from .command_line import CHARACTERS, MOST_DOTS, PICTURES, VECTORS, WITH_SHADES, Mistake, request_of
from .full_cutting import items
from .outputs import shown_by
from .plotter import Refused
from .random_fitted_plots import MARGINS, base_case, fitted_case
from .random_full_plots import MOST_OF_A_PICTURE, MOST_OF_A_REPORT, light, random_full_case
from .raster import count
from .shapes import strokes_of

PENS = ("all", "all", "1", "1", "2", "1-3", "2-255", "3", "001", "7-8", "255", "4-6")
WRONG_PENS = ("0", "3-1", "256", "", "1-2-3", "ALL", "+1", "1 ")
COLOURS = (*NAMES, "Red", "NAVY", "#f80", "#0aF", "ff8000", "#102030", "C0FFEE", "#000", "#ffffff")
WRONG_COLOURS = ("", "bleu", "f80", "000", "#ff", "#ff80000", "ff 00 00", "#", "0x1234", "##fff", "=red")
WIDTHS = ("0", "0.35", ".5", "5.", "1", "0.1", "00.7", "2.0000009", "0.0000001", "20", "0.00078125", "0.3507")
WRONG_WIDTHS = ("", "20.000001", "-1", "+1", ".", "1e1", "1,5", "99999999999999999999", "0.5mm", "=1")
# The most tests of pixels that a picture of a preview or of sheets may take the reference.
MOST_TESTS = 400_000
SIZES = (16, 16, 16, 17, 18, 20, 24, 30, 33, 40)
WRONG_SIZES = ("15", "0", "20001", "-16", "x", "")
WRONG_CHARACTERS = ("latin1", "UTF-8", "utf8", "ascii ", "german", "277", "")
# The options of a case that a preview keeps.
KEPT = ("left", "below", "rotate", "pens", "profile", "sheet")


def random_pens_case(seed):
    """A case with colours or widths of pens by option, one in three with `--fit`."""
    chance = random.Random(seed)
    case = with_pens(base_case(seed), chance)
    case = fitted_case(case, chance) if chance.random() < 0.3 else case
    return with_characters(case, chance)


def with_pens(case, chance):
    """The case with lists of colours and widths, or with one of both, and as many strokes as it may have."""
    options = dict(case.options)
    kind = chance.randrange(5)
    if kind < 4:
        options[chance.choice(("colours", "colors"))] = assignments(chance, COLOURS, WRONG_COLOURS)
    if kind > 1:
        options["widths"] = assignments(chance, WIDTHS, WRONG_WIDTHS)
    return lightened(case._replace(options=options))


def assignments(chance, values, wrong_values):
    """A list of pens with values; one in twenty has something wrong."""
    items = [[chance.choice(PENS), "=", chance.choice(values)] for _ in range(chance.choice((1, 1, 2, 3, 4)))]
    if chance.random() < 0.05:
        item, part = chance.choice(items), chance.randrange(3)
        item[part] = chance.choice((WRONG_PENS, ("", ":", "==", ","), wrong_values)[part])
    return ",".join(map("".join, items))


def lightened(case):
    """The case without what would be too much with its pens: lines of hatching may be denser."""
    if case.options.get("profile") != "full":
        return case
    try:
        request = request_of(case.form, case.options)
    except Mistake:
        return case
    most = MOST_OF_A_REPORT if case.form in ("report", *VECTORS) else MOST_OF_A_PICTURE
    return case._replace(plot=light(case.plot, request.page, most, request.carousel))


def with_characters(case, chance):
    """The case, in three of ten with characters in the profile full, and in one of a hundred in core, which has none."""
    if chance.random() >= (0.3 if case.options.get("profile", "full" if case.form == "draw" else "core") == "full" else 0.01):
        return case
    name = chance.choice(CHARACTERS) if chance.random() < 0.95 else chance.choice(WRONG_CHARACTERS)
    return case._replace(options={**case.options, "characters": name})


def random_apart_case(seed):
    """A case of the profile full whose sheets have files of their own in a folder, two of five by `draw`."""
    chance = random.Random(seed)
    case = random_full_case(2 * seed + 1)
    case = case._replace(plot=with_ends_of_sheets(case.plot, chance))
    is_drawn = chance.random() < 0.4
    case = drawn_apart(case, chance) if is_drawn else written_apart(case)
    if chance.random() < 0.3:
        case = with_pens(case, chance)
    if not is_drawn and chance.random() < 0.3:
        case = fitted_case(case, chance)
    if chance.random() < 0.02:
        name, text = chance.choice(("sheet", "profile")), chance.choice(("core", "0", "EACH", "2"))
        case = case._replace(options={**case.options, name: text})
    case = with_characters(case, chance)
    return small_case(case, chance) if is_drawn else case


def written_apart(case):
    """The case with all sheets, each in a file of its own."""
    kept = {name: case.options[name] for name in case.options if name not in ("profile", "sheet", "from", "rows")}
    form = case.form if case.form in PICTURES else "marks"
    options = {**kept, "profile": "full", "sheet": "each", "output": "pictures"}
    if form == "marks" and case.form != form:
        options.update({"width": "300", "height": "200", "dots": "50"})
    return case._replace(form=form, options=options)


def drawn_apart(case, chance):
    """The same by `draw`, which need not be told of the sheets, of a size in pixels or on a small page."""
    options = {name: case.options[name] for name in case.options if name in ("left", "below", "rotate", "pens")}
    options.update(profile="full", output="pictures", form=chance.choice(("png", "png", "ppm", "pbm", "marks", "svg", "dxf")))
    if chance.random() < 0.8 or options["form"] in VECTORS:
        options.update(page_options(chance))
    else:
        options.update(width="300", height="200", dots="50")
    if options["form"] not in VECTORS and "dots" not in options:
        options["size"] = size(chance)
    if chance.random() < 0.5:
        options["sheet"] = "each"
    if chance.random() < 0.5:
        options["quiet"] = None
    return case._replace(form="draw", options=options)


def with_ends_of_sheets(plot, chance):
    """The plot with ends of sheets before some of its items."""
    return with_pieces(plot, chance, lambda: b";PG;")


def with_pieces(plot, chance, piece):
    """The plot with pieces before some of its items."""
    places = [item.at for item in items(plot)] + [len(plot)]
    for at in sorted(chance.choices(places, k=chance.choice((0, 1, 2, 3, 12))), reverse=True):
        plot = plot[:at] + piece() + plot[at:]
    return plot


def random_drawn_case(seed):
    """A case of `draw` on the page around the drawing, of a size in pixels or of a resolution."""
    chance = random.Random(seed)
    case = base_case(seed)
    options = {name: case.options[name] for name in case.options if name in KEPT}
    options.setdefault("profile", "core" if seed % 2 == 0 and chance.random() < 0.5 else "full")
    if options["profile"] == "core":
        options.pop("sheet", None)
    options["form"] = chance.choice(("png", "png", "ppm", "pbm", "marks", "PNG"))
    options.update(page_options(chance), size=size(chance))
    if chance.random() < 0.5:
        options["margin"] = str(chance.choice(MARGINS))
    if chance.random() < 0.05:
        options["smooth" if chance.random() < 0.5 else "dots"] = "100"
    asked = b"PS%d,%d;" % (chance.randint(10, 5000), chance.randint(64, 70_000))
    plot = chance.choice((b"", b"", b"PS;", b"PS900;", asked)) + case.plot
    case = case._replace(form="draw", options=options, plot=plot)
    case = with_pens(case, chance) if chance.random() < 0.4 else lightened(case)
    return with_characters(small_case(case, chance), chance)


def page_options(chance):
    """None, as the page is fitted then, or a page that is fitted on demand."""
    if chance.random() < 0.6:
        return {}
    if chance.random() < 0.3:
        return {"page": "plot", "fit": None}
    return {"width": str(chance.randint(64, 3000)), "height": str(chance.randint(64, 3000)), "fit": None}


def size(chance):
    """The most pixels of the longer side."""
    return chance.choice(WRONG_SIZES) if chance.random() < 0.02 else str(chance.choice(SIZES))


def small_case(case, chance):
    """The case, smoothed as much as it may be: the reference tests each stroke and edge at each pixel of the finer picture."""
    try:
        request = request_of("draw", case.options)
        if request.form not in WITH_SHADES:
            return case
        shown = shown_by(request, case.plot)
    except (Mistake, Refused):
        return case
    strokes = max(1, sum(len(strokes_of(shape)) for shape in shown.drawing.shapes))
    allowed = [
        times for times in range(1, 9) if times * shown.dots <= MOST_DOTS
        and strokes * count(shown.page.width, times * shown.dots) * count(shown.page.height, times * shown.dots) <= MOST_TESTS
    ]
    if shown.smooth in allowed and chance.random() < 0.5:
        return case
    return case._replace(options={**case.options, "smooth": str(chance.choice(allowed or [1]))})
