"""Random plots of either profile as PDF, SVG and DXF, with all options that such a document has.

The plot of a seed is that of the same seed in another form, in full often with more ends of sheets and with labels.
"""

import random

from .command_line import AS_STROKES, EACH, LABELS, PAGE_OPTIONS, VECTORS
from .random_fitted_plots import MARGINS, OF_REPORTS, base_case, fitted_case, number
from .random_labels import random_label
from .random_options import page_options, with_characters, with_ends_of_sheets, with_pens, with_pieces

SHEETS = ("0", "0", "0", EACH, EACH, "1", "2", "3")
# Options that such a document has not: of `draw` it is a mistake of their own, and else one in usage.
OTHERS = ("dots", "smooth", "size", "from", "rows", "band")


def random_vector_case(seed):
    """The case of a seed; one in four is by `draw`."""
    chance = random.Random(seed)
    case = base_case(seed)
    options = {name: case.options[name] for name in case.options if name in (*OF_REPORTS, "pens")}
    case = case._replace(form=chance.choice(VECTORS), options=options)
    case = drawn_case(case, chance) if chance.random() < 0.25 else case
    if chance.random() < 0.25:
        case.options["output"] = "documents"
    if chance.random() < 0.3:
        case = with_windows(case, chance)
    if case.options.get("profile") == "full":
        case = with_sheets(case, chance)
    if profile_of(case) == "full" and chance.random() < 0.6:
        case = with_labels(case, chance)
    if chance.random() < 0.02:
        case.options[chance.choice(OTHERS)] = "100"
    case = with_pens(case, chance) if chance.random() < 0.3 else case
    if case.form in VECTORS and chance.random() < 0.3:
        case = fitted_case(case, chance)
    return with_labels_written(with_characters(case, chance), chance)


def profile_of(case):
    """The profile of a case, by default that of its command."""
    return case.options.get("profile", "full" if case.form == "draw" else "core")


def drawn_case(case, chance):
    """The case by `draw`, on the page around the drawing if no page is given."""
    form = chance.choice((case.form, case.form, case.form, case.form.upper()))
    options = {name: case.options[name] for name in case.options if name not in ("width", "height")}
    options.setdefault("profile", "core")
    options.update(page_options(chance), form=form)
    if chance.random() < 0.3:
        options["margin"] = str(chance.choice(MARGINS))
    return case._replace(form="draw", options=options)


def with_windows(case, chance):
    """The case with more windows, of which some reach beyond the page."""
    sides = [number(case, name, *PAGE_OPTIONS[name]) for name in ("width", "height")]
    corner = lambda: ",".join(str(chance.randint(-side // 8, side + side // 8)) for side in sides)
    window = lambda: chance.choice((b";IW;", f";IW{corner()},{corner()};".encode()))
    return case._replace(plot=with_pieces(case.plot, chance, window))


def with_labels(case, chance):
    """The case with more labels, often in UTF-8; or with labels only, so that most of them are drawn."""
    if chance.random() < 0.5:
        plot = b"".join(random_label(chance) for _ in range(chance.choice((1, 2, 3, 5))))
    else:
        plot = with_pieces(case.plot, chance, lambda: random_label(chance))
    options = {**case.options, "characters": "utf-8"} if chance.random() < 0.4 else case.options
    return case._replace(options=options, plot=plot)


def with_labels_written(case, chance):
    """The case, if it is a DXF of the profile full mostly with a choice of how it has labels, and else rarely, which is wrong."""
    form, profile = case.options.get("form", case.form).lower(), profile_of(case)
    if chance.random() >= (0.6 if form == "dxf" and profile == "full" else 0.01):
        return case
    labels = chance.choice((*LABELS, AS_STROKES)) if chance.random() < 0.97 else "Text"
    return case._replace(options={**case.options, "labels": labels})


def with_sheets(case, chance):
    """The case with other sheets, of which the plot often has more."""
    options = {name: case.options[name] for name in case.options if name != "sheet"}
    if chance.random() < 0.7:
        options["sheet"] = chance.choice(SHEETS)
    if options.get("sheet") == EACH and chance.random() < 0.7:
        options["output"] = "documents"
    plot = with_ends_of_sheets(case.plot, chance) if chance.random() < 0.7 else case.plot
    return case._replace(options=options, plot=plot)
