"""From the words of a command line to what they ask for, or to a mistake in them.

Options are texts by their names; that of one that takes no value is None.
"""

import re
from typing import NamedTuple

from . import carousel, messages
from .carousel import Carousel
from .fitting import LONGEST_OF_CORE
from .geometry import Page
from .pen_lists import pens_of

VECTORS = ("pdf", "svg", "dxf")
DOCUMENTS = ("png", *VECTORS)
PICTURES = ("marks", "pbm", "ppm", "pcl", *DOCUMENTS)
WITH_SHADES = ("png", "ppm")
DOTS_OF_PCL = (75, 100, 150, 200, 300, 600)
MOST_DOTS = 1200
MOST_SMOOTHING = 8
# Each option's range and what it is by default.
PAGE_OPTIONS = {
    "width": (64, 524288, 11880), "height": (64, 524288, 8400), "left": (0, 65536, 0), "below": (0, 65536, 0),
}
PICTURE_OPTIONS = {"dots": (10, 1200, 100)}
ROW_OPTIONS = {"band": (1, 4096, 64), "from": (0, 399_999, 0), "rows": (1, 400_000, None)}
SMOOTH_OPTIONS = {"smooth": (1, MOST_SMOOTHING, 1)}
# Without `fit` there may be no margin.
FIT_OPTIONS = {"margin": (0, 100, 1)}
# Without `size` draw has `dots`, and smooths by at most 4 if nothing else is said.
DRAW_OPTIONS = {"dots": (10, 1200, 150), "size": (16, 20_000, None), "smooth": (1, MOST_SMOOTHING, 4), "margin": (0, 100, 5)}
MOST_SHEETS = 4_194_304
EACH = "each"
CHARACTERS = ("roman-8", "latin-1", "windows-1252", "pc-8", "ascii", "utf-8")
# How a DXF has labels.
AS_TEXT, AS_STROKES = LABELS = ("text", "strokes")
NO_SUCH_FORM = (
    "no such form of picture: use png, pdf, svg, dxf, ppm, pbm, pcl or marks, after --form or as the extension of the output file"
)
ROTATIONS = ("0", "90", "180", "270")
TEXTS = ("profile", "sheet", "characters", "page", "fit", "rotate", "colours", "colors", "widths")


class Request(NamedTuple):
    """What a command line asks for. A picture has dots or pixels, but a report and a document of lines have neither."""

    form: str
    page: Page
    is_page_asked: bool = False  # of the plot
    margin: int = None  # of the page that is fitted
    rotation: int = 0  # of the page that is shown, in degrees
    sheet: object = None  # in core None, else a number, 0 for all, or EACH
    is_sheet_named: bool = False
    characters: str = None  # how the bytes of labels are read; None as the plot chooses
    labels: str = AS_TEXT  # how a DXF has them
    pens: object = frozenset(range(1, 256))
    carousel: Carousel = carousel.EMPTY
    dots: int = None
    pixels: int = None  # the most that the longer side may have
    smooth: int = 1
    first: int = 0
    most: int = None  # rows, from the first on; None for all
    folder: str = None
    is_draw: bool = False
    is_quiet: bool = False


class Mistake(Exception):
    """The words are wrong; without a text they are not understood."""


def ranges_of(command):
    """The options with a number that a command has."""
    ranges = {**PAGE_OPTIONS, **FIT_OPTIONS}
    if command in PICTURES and command not in VECTORS:
        ranges.update(PICTURE_OPTIONS)
        ranges.update({} if command == "png" else ROW_OPTIONS)
    if command in WITH_SHADES:
        ranges.update(SMOOTH_OPTIONS)
    return {**ranges, **DRAW_OPTIONS} if command == "draw" else ranges


def request_of(command, options):
    """What a command line asks for."""
    numbers = numbers_of(command, options)
    texts = (*TEXTS, "output") if command == "report" else (*TEXTS, "output", "pens")
    texts = (*texts, "form", "quiet") if command == "draw" else texts
    texts = (*texts, "labels") if command in ("draw", "dxf") else texts
    if any(name not in (*numbers, *texts) for name in options) or {"colours", "colors"} <= set(options):
        raise Mistake
    form = form_of(command, options)
    pens = pens_of(options.get("pens", "all"))
    if pens is None:
        raise Mistake(messages.text("pens"))
    assigned = carousel_of(options)
    request = Request(form, Page(*(numbers[name] for name in PAGE_OPTIONS)), pens=pens, carousel=assigned)
    request = request._replace(folder=options.get("output"), first=numbers.get("from", 0), most=numbers.get("rows"))
    request = request._replace(is_draw=command == "draw", is_quiet="quiet" in options)
    request = with_labels(request, options)
    if form in VECTORS and {"dots", "size", "smooth"} & set(options):
        raise Mistake(messages.text("no-pixels"))
    if form != "report" and form not in VECTORS:
        request = with_resolution(request, options, numbers)
    request = with_sheet(with_page(request, options), options)
    if "size" in options and "dots" in options:
        raise Mistake("--size may not be given with --dots")
    if "size" in options and form == "pcl":
        raise Mistake("--size may not be given with the form pcl")
    request = request._replace(margin=margin_of(command, options, numbers))
    return request._replace(rotation=rotation_of(options))


def numbers_of(command, options):
    """The number of each option that has one, by default or as it is given."""
    numbers = {}
    for name, (least, most, default) in ranges_of(command).items():
        text = options.get(name)
        if name in options and (not re.fullmatch(r"\+?[0-9]+", text) or not least <= int(text) <= most):
            raise Mistake
        numbers[name] = int(text) if name in options else default
    return numbers


def form_of(command, options):
    if command != "draw":
        return command
    form = options.get("form", "png").lower()
    if form not in PICTURES:
        raise Mistake(NO_SUCH_FORM)
    return form


def carousel_of(options):
    """The colours and the widths of pens that options say."""
    found = []
    for name, read in (("colours", carousel.colours_of), ("widths", carousel.widths_of)):
        text = options.get(name, options.get("colors") if name == "colours" else None)
        try:
            found.append({} if text is None else read(text))
        except carousel.BadItem as bad:
            raise Mistake(f"bad {name}: {bad}") from None
    return Carousel(*found)


def profile_of(request, options):
    return options.get("profile", "full" if request.is_draw else "core")


def with_labels(request, options):
    """A request with how a DXF has labels."""
    labels = options.get("labels", AS_TEXT)
    if labels not in LABELS:
        raise Mistake(messages.text("labels"))
    if "labels" in options and request.form != "dxf":
        raise Mistake(messages.text("labels-without-texts"))
    if "labels" in options and profile_of(request, options) == "core":
        raise Mistake(messages.text("labels-in-core"))
    return request._replace(labels=labels)


def with_resolution(request, options, numbers):
    """A request with its dots or the most pixels of a side, and how much finer it is painted."""
    smooth, dots = numbers.get("smooth", 1), numbers["dots"]
    if request.form not in WITH_SHADES:
        if "smooth" in options:
            raise Mistake(messages.text("smooth-without-shades"))
        smooth = 1
    elif "size" in options:
        smooth = smooth if "smooth" in options else MOST_SMOOTHING
    elif "smooth" not in options:
        smooth = min(smooth, MOST_DOTS // dots)
    if "size" in options:
        return request._replace(pixels=numbers["size"], smooth=smooth)
    if dots * smooth > MOST_DOTS:
        raise Mistake(messages.text("too-fine"))
    return request._replace(dots=dots, smooth=smooth)


def with_page(request, options):
    """A request with whose page it is; here no other name than `plot` is known."""
    page, is_size_given = options.get("page"), "width" in options or "height" in options
    if page not in (None, "plot"):
        raise ValueError(page)
    if page and is_size_given:
        raise Mistake(messages.text("page-and-sides"))
    return request._replace(is_page_asked=page == "plot" or request.is_draw and not is_size_given)


def with_sheet(request, options):
    """A request with its sheet and its characters."""
    profile, text = profile_of(request, options), options.get("sheet", "1")
    if text != EACH and (not re.fullmatch(r"\+?[0-9]+", text) or int(text) > MOST_SHEETS):
        raise Mistake(f"bad sheet: use a number from 0 to {MOST_SHEETS}, or {EACH}")
    characters = options.get("characters")
    if characters not in (None, *CHARACTERS):
        raise Mistake(f"bad characters: use {', '.join(CHARACTERS[:-1])} or {CHARACTERS[-1]}")
    if profile not in ("core", "full"):
        raise Mistake(messages.text("profile"))
    if profile == "core":
        for name in ("sheet", "characters"):
            if name in options:
                raise Mistake(f"--{name} needs --profile full")
        if max(request.page.width, request.page.height) > LONGEST_OF_CORE:
            raise Mistake(messages.text("long-page"))
        return request
    if "sheet" not in options and request.is_draw and (request.folder or request.form == "pdf"):
        text = EACH
    if text == EACH and request.form == "report":
        raise Mistake("--sheet each needs a picture")
    if text == EACH and request.form == "pdf":
        # All are pages of one file.
        text = "0"
    if text == EACH and not request.folder:
        raise Mistake(messages.text("each-without-folder"))
    sheet = text if text == EACH else int(text)
    return request._replace(sheet=sheet, is_sheet_named="sheet" in options, characters=characters)


def margin_of(command, options, numbers):
    """The margin of the page that is fitted, or None if it is not."""
    is_fitted = "fit" in options or command == "draw" and not {"page", "width", "height"} & set(options)
    if "margin" in options and not is_fitted:
        raise Mistake(messages.text("margin-without-fit"))
    return numbers["margin"] if is_fitted else None


def rotation_of(options):
    """By how many degrees the page is turned."""
    text = options.get("rotate", "0")
    if text not in ROTATIONS:
        raise Mistake(messages.text("rotation"))
    return int(text)
