"""Documents of lines, areas and images, PDF and SVG: what one shows, in the same form for what a plot draws and for what a
document has."""

from itertools import groupby
from typing import NamedTuple

from .fills import BY_ODD_COUNTS
from .geometry import whole_page
from .shapes import is_area, is_image

LEAST_WIDTH = 24
MOST_IN_A_PATH = 1000


class Line(NamedTuple):
    """A line as a document shows it: its width, the window that cuts it, or None for the page, and its ends, in grains."""

    pen: int
    colour: tuple
    width: int
    window: tuple
    a: tuple
    b: tuple


class FilledPath(NamedTuple):
    """An area as a document shows it: the rule by which it is filled, the window that cuts it, or None for the page, and its
    edges, each by its ends, in grains."""

    pen: int
    colour: tuple
    rule: int
    window: tuple
    edges: tuple


class Picture(NamedTuple):
    """An image as an SVG shows it: the window that cuts it, its corner in grains, where its next row and where the next dot of a
    row lie, how many dots it has to the inch, and the dots that are shown, each with its row, its place in the row, and its
    colour."""

    window: tuple
    corner: tuple
    across: tuple
    along: tuple
    per_inch: int
    dots: tuple


class Document(NamedTuple):
    """A page in plotter units, the lines and areas of each sheet on it, which are by themselves if there is no sheet, the title,
    and what it has of labels: in an SVG groups of lines, in a PDF texts."""

    width: int
    height: int
    sheets: list
    are_numbered: bool = True
    title: str = None
    labels: tuple = ()

    def listing(self):
        """A line of text for each thing that the document shows."""
        texts = [f"page {self.width} {self.height}"]
        texts += [] if self.title is None else [f"title {self.title}"]
        for number, shapes in enumerate(self.sheets, 1):
            texts += [f"sheet {number}"] if self.are_numbered else []
            texts += map(spelled, shapes)
            texts += [str(it) for it in self.labels if it.sheet == number]
        return "".join(f"{text}\n" for text in texts).encode()

    def texts(self, sheet=1):
        """The texts of a sheet's labels, in order: in an SVG one for each label, in a PDF one for each line of a label."""
        return [it.text for it in self.labels if it.sheet == sheet]

    def without_labels(self):
        return self._replace(labels=())


def spelled(shape):
    """A line, an area or an image as text."""
    window = "" if shape.window is None else " in {} {} {} {}".format(*shape.window)
    if isinstance(shape, Picture):
        dots = "".join(f" {row}:{dot}:{bytes(colour).hex()}" for row, dot, colour in shape.dots)
        return f"image{window} at {shape.corner} by {shape.across} and {shape.along} of {shape.per_inch}{dots}"
    look = f"pen {shape.pen} {bytes(shape.colour).hex()}"
    if isinstance(shape, Line):
        return f"{look} width {shape.width}{window}" + between(shape.a, shape.b)
    rule = "odd counts" if shape.rule == BY_ODD_COUNTS else "winding"
    return f"{look} area by {rule}{window}" + "".join(between(a, b) for a, b in shape.edges)


def between(a, b):
    return " from {} {} to {} {}".format(*a, *b)


def shapes_of(shapes, page):
    """What a document shows of shapes on a page: those whose window holds a place."""
    return [shape_of(shape, page) for shape in shapes if holds_a_place(shape.window)]


def spans_of(shapes):
    """The number of each label of which a document shows strokes, with the numbers of its first line and of the one after its
    last, among all that the document shows."""
    first, spans = 0, []
    for label, own in groupby(shape.label for shape in shapes if holds_a_place(shape.window)):
        after = first + len(list(own))
        spans += [] if label is None else [(label, first, after)]
        first = after
    return spans


def holds_a_place(window):
    left, bottom, right, top = window
    return left <= right and bottom <= top


def shape_of(shape, page):
    window = None if shape.window == whole_page(page) else shape.window
    if is_image(shape):
        return Picture(shape.window, shape.corner, shape.across, shape.along, shape.per_inch, tuple(shape.dots_shown()))
    if is_area(shape):
        return FilledPath(shape.pen, shape.colour, shape.rule, window, shape.edges)
    return Line(shape.pen, shape.colour, max(LEAST_WIDTH, shape.width), window, shape.a, shape.b)
