"""The page around a drawing, which `--fit` takes, and the drawing on it.

The drawing is that on the page that the other options give, whose edges cut nothing: a window that is all of it counts
as none. A shape reaches the box of its ends, a stroke with its width around it. What an area fills is in this box, but it need not
fill it. Boxes and windows are left, lower, right and upper edges, in grains; a page is in plotter units.
"""

from typing import NamedTuple

from .geometry import NO_WINDOW, Page, whole_page
from .plotter import FARTHEST_END
from .shapes import placed, strokes_of

UNIT = 16
MILLIMETRE = 640
SHORTEST, LONGEST_OF_CORE, LONGEST = 64, 65_536, 524_288
BLANK = "blank-to-fit"
TOO_LARGE = "too-large-to-fit"


class Fitted(NamedTuple):
    """A page, the shapes on it, and by which message it is the page that was given, or None."""

    page: Page
    shapes: list
    why: str = None


def fitted(shapes, page, margin, longest=LONGEST_OF_CORE):
    """The page around shapes, with a margin of so many millimetres and no side over the longest, and the shapes on it."""
    strokes = [stroke for shape in shapes for stroke in strokes_of(shape)]
    boxes = [box for box in (box_of(shape, page) for shape in shapes) if box]
    if not boxes:
        return Fitted(page, shapes, BLANK)
    lefts, bottoms, rights, tops = zip(*boxes)
    around = min(lefts), min(bottoms), max(rights), max(tops)
    x, width = side(around[0], around[2], margin)
    y, height = side(around[1], around[3], margin)
    corner = UNIT * x, UNIT * y
    if max(width, height) > longest or any(is_far(stroke, corner) for stroke in strokes):
        return Fitted(page, shapes, TOO_LARGE)
    shown = Page(width, height, page.left - x, page.below - y)
    return Fitted(shown, [moved(shape, page, shown, corner) for shape in shapes])


def box_of(shape, page):
    """What a shape reaches, in its window; None if nothing of that is in the window."""
    return reach_of(shape) if shape.window == whole_page(page) else cut(reach_of(shape), shape.window)


def reach_of(shape):
    """What a shape reaches: a stroke its ends with its width, an area all ends of its edges, an image its corners."""
    strokes = strokes_of(shape)
    half = max((stroke.width + 1) // 2 for stroke in strokes)
    x, y = zip(*((place for stroke in strokes for place in (stroke.a, stroke.b))))
    return min(x) - half, min(y) - half, max(x) + half, max(y) + half


def is_off(shape, page):
    """Whether all that a shape reaches is off the page, whatever its window shows."""
    return cut(reach_of(shape), whole_page(page)) is None


def cut(box, window):
    """What two boxes have in common, with their edges, or None."""
    left, bottom, right, top = (choose(ends) for choose, ends in zip((max, max, min, min), zip(box, window)))
    return (left, bottom, right, top) if left <= right and bottom <= top else None


def side(least, greatest, margin):
    """Where a side of the page begins, and how long it is, both in units, if the drawing reaches from the least to the
    greatest grain."""
    first = (least - margin * MILLIMETRE) // UNIT
    last = -(-(greatest + margin * MILLIMETRE) // UNIT)
    return first, max(SHORTEST, last - first)


def is_far(stroke, corner):
    """Whether an end of a stroke is out of range, if places are counted from this corner."""
    return any(abs(place - start) > FARTHEST_END for end in (stroke.a, stroke.b) for place, start in zip(end, corner))


def moved(shape, page, shown, corner):
    """A shape of a page, on the page that has this corner."""
    dx, dy = corner
    if shape.window == whole_page(page):
        window = whole_page(shown)
    else:
        left, bottom, right, top = shape.window
        window = cut((left - dx, bottom - dy, right - dx, top - dy), whole_page(shown)) or NO_WINDOW
    return placed(shape, lambda place: (place[0] - dx, place[1] - dy), window)
