"""The page that `--rotate` turns counterclockwise, with all that is on it.

The page as it was lies on the turned page as the page that RO rotates lies on that of a plot, so a place is found as RO finds
it. Places are in grains.
"""

from . import messages
from .geometry import NO_WINDOW, on_the_page
from .labels import rows_at
from .plotter import FARTHEST_END, Refused
from .shapes import placed, strokes_of


class TooFar(Refused):
    """A shape cannot be turned: an end of it would be out of range."""

    status = 2


class Turn:
    """A turn of a page, by 0, 90, 180 or 270 degrees; `page` is the page after it."""

    def __init__(self, page, degrees):
        self.degrees = degrees
        self.page = page if degrees % 180 == 0 else page._replace(width=page.height, height=page.width)

    def place(self, place):
        return on_the_page(self.page, *place, self.degrees)

    def window(self, window):
        """A window by its corners; an empty one has no place before the turn, and none after it."""
        left, bottom, right, top = window
        if left > right or bottom > top:
            return NO_WINDOW
        x, y = zip(self.place((left, bottom)), self.place((right, top)))
        return min(x), min(y), max(x), max(y)

    def shapes(self, shapes):
        """The shapes after the turn, in their order; all of them are drawn, so all must be in range."""
        turned = [placed(shape, self.place, self.window(shape.window)) for shape in shapes]
        if any(is_far(stroke) for shape in turned for stroke in strokes_of(shape)):
            raise TooFar(messages.text("too-far-to-turn"))
        return turned

    def labels(self, labels):
        return [rows_at(rows, self.place) for rows in labels]


def is_far(stroke):
    """Whether an end of a stroke is out of range."""
    return max(map(abs, (*stroke.a, *stroke.b))) > FARTHEST_END
