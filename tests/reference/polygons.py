"""The polygon buffer of the profile full."""


class Polygon:
    """Places, with a mark for each but the first, and one for the close: whether the edge to it is drawn."""

    def __init__(self, first):
        self.places, self.marks, self.is_close_drawn = [first], [], False

    def edges(self):
        """The edges, each with its mark; the close comes last, unless the last place is the first."""
        yield from zip(self.places, self.places[1:], self.marks)
        if self.places[-1] != self.places[0]:
            yield self.places[-1], self.places[0], self.is_close_drawn


class Buffer:
    """Closed polygons, and at most one that is open."""

    def __init__(self):
        self.closed, self.open, self.size = [], None, 0

    def begin(self, place):
        self.open = Polygon(place)
        self.size += 1

    def reach(self, place, is_drawn):
        """The pen goes to a place."""
        if self.open:
            self.open.places.append(place)
            self.open.marks.append(is_drawn)
            self.size += 1
        else:
            self.begin(place)

    def close(self, is_drawn):
        """Closes the open polygon, if there is one; one of a single place is dropped."""
        if self.open and len(self.open.places) > 1:
            self.open.is_close_drawn = is_drawn
            self.closed.append(self.open)
        elif self.open:
            self.size -= 1
        self.open = None

    def put(self, places):
        """Adds a figure, all of whose edges are drawn."""
        self.begin(places[0])
        for place in places[1:]:
            self.reach(place, True)
        self.close(True)

    def edges(self):
        for polygon in self.closed:
            yield from polygon.edges()
