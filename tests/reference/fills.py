"""The lines of hatching and of shading, in the profile full."""

from .cutting import MILLION, rounded
from .geometry import sine

BY_ODD_COUNTS, BY_WINDING = 0, 1


class Lines:
    """Parallel lines at an angle in thousandths of a degree, so many ticks apart, one of them through an anchor."""

    def __init__(self, angle, apart, anchor):
        self.cosine, self.sine = sine(angle + 90_000), sine(angle)
        self.unit, self.anchor = 10 * MILLION * apart, anchor

    def height(self, place):
        """How far a place is above the anchor's line; the k-th line is k units above it."""
        x, y = place[0] - self.anchor[0], place[1] - self.anchor[1]
        return 256 * (self.cosine * y - self.sine * x)

    def rank(self, place):
        """How far along the lines a place is."""
        return self.cosine * place[0] + self.sine * place[1]

    def crossed(self, a, b):
        """The numbers of the lines that an edge crosses; one through its upper end is not among them."""
        low, high = sorted((self.height(a), self.height(b)))
        return range(-(-low // self.unit), -(-high // self.unit))

    def crossings(self, edges):
        """Of each line that is crossed: rank, whether it is upwards, and the place of each crossing, by rank."""
        found = {}
        for a, b in edges:
            begin, way = self.height(a), self.height(b) - self.height(a)
            for k in self.crossed(a, b):
                gone = k * self.unit - begin
                place = tuple(p + rounded((q - p) * gone, way) for p, q in zip(a, b))
                found.setdefault(k, []).append((self.rank(place), way > 0, place))
        # Crossings of one rank stay in the order of the edges.
        return {k: sorted(found[k], key=lambda crossing: crossing[0]) for k in sorted(found)}

    def spans(self, edges, rule):
        """The parts of the lines that lie within polygons, each by its two places."""
        for crossings in self.crossings(edges).values():
            number = 0
            for (_, is_up, place), (_, _, following) in zip(crossings, crossings[1:]):
                number += 1 if is_up or rule == BY_ODD_COUNTS else -1
                if number % 2 if rule == BY_ODD_COUNTS else number:
                    yield place, following


def count_of_crossings(lines, edges):
    return sum(len(lines.crossed(a, b)) for a, b in edges)
