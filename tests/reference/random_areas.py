"""Random solid fills: polygons of several parts, which cross themselves and one another, slivers and points, by both rules, in
windows and by several pens."""

from .random_plots import Writer

# The places of a five-pointed star about its middle, in the order in which its edges lead.
STAR = ((0, 16), (-9, -13), (15, 5), (-15, 5), (9, -13))
SOLID = (b"FT;", b"FT;", b"FT;", b"FT1;", b"FT2;", b"FT10,100;", b"FT21;", b"FT11,1;", b"FT22;")
# What is drawn after a fill, of the same polygons: with another rule, by another pen, in another window, or their edges.
AGAIN = (b"FP;", b"FP1;", b"SP2;FP1;", b"SP3;FP;", b"IW;FP1;", b"PC1,255,0,0;FP;", b"SP0;FP;", b"EP;", b"PG;FP;", b"FT3,5;FP;FT;")


class AreaWriter(Writer):
    """Writes pieces of solid fills, on a page whose sides it knows; places are in grains."""

    def solid(self):
        """A solid fill, what it is drawn with and in, and what is made of its polygons after it."""
        self.scale, self.is_relative = None, False
        plot = b"SC;PA;" + self.pick(*SOLID) + self.pick(b"", b"", b"", b"SP2;", b"IW;", self.piece("edge"))
        if self.chance(25):
            plot += b"PU" + self.pair_of(self.corner()) + b";RA" + self.pair_of(self.corner()) + b";"
        else:
            plot += self.polygon_of(self.parts()) + self.pick(b"FP;", b"FP;", b"FP0;", b"FP1;", b"FP1;", b"FP1;")
        return plot + b"".join(self.pick(*AGAIN) for _ in range(self.pick(0, 0, 0, 1, 1, 2)))

    def polygon_of(self, parts):
        """Polygon mode, in which these polygons are put into the buffer."""
        plot = b""
        for first, *others in parts:
            plot += (b"PM1;PU" if plot else b"PU") + self.pair_of(first) + (b";" if plot else b";PM0;")
            plot += self.pick(b"PD", b"PD", b"PU") + b",".join(map(self.pair_of, others)) + b";"
        return plot + b"PM2;"

    def parts(self):
        """Polygons, each by its places."""
        parts = []
        for _ in range(self.pick(1, 1, 2, 3)):
            parts += self.pick(self.star, self.ring, self.loose, self.loose, self.flat)()
        return parts

    def corner(self):
        """A place on the page or near it: often the centre of a pixel, or on its edge."""
        if self.chance(50):
            x, y = self.centre()
            return x + self.pick(0, 0, 0, 1, -1), y + self.pick(0, 0, 0, 1, -1)
        return tuple(self.pick(0, side, self.upto(side), self.upto(side), self.upto(2 * side) - side // 2)
                     for side in (16 * self.width, 16 * self.height))

    def star(self):
        """A star, which is hollow by odd counts, perhaps with the same one the other way round."""
        (x, y), step = self.corner(), self.upto(min(self.width, self.height)) // 2 + 1
        places = [(x + i * step, y + j * step) for i, j in STAR]
        return [places] + self.pick([], [], [places[::-1]], [places])

    def ring(self):
        """A rectangle with another one within it, which leads the same way round or the other."""
        (x, y), (u, v) = self.corner(), self.corner()
        dx, dy = (u - x) // 4, (v - y) // 4
        inner = [(x + dx, y + dy), (u - dx, y + dy), (u - dx, v - dy), (x + dx, v - dy)]
        return [[(x, y), (u, y), (u, v), (x, v)], self.pick(inner, inner[::-1])]

    def loose(self):
        """Any places, some of them on one level."""
        places = [self.corner() for _ in range(self.pick(3, 3, 4, 5, 7))]
        if self.chance(40):
            places[1] = places[1][0], places[0][1]
        return [places + self.pick([], [], places[:1], places[-1:])]

    def flat(self):
        """A sliver or a point."""
        (x, y), (u, _), high = self.corner(), self.corner(), self.pick(0, 0, 1, 8)
        return [self.pick([(x, y), (u, y), (u, y + high), (x, y + high)], [(x, y), (x + high, u)], [(x, y), (x, y)])]
