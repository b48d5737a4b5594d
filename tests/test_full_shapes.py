"""Checks shapes of the profile full in the plain plotter of tests/reference, without the program: dashes, directions,
arcs, and areas, which are solid fills."""

import random
from fractions import Fraction

import pytest

from reference import full_plotter, raster
from reference.curves import arc
from reference.directions import ONE, unit
from reference.geometry import Page
from reference.line_types import ADAPTIVE, FIXED, Adaptive, Fixed
from reference.shapes import Area

POLYGONS, POINTS, SIDE = 120, 60, 160
BLACK = (0, 0, 0)
# A page of 64 by 64 units, on which a pixel of 127 dots per inch is 8 units.
PAGE = Page(64, 64, 0, 0)
WHOLE = 0, 0, 1024, 1024


# Line types, directions and curves


def test_number_of_dashes():
    """A dashed line has as many dashes as it says, in order; and none but a last dot ends past the line."""
    chance = random.Random(5)
    for _ in range(2000):
        patterns = list(chance.choice((FIXED, ADAPTIVE)).values())
        own = [chance.choice((0, 0, 1, 5, 20)) for _ in range(chance.randint(1, 7))]
        pattern = chance.choice([*patterns, [*own, 1]])
        ticks, long = chance.choice((256, 257, 300, 1000, 2**40)), chance.choice((1, 255, 256, 257, 900, chance.randint(1, 9000)))
        phase = chance.randrange(ticks)
        for dashes in (Fixed(pattern, ticks, phase, long), Adaptive(pattern, ticks, long)):
            ends = list(dashes)
            said = f"{type(dashes).__name__} {pattern} {ticks} {phase} {long}: {ends}"
            assert dashes.count() == len(ends), said
            assert all(0 <= first <= last <= long for first, last in ends), said
            assert all(one[1] <= other[0] for one, other in zip(ends, ends[1:])), said


def is_nearest(part, whole, square):
    """Whether a part of a direction is the whole number nearest to ONE times a part of a length, by its square."""
    exact = 4 * ONE * ONE * part * part
    return (2 * abs(whole) - 1) ** 2 * square <= exact <= (2 * abs(whole) + 1) ** 2 * square or whole == exact == 0


def test_directions():
    """Each part of a direction is the nearest whole number; along an axis it is exact."""
    chance = random.Random(7)
    for _ in range(2000):
        u, v = (chance.randint(-(2**31) + 1, 2**31 - 1) >> chance.choice((0, 0, 8, 25)) for _ in range(2))
        if u or v:
            assert all(is_nearest(part, whole, u * u + v * v) for part, whole in zip((u, v), unit(u, v))), (u, v)
    for far in (1, 2**31 - 1, 2**31, 2**69 - 1):
        assert [unit(far, 0), unit(0, -far)] == [(ONE, 0), (0, -ONE)]


def test_arcs_are_parts_of_circles():
    """The places of an arc are within a grain of the circle through its three places, and go round it once."""
    chance = random.Random(9)
    for _ in range(300):
        a, b, c = (tuple(chance.randint(-9000, 9000) for _ in range(2)) for _ in range(3))
        c = chance.choice((c, c, a))
        (bx, by), (cx, cy) = ((at[0] - a[0], at[1] - a[1]) for at in (b, c))
        twice = 2 * (bx * cy - by * cx)
        if abs(twice) < 2_000_000 and c != a or b == a:
            continue
        if c == a:
            centre = Fraction(bx, 2), Fraction(by, 2)
        else:
            b2, c2 = bx * bx + by * by, cx * cx + cy * cy
            centre = Fraction(b2 * cy - c2 * by, twice), Fraction(c2 * bx - b2 * cx, twice)
        radius = (centre[0] ** 2 + centre[1] ** 2) ** 0.5
        places = [a, *arc(a, b, c)]
        for x, y in places:
            off = ((x - a[0] - centre[0]) ** 2 + (y - a[1] - centre[1]) ** 2) ** 0.5
            assert abs(float(off - radius)) <= 1, (a, b, c, (x, y))
        assert len(places) == 65
        # The second point is near one of the chords.
        longest = max((p[0] - q[0]) ** 2 + (p[1] - q[1]) ** 2 for p, q in zip(places, places[1:]))
        assert min((p[0] - b[0]) ** 2 + (p[1] - b[1]) ** 2 for p in places) <= longest, (a, b, c)


# Areas


def random_polygon(chance, side=SIDE):
    """The parts of a polygon, each by its places in grains."""
    parts = []
    for _ in range(chance.choice((1, 1, 2, 3))):
        step = chance.choice((1, 1, 4, 8, 16))
        count = chance.choice((3, 3, 4, 5, 8))
        parts.append([(chance.randint(0, side // step) * step, chance.randint(0, side // step) * step) for _ in range(count)])
    return parts


def edges_of(parts):
    """The edges of a polygon: each part is closed, unless its last place is the first."""
    edges = []
    for part in parts:
        edges += zip(part, part[1:])
        edges += [(part[-1], part[0])] if part[-1] != part[0] else []
    return tuple(edges)


@pytest.mark.parametrize("rule", (0, 1))
def test_solid_fills(rule):
    """A solid fill is one area of all edges, whether they are drawn or not."""
    chance = random.Random(rule)
    for _ in range(POLYGONS):
        parts = random_polygon(chance)
        plot = "PU;PA;"
        for i, part in enumerate(parts):
            places = [f"{x / 16},{y / 16}" for x, y in part]
            plot += f"PU{places[0]};PM0;" if i == 0 else f"PM1;PU{places[0]};"
            plot += chance.choice(("PD", "PU")) + ",".join(places[1:]) + ";"
        got = full_plotter.draw(f"{plot}PM2;FP{rule};".encode(), Page(1000, 1000, 0, 0))
        assert got == ([Area(1, BLACK, (0, 0, 16_000, 16_000), edges_of(parts), rule)], []), plot


def is_inside(edges, x, y, rule):
    """Whether a point is inside, by how many edges it passes: they lead past its height, and it is not left of them."""
    upward = downward = 0
    for (ax, ay), (bx, by) in edges:
        upward += ay <= y < by and (bx - ax) * (y - ay) <= (x - ax) * (by - ay)
        downward += by <= y < ay and (bx - ax) * (y - ay) >= (x - ax) * (by - ay)
    return (upward + downward) % 2 == 1 if rule == 0 else upward != downward


def distance(edge, x, y):
    """The square of how far a point is from an edge."""
    (ax, ay), (bx, by) = edge
    vx, vy = bx - ax, by - ay
    square = vx * vx + vy * vy
    along = min(Fraction(1), max(Fraction(0), Fraction(vx * (x - ax) + vy * (y - ay), square))) if square else 0
    return (x - ax - along * vx) ** 2 + (y - ay - along * vy) ** 2


def is_covered(area, dots, row, column):
    """Whether an area covers the centre of a pixel: in its window and inside, or within half the least width of an edge."""
    side = Fraction(raster.PIXEL, dots)
    x, y = side * (column + Fraction(1, 2)), WHOLE[3] - side * (row + Fraction(1, 2))
    left, bottom, right, top = area.window
    if not (left <= x <= right and bottom <= y <= top):
        return False
    near = (side * Fraction(3, 4)) ** 2
    return is_inside(area.edges, x, y, area.rule) or any(distance(edge, x, y) <= near for edge in area.edges)


@pytest.mark.parametrize("dots", (127, 254, 300))
@pytest.mark.parametrize("rule", (0, 1))
def test_pixels_of_areas(rule, dots):
    """Each pixel shows an area if this covers its centre, also where centres are on edges and at corners."""
    chance, counts = random.Random(dots + rule), {True: 0, False: 0}
    for _ in range(POLYGONS // 6):
        window = chance.choice((WHOLE, WHOLE, (192, 64, 704, 960)))
        area = Area(3, BLACK, window, edges_of(random_polygon(chance, 1024)), rule)
        for row, cells in raster.rows([area], PAGE, dots, {3}, 0):
            wanted = [is_covered(area, dots, row, column) for column in range(len(cells))]
            assert [cell is area for cell in cells] == wanted, (area, row)
            counts = {it: counts[it] + wanted.count(it) for it in counts}
    assert min(counts.values()) > 500


@pytest.mark.parametrize("rule", (0, 1))
def test_insides_of_polygons(rule):
    """Off the edges, what is inside is so after a turn, and if the edges lead the other way round or come in another order."""
    chance, inside = random.Random(rule), 0
    for _ in range(POLYGONS):
        edges = edges_of(random_polygon(chance))
        turned = [tuple((-y, x) for x, y in edge) for edge in edges]
        others = [(b, a) for a, b in chance.sample(edges, len(edges))]
        for _ in range(POINTS):
            x, y = chance.randint(0, SIDE), chance.randint(0, SIDE)
            if all(distance(edge, x, y) for edge in edges):
                found = {is_inside(edges, x, y, rule), is_inside(turned, -y, x, rule), is_inside(others, x, y, rule)}
                assert len(found) == 1, (edges, x, y)
                inside += found == {True}
    assert inside > POLYGONS * POINTS / 20


def test_order_of_shapes():
    """A pixel shows the last shape of a selected pen; an area comes where it is drawn."""
    shapes, _ = full_plotter.draw(b"SP2;PU16,16;RA48,48;SP1;PU0,28;PD64,28;SP3;IW0,0,20,64;PU0,16;RA24,48;", PAGE)
    wide = [cells for _, cells in raster.rows(shapes, PAGE, 127, {1, 2, 3}, 0)]
    pens = [[cell.pen if cell else 0 for cell in cells] for cells in wide]
    area, window = [0, 2, 2, 2, 2, 2, 2, 0], [3, 3, 3, 2, 2, 2, 2, 0]
    assert pens == [8 * [0], window, window, window, [3, 3, 3, 1, 1, 1, 1, 1], window, window, 8 * [0]]
    two = [[cell.pen if cell else 0 for cell in cells] for _, cells in raster.rows(shapes, PAGE, 127, {2}, 3)]
    assert two == [area, area, area, area, 8 * [0]]
