"""Arcs through three places and Bezier curves, in the profile full."""

from .cutting import rounded
from .directions import unit

TOO_FAR = 2**40
HALVINGS = 6


def arc(a, b, c):
    """The places that the pen reaches on the arc from a through b to c."""
    (ax, ay), (bx, by), (cx, cy) = a, (b[0] - a[0], b[1] - a[1]), (c[0] - a[0], c[1] - a[1])
    twice = 2 * (bx * cy - by * cx)
    is_whole = c == a and b != a
    if twice == 0 and not is_whole:
        return [c]
    if is_whole:
        centre = (128 * bx, 128 * by)
    else:
        centre = (
            rounded(256 * ((bx * bx + by * by) * cy - (cx * cx + cy * cy) * by), twice),
            rounded(256 * ((cx * cx + cy * cy) * bx - (bx * bx + by * by) * cx), twice),
        )
    if max(map(abs, centre)) > TOO_FAR:
        return [b, c]
    sense = -1 if twice < 0 else 1
    if is_whole:
        first = unit(by, -bx)
        last = (-first[0], -first[1])
    else:
        first, last = unit(sense * centre[1], -sense * centre[0]), unit(cx, cy)
    directions = [first, last]
    for _ in range(HALVINGS):
        directions = halved(directions, sense)
    # A line from a meets the circle where its direction's part of the centre's offset is taken twice.
    between = [on_the_circle(centre, direction) for direction in directions[1:-1]]
    return [(ax + dx, ay + dy) for dx, dy in between] + [c]


def halved(directions, sense):
    """The directions, with one between each and the next."""
    finer = directions[:1]
    for (px, py), (qx, qy) in zip(directions, directions[1:]):
        if px * qx + py * qy >= 0:
            finer.append(unit(px + qx, py + qy))
        else:
            finer.append(unit(sense * (qy - py), -sense * (qx - px)))
        finer.append((qx, qy))
    return finer


def on_the_circle(centre, direction):
    """Where a line through the circle's start meets it again, as an offset in grains; the centre is in ticks."""
    (vx, vy), (dx, dy) = centre, direction
    along, square = 2 * (vx * dx + vy * dy), 256 * (dx * dx + dy * dy)
    return rounded(dx * along, square), rounded(dy * along, square)


def bezier(p0, p1, p2, p3):
    """The places that the pen reaches on a Bezier curve."""
    bend = max(abs(a - 2 * b + c) for three in ((p0, p1, p2), (p1, p2, p3)) for a, b, c in zip(*three))
    count = next((n for n in (4, 8, 16, 32, 64, 128) if 16 * n * n >= bend), 256)
    places = []
    for k in range(1, count + 1):
        rest = count - k
        weights = (rest**3, 3 * rest * rest * k, 3 * rest * k * k, k**3)
        places.append(tuple(
            rounded(sum(weight * part for weight, part in zip(weights, parts)), count**3)
            for parts in zip(p0, p1, p2, p3)
        ))
    return places
