#!/usr/bin/env python3
"""Writes the plot of examples/relief.plt: a hilly country shaded by an image (HP RTL), under its contour lines.

    examples/relief.py > examples/relief.plt

The page is 4000 by 3000 plotter units (100 by 75 mm). The image has 60 dots to the inch, each one of 16 colours, which a
number of 4 bits in its row names: rows go to the right, and the dots of a row go up. Rows are packed by compression 2.
"""

import math
import sys

WIDTH, HEIGHT = 4000, 3000
DOTS = 60
UNIT = 1016 / DOTS
HILLS = (
    (1100, 1900, 700, 430), (2500, 2150, 620, 380), (3150, 900, 800, 520), (1700, 800, 520, 260), (500, 500, 600, 210),
    (3700, 2600, 500, 250),
)
STEP, INTERVAL = 40, 50


def elevation(x, y):
    return sum(high * math.exp(-((x - left) ** 2 + (y - low) ** 2) / (2 * (wide * 0.6) ** 2)) for left, low, wide, high in HILLS)


def tone(x, y):
    """The light of a slope, 0 to 15, from the upper left."""
    east = (elevation(x + 5, y) - elevation(x - 5, y)) / 10
    north = (elevation(x, y + 5) - elevation(x, y - 5)) / 10
    light = (0.55 + 0.5 * east - 0.5 * north) / math.sqrt(1 + 0.6 * (east * east + north * north))
    return max(0, min(15, round(15 * light)))


def packed(row):
    """The bytes of a row by compression 2: runs of equal bytes, and bytes as they are."""
    out, start = b"", 0
    while start < len(row):
        end = start + 1
        while end < len(row) and row[end] == row[start] and end - start < 128:
            end += 1
        if end - start > 1:
            out += bytes((257 - (end - start), row[start]))
        else:
            while end < len(row) and end - start < 128 and (end + 1 == len(row) or row[end] != row[end + 1]):
                end += 1
            out += bytes((end - start - 1,)) + row[start:end]
        start = end
    return out


def shading():
    yield b"\x1b%1A\x1b*v6W" + bytes((0, 1, 4, 8, 8, 8))
    for k in range(16):
        part = k / 15
        colour = (round(120 + 130 * part), round(130 + 118 * part), round(95 + 130 * part))
        yield b"\x1b*v%da%db%dc%dI" % (*colour, k)
    across, up = int(WIDTH / UNIT), int(HEIGHT / UNIT)
    yield b"\x1b*t%dR\x1b*r%ds1A\x1b*b2M" % (DOTS, up)
    for i in range(across):
        dots = [tone((i + 0.5) * UNIT, (j + 0.5) * UNIT) for j in range(up)]
        row = packed(bytes(16 * high + low for high, low in zip(dots[::2], dots[1::2] + [0])))
        yield b"\x1b*b%dW" % len(row) + row
    yield b"\x1b*rC\x1b%1B"


def crossing(one, other, level):
    (x, y, low), (end_x, end_y, high) = sorted((one, other))
    part = (level - low) / (high - low)
    return round(x + part * (end_x - x)), round(y + part * (end_y - y))


def cuts(level):
    """Where a contour line crosses squares: its two places on the sides of each."""
    for left in range(0, WIDTH, STEP):
        for low in range(0, HEIGHT, STEP):
            corners = [(x, y, elevation(x, y)) for x, y in
                       ((left, low), (left + STEP, low), (left + STEP, low + STEP), (left, low + STEP))]
            ends = [crossing(one, other, level) for one, other in zip(corners, corners[1:] + corners[:1])
                    if (one[2] < level) != (other[2] < level)]
            if len(ends) == 2 and ends[0] != ends[1]:
                yield ends


def chains(level):
    """The lines of a contour, each from place to place as far as it leads."""
    beside = {}
    for one, other in cuts(level):
        beside.setdefault(one, []).append(other)
        beside.setdefault(other, []).append(one)
    for start in sorted(beside, key=lambda place: (len(beside[place]), place)):
        while beside[start]:
            chain = [start]
            while beside[chain[-1]]:
                place = beside[chain[-1]].pop()
                beside[place].remove(chain[-1])
                chain.append(place)
            yield chain


def contours():
    for level in range(INTERVAL, 700, INTERVAL):
        yield "PW.35;" if level % 250 == 0 else "PW.13;"
        for chain in chains(level):
            yield "PU%d,%d;PD" % chain[0] + ",".join("%d,%d" % place for place in chain[1:]) + ";"


def main():
    write = sys.stdout.buffer.write
    write(b"IN;PU0,0;")
    for part in shading():
        write(part)
    write(("PC1,110,70,40;SP1;" + "".join(contours())).encode())
    write(b"PC2,30,30,30;SP2;PW.35;SD1,341,3,10,4,10;LO5;")
    for left, low, _, high in HILLS[:4]:
        write(b"PU%d,%d;LB%d\x03" % (left, low, high))
    write(b"SP0;\n")


if __name__ == "__main__":
    main()
