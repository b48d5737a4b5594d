#!/usr/bin/env python3
"""Writes the plot of examples/metro.plt: the map of a railway, by pens up to 6 mm wide.

    examples/metro.py > examples/metro.plt

The page is 4000 by 3000 plotter units (100 by 75 mm). A station is a black dot with a white one on it.
"""

import sys

BLACK, WHITE, RIVER = 1, 4, 8
COLOURS = {WHITE: (255, 255, 255), RIVER: (200, 225, 240),
           2: (214, 40, 50), 3: (0, 135, 80), 5: (25, 90, 175), 6: (240, 150, 20)}
LINES = {
    2: [(250, 2250), (900, 2250), (1500, 1650), (2500, 1650), (3100, 1050), (3750, 1050)],
    3: [(500, 500), (1100, 1100), (1100, 1150), (1500, 1550), (2500, 1550), (3000, 2050), (3000, 2700)],
    5: [(2000, 2750), (2000, 700), (2250, 450), (3300, 450)],
    6: [(900, 2750), (900, 1450), (1400, 950), (2600, 950), (3100, 1450), (3700, 1450)],
}
STATIONS = [
    (300, 2250, "West Gate", -150, 130), (1250, 1900, "Mill Lane", 110, 20), (3500, 1050, "Harbour", -150, -200),
    (650, 650, "Old Town", 130, -60), (3000, 2550, "North Hill", 130, -30), (3000, 2150, "Museum", 130, -30),
    (2000, 2600, "Observatory", 130, -30), (2000, 2150, "University", 130, -30), (2800, 450, "Airport", -150, 120),
    (900, 2600, "Stadium", 130, -30), (900, 1750, "Market", -550, -30), (1650, 950, "Docks", -100, -200),
    (3550, 1450, "Beach", -120, 120),
]
CHANGES = [(900, 2250, "Park", 130, 60), (1100, 1250, "Castle", -560, -160), (2000, 1600, "Central", 150, 200),
           (2000, 950, "Bridge", 150, 90), (2862, 1212, "Exchange", 190, -20)]


def pen(number, millimetres):
    """Selects a pen and sets its width."""
    return f"SP{number};PW{millimetres:g},{number};"


def line(places):
    first, *rest = [f"{x},{y}" for x, y in places]
    return f"PU{first};PD{','.join(rest)};\n"


def dots(places, rings):
    """A dot on another one at each place, by PD without a place."""
    each = "".join(f"PU{x},{y};PD;" for x, y, *_ in places)
    return "".join(f"{pen(number, width)}{each}\n" for number, width in rings)


def main():
    parts = "IN;" + "".join("PC%d,%d,%d,%d;" % (number, *parts) for number, parts in COLOURS.items()) + "\n"
    parts += pen(RIVER, 6) + line([(-200, 1250), (500, 1250), (1300, 450), (1700, 450), (2300, 1250), (4200, 1250)])
    for number, places in LINES.items():
        parts += pen(number, 2.2) + line(places)
    parts += dots(STATIONS, ((BLACK, 2.2), (WHITE, 1.4))) + dots(CHANGES, ((BLACK, 4.2), (WHITE, 3)))
    parts += pen(BLACK, 0.25) + "SI0.11,0.16;"
    for x, y, name, right, up in STATIONS + CHANGES:
        parts += f"PU{x + right},{y + up};LB{name}\x03"
    sys.stdout.write(parts + "SP0;\n")


main()
