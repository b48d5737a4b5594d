#!/usr/bin/env python3
"""Writes the plot of examples/shares.plt: a pie of wedges and a chart of bars, for the profile full.

    examples/shares.py > examples/shares.plt

The page is 4000 by 3000 plotter units (100 by 75 mm). The pie is of wedges (WG, EW) in six fills (FT), the bars are
rectangles (RA, EA), and the labels are right of, left of or about their places (LO).
"""

import math
import sys

SHARES = (
    ("Rail", 27, "30,90,160", "FT1;"), ("Road", 22, "200,60,50", "FT3,44,45;"),
    ("Water", 17, "20,140,140", "FT4,52,0;"), ("Air", 13, "210,140,30", "FT10,50;"),
    ("Pipe", 12, "110,80,160", "FT3,30,-45;"), ("Cable", 9, "90,90,90", "FT4,40,45;"),
)
PIE_X, PIE_Y, RADIUS = 1240, 1400, 760
BARS = ((2600, (62, 71, 84)), (2990, (55, 60, 52)), (3380, (30, 44, 61)))
BAR_COLOURS = (("30,90,160", "FT10,25;"), ("30,90,160", "FT3,26,45;"), ("30,90,160", "FT1;"))


def pie():
    start = 90.0
    for name, share, colour, fill in SHARES:
        sweep = -3.6 * share
        middle = math.radians(start + sweep / 2)
        way_x, way_y = math.cos(middle), math.sin(middle)
        apart = 70 if name == "Rail" else 0
        x, y = PIE_X + apart * way_x, PIE_Y + apart * way_y
        yield f"PC1,{colour};PU{x:.0f},{y:.0f};{fill}PW.18;WG{RADIUS},{start:.1f},{sweep:.1f},3;"
        yield f"PC1,40,40,40;PW.4;EW{RADIUS},{start:.1f},{sweep:.1f},3;PW.25;"
        origin = 2 if way_x > 0.2 else 8 if way_x < -0.2 else 4 if way_y > 0 else 6
        far = RADIUS + 60 + apart
        yield f"LO{origin};PU{PIE_X + far * way_x:.0f},{PIE_Y + far * way_y:.0f};LB{name} {share}%\x03"
        start += sweep


def bars():
    bottom, width = 600, 105
    yield "PC1,150,150,150;PW.13;LT2,1.5,1;"
    for step in range(0, 101, 25):
        yield f"PU2500,{bottom + 16 * step};PD3780,{bottom + 16 * step};PU;"
    yield "LT;PC1,40,40,40;SI.09,.16;LO8;"
    for step in range(0, 101, 25):
        yield f"PU2460,{bottom + 16 * step};LB{step}\x03"
    for left, heights in BARS:
        for k, height in enumerate(heights):
            colour, fill = BAR_COLOURS[k]
            x, top = left + k * width, bottom + 16 * height
            yield f"PC1,{colour};PU{x},{bottom};{fill}PW.18;RA{x + width},{top};PC1,40,40,40;PW.3;EA{x + width},{top};"
    yield "SI.1,.18;LO6;PW.25;"
    for (left, _), name in zip(BARS, ("North", "West", "South")):
        yield f"PU{left + 3 * width // 2},{bottom - 50};LB{name}\x03"


def main():
    plot = "IN;PC1,40,40,40;SP1;SI.1,.18;" + "".join(pie()) + "".join(bars())
    plot += "SI.18,.3;LO5;PW.4;PU2000,2720;LBFreight by carrier\x03"
    sys.stdout.write(plot + "SP0;\n")


if __name__ == "__main__":
    main()
