#!/usr/bin/env python3
"""Writes the plot of examples/tide.plt: the tides of a day, a compass, and the same tides rotated.

    examples/tide.py > examples/tide.plt

The page is 4000 by 3000 plotter units (100 by 75 mm). Each of the three charts has user units (IP
and SC), windows cut the curves (IW), pens have colours and widths (PC and PW), the ticks are
relative moves (PR), and the last chart is rotated by 90 degrees (RO).
"""

import math

BLACK, RED, GREEN, BLUE, CYAN = 1, 2, 3, 5, 7
HALF_DAY = 12.42

# The colours of the pens: red, green and blue, 0 to 255 each.
COLOURS = "PC2,200,30,45;PC3,40,140,70;PC5,25,70,170;PC7,120,190,205;\n"


def spring(hour):
    return 3.6 * math.cos(2 * math.pi * (hour - 2.1) / HALF_DAY)


def neap(hour):
    return 1.4 * math.cos(2 * math.pi * (hour - 5.3) / HALF_DAY)


def number(value):
    return f"{value:.3f}".rstrip("0").rstrip(".")


def polyline(places):
    first, *rest = [f"{number(x)},{number(y)}" for x, y in places]
    return f"PU{first};PD{','.join(rest)};PU;\n"


def pen(number_of_pen, millimetres):
    return f"SP{number_of_pen};PW{number(millimetres)},{number_of_pen};\n"


def tides(curve):
    return polyline([(step / 4, curve(step / 4)) for step in range(97)])


def chart():
    """A day in x and three metres either way in y. The window cuts off what is higher or lower."""
    text = "SC0,24,-3,3;\n" + pen(CYAN, 0.1)
    for metre in range(-2, 3):
        text += polyline([(0, metre), (24, metre)])
    text += pen(BLACK, 0.25) + polyline([(0, -3), (24, -3), (24, 3), (0, 3), (0, -3)])
    text += "PU0,-3;PR;\n" + "PD0,0.25;PU1,-0.25;" * 24 + "PD0,0.25;PA;PU;\n"
    text += "IW0,-3,24,3;\n"
    text += pen(GREEN, 0.5) + tides(neap)
    text += pen(BLUE, 0.8) + tides(spring)
    return text + "IW;\n"


def compass():
    """Isotropic units: as long in x as in y, whatever the shape of the space."""
    text = "SC-10,10,-10,10,1,50,50;\n" + pen(BLACK, 0.35)
    for radius in (9.5, 8.5):
        turns = [math.radians(3 * step) for step in range(121)]
        text += polyline([(radius * math.cos(t), radius * math.sin(t)) for t in turns])
    text += pen(BLACK, 0.15)
    for degrees in range(0, 360, 10):
        t = math.radians(degrees)
        text += polyline([(r * math.cos(t), r * math.sin(t)) for r in (8.5, 9.5)])
    text += pen(RED, 0.6)
    star = []
    for step in range(17):
        t = math.radians(90 + 22.5 * step)
        radius = 1.6 if step % 2 else (8 if step % 4 == 0 else 4.5)
        star.append((radius * math.cos(t), radius * math.sin(t)))
    text += polyline(star)
    for step in range(0, 16, 2):
        text += polyline([(0, 0), star[step]])
    return text


def main():
    print("IN;\n" + COLOURS + pen(BLACK, 0.5) + "PU60,60;PD3940,60,3940,2940,60,2940,60,60;PU;")
    print("IP300,1600,3700,2750;" + chart(), end="")
    print("IP300,250,1900,1400;" + compass(), end="")
    print("RO90;IP250,300,1400,1900;", end="")
    print(chart() + "RO;IP;SC;SP0;")


if __name__ == "__main__":
    main()
