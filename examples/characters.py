#!/usr/bin/env python3
"""Writes the plot of examples/characters.plt: the 95 characters of the stick font, with their numbers.

    examples/characters.py > examples/characters.plt

The page is 4000 by 3000 plotter units (100 by 75 mm).
"""

import sys

# The end of a label. `DT` makes it the terminator, so that the plot is plain text.
END = "~"
COLUMNS, WIDTH, HEIGHT = 14, 272, 375
LEFT, TOP = 130, 2560


def label(x, y, text):
    """Writes a text from a place on."""
    return f"PU{x},{y};LB{text}{END}"


def size(width, height):
    """Sets the size of characters, in centimetres."""
    return f"SI{width:g},{height:g};"


def main():
    parts = ["IN;PC2,25,70,170;PC3,130,130,130;PW0.25;"]
    parts.append(f"DT{END};")
    places = {byte: (LEFT + (byte - 32) % COLUMNS * WIDTH, TOP - (byte - 32) // COLUMNS * HEIGHT) for byte in range(32, 127)}
    parts.append("SP1;PW0.3,1;" + size(0.25, 0.36))
    for byte, (x, y) in places.items():
        if byte != ord(END):
            parts.append(label(x, y, chr(byte)))
    # The character that ends labels is written while another one ends them.
    x, y = places[ord(END)]
    parts.append(f"DT!;PU{x},{y};LB{END}!DT{END};")
    parts.append("SP3;PW0.12,3;" + size(0.09, 0.13))
    for byte, (x, y) in places.items():
        parts.append(label(x, y - 120, str(byte)))
    sys.stdout.write("".join(parts) + "SP0;\n")


main()
