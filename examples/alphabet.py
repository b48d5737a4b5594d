#!/usr/bin/env python3
"""Writes the plot of examples/alphabet.plt: the characters of the full font that are not blank, with their code points.

    examples/alphabet.py > examples/alphabet.plt

The page is 5600 by 4000 plotter units (140 by 100 mm). Texts are UTF-8, for the profile full with --characters utf-8.
"""

import sys

# The end of a label. `DT` makes it the terminator, so that the plot is plain text.
END = "~"
COLUMNS, WIDTH, HEIGHT = 21, 260, 318
LEFT, TOP = 160, 3700
# The characters past 255 that the font has.
FURTHER = (
    "ŒœŠšŸŽžƒˆˋ˜ΓΘΣΦΩαβδεμπστφ–—‘’‚“”„†‡•…‰‹›ⁿ₤₧€™←↑→↓∅∙√∞∩≈≡≤≥⌐⌠⌡■"
)


def label(x, y, text, end=END):
    """Writes a text from a place on."""
    return f"PU{x},{y};LB{text}{end}"


def main():
    codes = [*range(33, 127), *range(161, 256), *map(ord, FURTHER)]
    places = {code: (LEFT + i % COLUMNS * WIDTH, TOP - i // COLUMNS * HEIGHT) for i, code in enumerate(codes)}
    parts = [f"IN;PC2,25,70,170;PC3,130,130,130;DT{END};SP1;PW0.25,1;SI0.22,0.33;"]
    for code, (x, y) in places.items():
        if code != ord(END):
            parts.append(label(x, y, chr(code)))
    # The character that ends labels is written while another one ends them.
    parts.append(f"DT!;{label(*places[ord(END)], END, '!')}DT{END};")
    parts.append("SP3;PW0.1,3;SI0.07,0.11;")
    for code, (x, y) in places.items():
        parts.append(label(x, y - 110, f"{code:04X}"))
    sys.stdout.reconfigure(encoding="utf-8")
    sys.stdout.write("".join(parts) + "SP0;\n")


main()
