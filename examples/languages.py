#!/usr/bin/env python3
"""Writes the plot of examples/languages.plt: a title block in five languages, each in a set of characters that has its letters.

    examples/languages.py > examples/languages.plt

The page is 5600 by 4000 plotter units (140 by 100 mm), for the profile full.
"""

import sys

END = b"\x03"
LEFT, TOP, HEIGHT = 150, 3850, 740
CELLS = ((150, 1650), (1650, 3900), (3900, 5450))
# Each block: what chooses the set, the codec of its bytes, or what its letters are replaced by; and its texts.
GERMAN = str.maketrans("§ÄÖÜäöüß", "@[\\]{|}~")
DANISH = str.maketrans("ÆØÅæøå", "[\\]{|}")
BLOCKS = (
    ("CS33;", GERMAN, ("Maßstab", "Prüfstück für Drehgestell", "Größe, Öl")),
    ("SD1,14;", "latin-1", ("Échelle", "Pièce d'essai à côté du châssis", "Ø 12,5 ±0,1°")),
    ("CS32;", DANISH, ("Målestok", "Prøvestykke på understel", "Længde, Ærø")),
    ("SD1,277;", "hp_roman8", ("Escala", "Muestra del bastidor, año ½", "¿Tamaño?")),
    ("SD1,341;", "cp437", ("Scale", "Test piece for the bogie, 40 µm", "÷ ≤ ≥ √ ∞ Ω")),
)


def encoded(text, coding):
    """The bytes of a text."""
    return text.translate(coding).encode("ascii") if isinstance(coding, dict) else text.encode(coding)


def label(x, y, text, coding):
    return b"PU%d,%d;LB" % (x, y) + encoded(text, coding) + END


def block(top, choice, coding, texts):
    """A title block: a frame with three cells, and a small heading above each text."""
    name, title, size = texts
    plot = choice.encode() + b"SP2;PU%d,%d;EA%d,%d;" % (LEFT, top, CELLS[-1][1], top - HEIGHT + 90)
    for _, right in CELLS[:-1]:
        plot += b"PU%d,%d;PD%d,%d;PU;" % (right, top, right, top - HEIGHT + 90)
    plot += b"SP1;SI.13,.24;" + label(CELLS[0][0] + 80, top - 420, name, coding)
    plot += b"SI.09,.2;" + label(CELLS[1][0] + 60, top - 420, title, coding)
    return plot + label(CELLS[2][0] + 60, top - 420, size, coding)


def main():
    plot = b"IN;PC2,25,70,170;PW.25,1;PW.5,2;"
    for i, one in enumerate(BLOCKS):
        plot += block(TOP - HEIGHT * i, *one)
    sys.stdout.buffer.write(plot + b"SP0;\n")


main()
