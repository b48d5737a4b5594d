#!/usr/bin/env python3
"""Writes the plot of examples/stickers.plt: a sheet of labels for parcels, for the profile full.

    examples/stickers.py > examples/stickers.plt

The page is 4000 by 3000 plotter units (100 by 75 mm). The sender is kept once (BL) and written on each label (PB),
addresses are centred line by line (LO5), sizes are relative to the label (IP and SR), and the number runs up its side (DI).
"""

import sys

ADDRESSES = (
    "Ada Marsh\r\n4 Mill Lane\r\nElsmere",
    "Tide & Sons\r\nNew Quay 12\r\nEastfield",
    "The Harbour\r\nMaster\r\nOld Quay",
    "J. B. Fields\r\nChapel Hill\r\nWestcliff",
)


def sticker(number, left, below):
    """A label at a place: its edge, the sender, the address and the number."""
    right, top = left + 1850, below + 1350
    plot = f"IP{left},{below},{right},{top};SP1;PU{left},{below};EA{right},{top};"
    plot += f"SP2;SR1.6,4;LO1;DI;PU{left + 90},{top - 160};PB;"
    plot += f"SP1;SR3.2,8;LO5;PU{left + 925},{below + 800};LB{ADDRESSES[number]}\x03"
    plot += f"SP2;SR2.4,6;LO5;DI0,1;ES.3;PU{right - 130},{below + 675};LBNo {number + 17:04}\x03ES;DI;"
    plot += f"LT-2,4;PU{left + 90},{below + 240};PD{right - 260},{below + 240};PU;LT;"
    return plot + f"DV1;SR1.4,3.6;LO1;PU{left + 90},{top - 330};LBFROM\x03DV;"


def main():
    plot = "IN;PW.35;PW.2,2;PC2,40,90,150;BLElsmere Chart Works, Eastfield\x03"
    for number in range(4):
        plot += sticker(number, 100 + 1950 * (number % 2), 1550 - 1450 * (number // 2))
    sys.stdout.write(plot + "SP0;\n")


if __name__ == "__main__":
    main()
