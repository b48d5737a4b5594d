"""Is what `plotraster pcl` writes the picture that `plotraster pbm` writes?

Two readers give back the bitmap of a file in PCL. One is below: it knows the commands of PCL 5 raster
graphics, by the PCL 5 Printer Language Technical Reference Manual, and refuses all others. The other is
Netpbm's thinkjettopbm, which reads the raster graphics of an older printer. That printer has neither a
compression method nor the 0 of "start raster graphics"; these are taken out of the file for it, and
its rows are whole bytes.
"""

import os
import re
import subprocess
import tempfile

import pytest

from shared import EXAMPLES, assert_nothing, need, read_bytes, read_pbm

COMMAND = re.compile(rb"\x1b(?:(E)|\*([trb])([0-9]*)([A-Z]))")
RESOLUTIONS = (75, 100, 150, 200, 300, 600)
LINES = b"SP1;PW1;PU0,28;PD700,28;SP2;PW0.1;PU3,3;PD501,402;PU20,300;PD20,300;"


def bitmap_of(pcl):
    """The columns, the rows and the bytes of the rows of a file in PCL."""
    dots, columns, rows, data, at, state = None, None, None, [], 0, "outside"
    while at < len(pcl):
        found = COMMAND.match(pcl, at)
        if found is None:
            raise ValueError(f"no command at byte {at}")
        at = found.end()
        reset, group, number, letter = found.groups()
        number = int(number or 0)
        name = b"E" if reset else group + letter
        if name == b"E":
            state = "ended" if state == "after" else "reset"
        elif name == b"tR" and state == "reset":
            dots = number
        elif name == b"rS" and state == "reset":
            columns = number
        elif name == b"rT" and state == "reset":
            rows = number
        elif name == b"rA" and number == 0 and None not in (dots, columns, rows):
            state = "raster"
        elif name == b"bM" and number == 0 and state == "raster":
            pass
        elif name == b"bW" and state == "raster" and number == (columns + 7) // 8:
            data.append(pcl[at:at + number])
            at += number
        elif name == b"rB" and state == "raster":
            state = "after"
        else:
            raise ValueError(f"{found.group()!r} before byte {at}")
    if state != "ended" or dots not in RESOLUTIONS or len(data) != rows:
        raise ValueError(f"ends {state}, {dots} dots per inch, {len(data)} rows of {rows}")
    return columns, rows, b"".join(data)


def bitmap_by_thinkjettopbm(pcl, columns):
    """The columns, the rows and the bytes of the rows, as Netpbm reads them."""
    older = pcl.replace(b"\x1b*r0A", b"\x1b*rA", 1).replace(b"\x1b*b0M", b"", 1)
    with tempfile.NamedTemporaryFile() as file:
        file.write(older)
        file.flush()
        read = subprocess.run(["thinkjettopbm", file.name], capture_output=True, check=True).stdout
    wide, rows, data = read_pbm(read)
    if wide != 8 * ((columns + 7) // 8):
        raise ValueError(f"thinkjettopbm writes {wide} columns")
    return columns, rows, data


def run(program, form, page, plot):
    words = [program, form, *page]
    return subprocess.run(words, input=plot, capture_output=True, check=True, timeout=60).stdout


def differences(program, page, plot):
    """What is wrong with the picture of a plot on a page, a line each."""
    wanted = read_pbm(run(program, "pbm", page, plot))
    pcl = run(program, "pcl", page, plot)
    try:
        if bitmap_of(pcl) != wanted:
            yield f"{' '.join(page)}: another bitmap"
        if bitmap_by_thinkjettopbm(pcl, wanted[0]) != wanted:
            yield f"{' '.join(page)}: another bitmap by thinkjettopbm"
    except (ValueError, subprocess.CalledProcessError) as wrong:
        yield f"{' '.join(page)}: {wrong}"


def pages():
    """Pages of odd and even columns at each resolution, and one of A4."""
    for dots in RESOLUTIONS:
        for more in range(8):
            width = 64 + (more * 1016 + dots - 1) // dots + 97 * more
            yield ["--width", str(width), "--height", str(80 + 41 * more), "--dots", str(dots)]
    yield ["--dots", "150"]


@pytest.mark.parametrize("page", pages(), ids=" ".join)
def test_same_bitmap(page, program, pytestconfig):
    need(pytestconfig, "thinkjettopbm")
    rose = read_bytes(os.path.join(EXAMPLES, "rose.plt"))
    for plot in (b"", LINES, rose):
        assert_nothing(differences(program, page, plot))


def test_number_of_pages():
    assert len(list(pages())) == 49
