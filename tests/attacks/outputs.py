"""What an output must be, whatever the plot: a valid picture, document or report."""

import re

from reference.dxf_groups import read_dxf
from reference.pdf import read_pdf
from reference.png import read_png, rows_of_png
from reference.reading import Wrong
from reference.svg import read_svg

from .answers import Broken, must

# The most bytes of an output that the readers of tests/reference read whole.
MOST_READ = 30000
MARKS = re.compile(rb"(?:[0-9]+ [0-9]+ [0-9]+ [0-9a-f]{6}\n)*")
REPORT = re.compile(
    rb"page [0-9]+ [0-9]+ -?[0-9]+ -?[0-9]+\n(sheets [0-9]+\n)?strokes [0-9]+\n(areas [1-9][0-9]*\n)?"
    rb"(pen [0-9]+ (strokes [0-9]+ widest [0-9]+|areas [1-9][0-9]* edges [1-9][0-9]*) box( -?[0-9]+){4}\n)*"
    rb"(note [0-9]+ (skipped [A-Z]{2}|bad [A-Z]{2}|stray [0-9]+|open [A-Z]{2}|axis [A-Z]{2})\n)*")
PBM = re.compile(rb"P4\n([0-9]+) ([0-9]+)\n")
PPM = re.compile(rb"P6\n([0-9]+) ([0-9]+)\n255\n")
PCL = re.compile(rb"\x1bE\x1b\*t([0-9]+)R\x1b\*r([0-9]+)S\x1b\*r([0-9]+)T\x1b\*r0A\x1b\*b0M")
END_OF_PCL = b"\x1b*rB\x1bE"


def check(form, output, size=None, is_beginning=True):
    """Breaks off if the output is not what the form says, of these columns and rows if they are known. Only a part that begins
    with the first row has a header."""
    try:
        found = CHECKS[form](output) if is_beginning else None
    except Wrong as wrong:
        raise Broken(f"no {form}: {wrong}") from None
    must(size is None or found is None or found == size, f"{form} of {found} instead of {size}")


def check_png(data):
    return (read_png if len(data) < MOST_READ // 10 else rows_of_png)(data)[:2]


def check_pdf(data):
    if len(data) < MOST_READ:
        read_pdf(data)
    must(data.startswith(b"%PDF-1.5\n") and data.endswith(b"\n%%EOF\n"), "pdf: its ends")


def check_svg(data):
    if len(data) < MOST_READ:
        read_svg(data)
    must(data.startswith(b"<?xml") and data.endswith(b"</svg>\n"), "svg: its ends")


def check_dxf(data):
    if len(data) < MOST_READ:
        read_dxf(data)
    must(data.startswith(b"0\nSECTION\n") and data.endswith(b"0\nENDSEC\n0\nEOF\n"), "dxf: its ends")


def check_marks(data):
    must(MARKS.fullmatch(data), "marks: lines of another kind")
    places = [tuple(map(int, line.split()[:2])) for line in data.splitlines()]
    must(all(place < after for place, after in zip(places, places[1:])), "marks: not in the order of places")


def check_report(data):
    must(REPORT.fullmatch(data), "report: lines of another kind")


def check_pbm(data):
    columns, rows, begins = head_of(PBM, data)
    must(len(data) == begins + rows * packed(columns), f"pbm: {len(data)} bytes for {columns} by {rows}")
    return columns, rows


def check_ppm(data):
    columns, rows, begins = head_of(PPM, data)
    must(len(data) == begins + 3 * rows * columns, f"ppm: {len(data)} bytes for {columns} by {rows}")
    return columns, rows


def check_pcl(data):
    head = PCL.match(data)
    must(head, f"pcl: begins {data[:60]!r}")
    _, columns, rows = map(int, head.groups())
    row = b"\x1b*b%dW" % packed(columns)
    size = len(row) + packed(columns)
    starts = range(head.end(), head.end() + rows * size, size)
    must(all(data.startswith(row, at) for at in starts), "pcl: a row does not begin where it should")
    must(data[head.end() + rows * size:] == END_OF_PCL, "pcl: its end")
    return columns, rows


def head_of(pattern, data):
    """The columns and the rows of a bitmap, and where they begin."""
    head = pattern.match(data)
    must(head, f"begins {data[:20]!r}")
    return int(head[1]), int(head[2]), head.end()


def packed(columns):
    return (columns + 7) // 8


CHECKS = {
    "png": check_png, "pdf": check_pdf, "svg": check_svg, "dxf": check_dxf, "marks": check_marks, "pbm": check_pbm,
    "ppm": check_ppm, "pcl": check_pcl, "report": check_report,
}
