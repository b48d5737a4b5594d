"""What the tests share: where things are, runs of the program, and one reader of bitmaps."""

import collections
import os
import shutil
import subprocess

import pytest

HERE = os.path.dirname(os.path.abspath(__file__))
TOP = os.path.dirname(HERE)
EXAMPLES = os.path.join(TOP, "examples")
DEBIAN = {
    "cc": "gcc libc6-dev", "dpkg-deb": "dpkg", "ezdxf": "python3-ezdxf", "fish": "fish", "gio": "libglib2.0-bin",
    "gs": "ghostscript", "lintian": "lintian", "man": "man-db", "mutool": "mupdf-tools", "parallel": "parallel",
    "pdfgrep": "pdfgrep", "pdfinfo": "poppler-utils", "pdftoppm": "poppler-utils", "pdftotext": "poppler-utils",
    "pngcheck": "pngcheck", "qpdf": "qpdf", "readelf": "binutils", "rsvg-convert": "librsvg2-bin",
    "update-mime-database": "shared-mime-info", "valgrind": "valgrind", "xmllint": "libxml2-utils", "zsh": "zsh",
}

# A line of a bitmap is a number: its bits are the pixels, the leftmost is the highest.
Bitmap = collections.namedtuple("Bitmap", "columns rows lines")


def read(*parts):
    """The text of a file of the repository."""
    with open(os.path.join(TOP, *parts), encoding="utf-8") as file:
        return file.read()


def read_bytes(path):
    with open(path, "rb") as file:
        return file.read()


def write(path, data, mode=0o644):
    """Makes a file, and the folders that it is in."""
    os.makedirs(os.path.dirname(path), exist_ok=True)
    with open(path, "wb") as file:
        file.write(data)
    os.chmod(path, mode)


def need(config, *commands):
    """Skips a test that needs a command that is missing. With --no-skips, as in the gate, it fails."""
    for command in commands:
        if shutil.which(command) is None:
            said = f"there is no {command}: Debian's {DEBIAN.get(command, 'netpbm')} brings it"
            if config.getoption("--no-skips"):
                pytest.fail(said)
            pytest.skip(said)


def run(program, words, seconds, **how):
    """A run of the program under its own name, with its output and its errors."""
    how = {"stdin": subprocess.DEVNULL, **how} if "input" not in how else how
    return subprocess.run(
        ["plotraster", *words], executable=program, capture_output=True, timeout=seconds, **how,
    )


def read_pbm(data):
    """The columns, the rows and the bytes of the rows of a raw PBM."""
    magic, size, bits = data.split(b"\n", 2)
    columns, rows = map(int, size.split())
    if magic != b"P4" or len(bits) != rows * ((columns + 7) // 8):
        raise ValueError(f"no bitmap: {magic!r}, {columns} by {rows}, {len(bits)} bytes")
    return columns, rows, bits


def read_bitmap(data):
    """The bitmap of a raw PBM."""
    columns, rows, bits = read_pbm(data)
    wide = (columns + 7) // 8
    spare = 8 * wide - columns
    return Bitmap(columns, rows, [int.from_bytes(bits[at:at + wide], "big") >> spare
                                  for at in range(0, len(bits), wide)])


def ink(bitmap):
    """How many pixels are black."""
    return sum(bin(line).count("1") for line in bitmap.lines)


def pixels(units, dots):
    """How many pixels a side of the page has."""
    return (units * dots + 508) // 1016


def assert_nothing(wrong):
    """Fails with all lines of what is wrong."""
    lines = list(wrong)
    assert not lines, "\n".join(lines)


def with_sheet(options):
    """Options of a command that names a sheet if there may be several: else the program says that it draws the first."""
    return {"sheet": 1, **options} if options.get("profile") == "full" else options
