"""What other programs draw of PDF and SVG, and how near that is to the pixels of a pixmap."""

import io
import subprocess
from typing import NamedTuple

from PIL import Image, ImageChops, ImageFilter, ImageOps

from document_runs import SECONDS, filtered

DOTS = 300
READERS_OF_PDF = ("qpdf", "pdftoppm", "mutool", "gs")
READERS_OF_SVG = ("xmllint", "rsvg-convert")
# Of a colour between white and a line's, how far from white it is: a line is there if it has this much, and nearly
# covers the pixel if it has that much.
LEAST_INK, MUCH_INK = 16, 128
# Debian's mutool says so of each document.
WITHOUT_ICC = b"warning: ICC support is not available\n"
# A border of its own colour around pictures: the end of a page is an edge.
BORDER = (1, 2, 3)


def said_of_pdf(data, path):
    """What other programs find wrong with a PDF, which is written to a file for them."""
    path.write_bytes(data)
    commands = [
        ["qpdf", "--check", path], ["mutool", "draw", "-q", "-F", "pnm", "-o", "/dev/null", path],
        ["gs", "-q", "-dSAFER", "-dBATCH", "-dNOPAUSE", "-sDEVICE=nullpage", path],
    ]
    for command in commands:
        done = subprocess.run(command, capture_output=True, timeout=SECONDS)
        said = done.stderr.replace(WITHOUT_ICC, b"") + (done.stdout if command[0] == "gs" else b"")
        if done.returncode or said:
            yield f"{command[0]}: status {done.returncode}, {said}"


def box_of_pdf(path):
    """The box of what Ghostscript draws of the first page of a PDF, in points: left, below, right, above."""
    command = ["gs", "-q", "-dSAFER", "-dBATCH", "-dNOPAUSE", "-dLastPage=1", "-sDEVICE=bbox", path]
    done = subprocess.run(command, capture_output=True, check=True, timeout=SECONDS)
    return list(map(float, done.stderr.split(b"%%HiResBoundingBox:")[1].split()[:4]))


def said_of_svg(data):
    """What other programs find wrong with an SVG."""
    for command in (["xmllint", "--noout", "-"], ["rsvg-convert", "-f", "svg"]):
        done = subprocess.run(command, input=data, capture_output=True, timeout=SECONDS)
        if done.returncode or done.stderr:
            yield f"{command[0]}: status {done.returncode}, {done.stderr}"


def picture_of(data):
    picture = Image.open(io.BytesIO(data))
    picture.load()
    return picture.convert("RGB")


def painted_pdf(data, dots=DOTS, page=1):
    """The pixels of a page as Poppler paints them: each that a line touches has its colour."""
    words = ["pdftoppm", "-r", str(dots), "-aa", "no", "-aaVector", "no", "-f", str(page), "-l", str(page), "-"]
    return picture_of(filtered(words, data))


def painted_svg(data, dots=DOTS):
    """The pixels as librsvg paints them: those at the edges of lines have colours between."""
    return picture_of(filtered(["rsvg-convert", "-d", str(dots), "-p", str(dots), "-b", "white"], data))


class Pictures(NamedTuple):
    """The pixels of two pictures, those that both have."""

    ours: Image
    other: Image


def pictures(ours, other):
    """Two pictures of a page: one has perhaps a column or a row more."""
    assert all(abs(a - b) <= 1 for a, b in zip(ours.size, other.size)), (ours.size, other.size)
    size = (0, 0, *map(min, zip(ours.size, other.size)))
    return Pictures(*(ImageOps.expand(picture.crop(size), 1, BORDER) for picture in (ours, other)))


def brightest(picture):
    """The greatest part of each pixel's colour."""
    red, green, blue = picture.split()
    return ImageChops.lighter(ImageChops.lighter(red, green), blue)


def from_ink(picture, least):
    """The pixels that are at least so far from white."""
    return brightest(ImageChops.invert(picture)).point(lambda it: 255 if it >= least else 0)


def around(mask, distance=1):
    """The pixels of a mask, and those so near to them."""
    return mask.filter(ImageFilter.MaxFilter(2 * distance + 1))


def edges(picture):
    """The pixels beside one of another colour."""
    differences = ImageChops.difference(picture.filter(ImageFilter.MaxFilter(3)), picture.filter(ImageFilter.MinFilter(3)))
    return brightest(differences).point(lambda it: 255 if it else 0)


def count(mask):
    return mask.histogram()[255]


def lost_ink(pair, least=1):
    """How many pixels of ours have a line of which the other has nothing within a pixel."""
    return count(ImageChops.subtract(from_ink(pair.ours, 1), around(from_ink(pair.other, least))))


def new_ink(pair, least=1):
    """How many pixels of the other have a line of which ours has nothing within a pixel."""
    return count(ImageChops.subtract(from_ink(pair.other, least), around(from_ink(pair.ours, 1))))


def far_from_edges(pair, distance=1):
    """How many pixels differ that are farther than so many pixels from an edge of ours."""
    differences = brightest(ImageChops.difference(*pair)).point(lambda it: 255 if it else 0)
    near = around(edges(pair.ours), distance - 1) if distance > 1 else edges(pair.ours)
    return count(ImageChops.subtract(differences, near))


def colours_of(picture):
    """The colours of a picture within its border."""
    return {colour for _, colour in picture.getcolors(1 << 24)} - {BORDER}
