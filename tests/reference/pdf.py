"""A reader of PDF documents, by ISO 32000-1: what a document shows, or why it is none.

It knows what plotraster may write: objects in the order of their numbers, each of which is used, a table of where they begin,
a layer for each pen, fonts for the texts of labels, and pages of one size, each with a stream of operators.
"""

import re
from fractions import Fraction
from typing import NamedTuple

from .labels import Text
from .pdf_content import shapes_of
from .pdf_fonts import fonts_of
from .reading import Wrong, inflated, must
from .vectors import Document

# By whether pages have units of more than a point, which are of PDF 1.6.
HEADERS = {False: b"%PDF-1.5\n%\xe2\xe3\xcf\xd3\n", True: b"%PDF-1.6\n%\xe2\xe3\xcf\xd3\n"}
END = re.compile(rb"\nstartxref\n([1-9][0-9]*)\n%%EOF\n\Z")
TABLE = re.compile(rb"xref\n0 ([1-9][0-9]*)\n0000000000 65535 f \n((?:[0-9]{10} 00000 n \n)+)trailer\n")
TOKEN = re.compile(
    rb"[ \n]*(?:(?P<mark><<|>>|\[|\])|/(?P<name>[A-Za-z0-9]+)|\((?P<text>[ -'*-\[\]-~]*)\)|<(?P<digits>(?:[0-9A-Fa-f]{2})*)>"
    rb"|(?P<object>[1-9][0-9]*) 0 R|(?P<number>(?:0|[1-9][0-9]*)(?:\.[0-9]*[1-9])?))")
ENDS = {b"<<": re.compile(rb"[ \n]*>>"), b"[": re.compile(rb"[ \n]*\]")}
# The longest side of a page whose unit is one point, in plotter units: 14,400 points.
LONGEST = 203_200
# What is rounded to three decimals is nearer than this.
HALF_A_THOUSANDTH = Fraction(1, 2000)


class Name(str):
    """A name, without its slash."""


class Reference(NamedTuple):
    """The number of an object that is referred to."""

    number: int


class Pdf(NamedTuple):
    """What a document shows, what made it, and the pens that have a layer, in order."""

    document: Document
    producer: str
    layers: list


def read_pdf(data):
    """What a document shows."""
    offsets, at, trailer = table_of(data)
    objects = Objects(data, [*offsets, at])
    size, root, info = values(trailer, "Size", "Root", "Info")
    must(size == len(offsets) + 1, "the number of objects")
    pages, properties = values(objects.at(root, "Catalog"), "Pages", "OCProperties")
    listed, shown = values(properties, "OCGs", "D")
    must(values(shown, "Order", "ON") == [listed, listed], f"layers are shown as {shown}")
    groups = references(objects.at(listed))
    layers = [pen_of(objects.at(it, "OCG")) for it in groups]
    must(layers == sorted(set(layers)), f"the layers {layers}")
    box, resources, count, kids = values(objects.at(pages, "Pages"), "MediaBox", "Resources", "Count", "Kids")
    must(isinstance(resources, dict) and set(resources) in ({"Properties"}, {"Properties", "Font"}), f"the resources {resources}")
    named = resources["Properties"]
    must(values(named, *(f"P{pen}" for pen in layers)) == groups, f"the properties {named}")
    must(count == len(references(kids)) >= 1, f"{len(kids)} pages instead of {count}")
    must(isinstance(box, list) and len(box) == 4 and box[:2] == [0, 0], f"the box {box}")
    contents = [content_of(objects, kid, pages) for kid in kids]
    unit, *units = (unit for unit, _ in contents)
    must(set(units) <= {unit}, f"units of {[unit, *units]} points")
    width, height = (units_of(side, unit) for side in box[2:])
    must(unit == -(-max(width, height) // LONGEST), f"a unit of {unit} points")
    must(data.startswith(HEADERS[unit > 1]), f"a version that has no unit of {unit} points")
    found = [shapes_of(content, width, height, unit) for _, content in contents]
    sheets = [shapes for shapes, _ in found]
    must({it.pen for shapes in sheets for it in shapes} == set(layers), "a layer without a shape, or a shape without one")
    characters = fonts_of(objects, resources.get("Font"))
    texts = [Text(number, text_of(row, characters), row.matrix) for number, (_, rows) in enumerate(found, 1) for row in rows]
    used = {font for _, rows in found for row in rows for font, _ in row.pieces}
    must(used == set(characters), f"the fonts {sorted(characters)}, but not those of texts")
    producer, title = names_of(objects.at(info))
    must(objects.used == set(range(1, len(offsets) + 1)), "an object that is not used")
    return Pdf(Document(width, height, sheets, True, title, tuple(texts)), producer, layers)


def text_of(row, characters):
    """The text of a line, by the characters of each font."""
    must(all(font in characters for font, _ in row.pieces), f"a font that is not there in {row.pieces}")
    return "".join(characters[font][code] for font, codes in row.pieces for code in codes)


def table_of(data):
    """Where each object begins, where the table does, and the trailer."""
    end = END.search(data)
    must(data.startswith(tuple(HEADERS.values())) and end, "no header, or no end")
    at = int(end[1])
    table = TABLE.match(data, at)
    must(table, f"no table at byte {at}")
    offsets = [int(entry[:10]) for entry in table[2].splitlines()]
    must(int(table[1]) == len(offsets) + 1, "the length of the table")
    trailer, stop = value_at(data, table.end())
    must(stop == end.start(), "more than a trailer")
    return offsets, at, trailer


class Objects:
    """The objects of a document, each from where the table says up to where the next one begins."""

    def __init__(self, data, bounds):
        must(bounds[0] == len(HEADERS[False]) and bounds == sorted(set(bounds)), "where objects begin")
        self.used = set()
        self.texts = []
        for number, (first, last) in enumerate(zip(bounds, bounds[1:]), 1):
            start, end = b"%d 0 obj\n" % number, b"\nendobj\n"
            text = data[first:last]
            must(text.startswith(start) and text.endswith(end) and len(text) > len(start + end), f"object {number}")
            self.texts.append(text[len(start):-len(end)])

    def text(self, reference):
        must(isinstance(reference, Reference) and reference.number <= len(self.texts), f"the reference {reference}")
        self.used.add(reference.number)
        return self.texts[reference.number - 1]

    def at(self, reference, kind=None):
        """The object of a reference, which has this type."""
        text = self.text(reference)
        value, stop = value_at(text, 0)
        must(stop == len(text), f"more in object {reference}")
        if kind is not None:
            must(isinstance(value, dict) and value.pop("Type", None) == kind, f"object {reference} is no {kind}")
        return value

    def stream(self, reference, is_compressed=True):
        """What a stream has, which is compressed, or may be."""
        text = self.text(reference)
        about, stop = value_at(text, 0)
        must(isinstance(about, dict) and set(about) in ({"Filter", "Length"}, {"Length"}), f"the stream {about}")
        found = self.data_of(text[stop:], about["Length"])
        if "Filter" not in about and not is_compressed:
            return found
        must(about.get("Filter") == Name("FlateDecode"), f"the filter {about.get('Filter')}")
        return inflated(found)

    def data_of(self, text, length):
        """What is between the marks of a stream, which has this length."""
        start, end = b"stream\n", b"\nendstream"
        must(text.startswith(start) and text.endswith(end) and len(text) >= len(start + end), "a stream")
        found = text[len(start):-len(end)]
        must(self.resolved(length) == len(found), f"{len(found)} bytes in a stream")
        return found

    def resolved(self, value):
        """A value itself, or that of the object to which it refers."""
        return self.at(value) if isinstance(value, Reference) else value


def value_at(data, at):
    """The value that begins at a byte, and where it ends."""
    token = TOKEN.match(data, at)
    must(token, f"no value: {data[at:at + 30]}")
    at, kind, text = token.end(), token.lastgroup, token[token.lastgroup]
    if kind != "mark":
        return VALUES[kind](text), at
    must(text in (b"<<", b"["), f"{text} without a beginning")
    end, found = ENDS[text], []
    while not (stop := end.match(data, at)):
        value, at = value_at(data, at)
        found.append(value)
    at = stop.end()
    if text == b"[":
        return found, at
    names, values = found[::2], found[1::2]
    must(len(names) == len(values) and all(isinstance(it, Name) for it in names), "a dictionary without names")
    must(len(set(names)) == len(names), f"a name that comes twice in {names}")
    return dict(zip(names, values)), at


VALUES = {
    "name": lambda text: Name(text.decode()),
    "text": lambda text: text.decode(),
    "digits": lambda text: bytes.fromhex(text.decode()),
    "object": lambda text: Reference(int(text)),
    "number": lambda text: Fraction(text.decode()),
}


def values(dictionary, *names):
    """The values of a dictionary, which has these names and no others."""
    must(isinstance(dictionary, dict) and list(dictionary) == list(names), f"{dictionary} has not {names}")
    return list(dictionary.values())


def references(found):
    """A list of references to objects, each once."""
    must(isinstance(found, list) and all(isinstance(it, Reference) for it in found), f"references {found}")
    must(len(set(found)) == len(found), f"a reference that comes twice in {found}")
    return found


def pen_of(layer):
    """The pen of a layer."""
    name, = values(layer, "Name")
    must(type(name) is str and re.fullmatch("Pen [1-9][0-9]{0,2}", name) and int(name[4:]) < 256, f"the layer {name}")
    return int(name[4:])


def units_of(side, unit):
    """A side of a page in plotter units, of which 1,016 are 72 points, by its length in units of so many points."""
    must(isinstance(side, Fraction), f"a side of {side}")
    units = round(side * unit * 1016 / 72)
    must(abs(side - Fraction(72 * units, 1016 * unit)) <= HALF_A_THOUSANDTH, f"a side of {side} units of {unit} points")
    return units


def content_of(objects, reference, parent):
    """The unit of a page in points, which is written if it is not one, and its operators."""
    page = objects.at(reference, "Page")
    must("UserUnit" not in page or page["UserUnit"] in (2, 3), f"the unit of {page}")
    unit = page.pop("UserUnit", 1)
    above, contents = values(page, "Parent", "Contents")
    must(above == parent, "a page of other pages")
    return unit, objects.stream(contents)


def names_of(info):
    """What made the document, and its title or None."""
    must(isinstance(info, dict) and list(info) in (["Producer"], ["Producer", "Title"]), f"the names {info}")
    producer, *titles = info.values()
    must(type(producer) is str and re.fullmatch(r"plotraster [0-9]+\.[0-9]+\.[0-9]+", producer), f"made by {producer}")
    if not titles:
        return producer, None
    title, = titles
    must(isinstance(title, bytes) and title.startswith(b"\xfe\xff") and len(title) > 2, f"the title {title}")
    try:
        return producer, title[2:].decode("utf-16-be")
    except UnicodeDecodeError as error:
        raise Wrong(str(error)) from error
