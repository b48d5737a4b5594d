"""A reader of SVG documents, by SVG 1.1: what a document shows, or why it is none.

It knows what plotraster may write: a page in millimetres, clip paths of one rectangle, groups of sheets, groups of labels with
their texts as titles, paths of lines from place to place, paths that are filled, of the edges of an area, and images, each of
PNGs under a matrix in a window.
"""

import base64
import re
from fractions import Fraction
from xml.etree import ElementTree

from .fills import BY_ODD_COUNTS, BY_WINDING
from .labels import Group
from .png import read_part
from .reading import Wrong, must
from .vectors import LEAST_WIDTH, MOST_IN_A_PATH, Document, Line, FilledPath, Picture

DECLARATION = b'<?xml version="1.0" encoding="UTF-8"?>\n'
SPACE = "{http://www.w3.org/2000/svg}"
COUNT = "(?:0|[1-9][0-9]*)"
WHOLE = "(?:0|-?[1-9][0-9]*)"
MILLIMETRES = re.compile(rf"({COUNT}(?:\.[0-9]*[1-9])?)mm")
COMMAND = re.compile(f"([MmLl])({WHOLE}) ({WHOLE})")
LINES = f"(?:[Ll]{WHOLE} {WHOLE})+"
# Lines follow each move, and the first move is to a place.
PATH = re.compile(f"M{WHOLE} {WHOLE}{LINES}(?:[Mm]{WHOLE} {WHOLE}{LINES})*")
# A title as it is written: what need not be escaped is not.
TITLE = re.compile(rb"<g><title>((?:[^<>&]|&amp;|&lt;|&gt;)+)</title>\n")
ROUND = {"fill": "none", "stroke-linecap": "round", "stroke-linejoin": "round"}
UNITS_OF_A_MILLIMETRE = 40
INCH = 16256
LINK = "{http://www.w3.org/1999/xlink}href"
DATA = "data:image/png;base64,"
SIZE = "0|-?[1-9][0-9]*e-9"
MATRIX = re.compile(rf"matrix\(({SIZE}) ({SIZE}) ({SIZE}) ({SIZE}) ({WHOLE}) ({WHOLE})\)")


def read_svg(data):
    """What a document shows."""
    must(data.startswith(DECLARATION) and data.endswith(b"\n"), "no declaration, or no end of the last line")
    titles = TITLE.findall(data)
    must(data.count(b"<?") == 1 and b"<!" not in data and len(titles) == data.count(b"<title"), "more than elements")
    must(data.count(b"&") == sum(title.count(b"&") for title in titles), "something escaped that is in no title")
    try:
        root = ElementTree.fromstring(data)
    except ElementTree.ParseError as error:
        raise Wrong(str(error)) from error
    texts = [text for it in root.iter() for text in (it.text if it.tag != f"{SPACE}title" else "", it.tail)]
    must(all(not (text or "").strip() for text in texts), "a text")
    width, height = page_of(root)
    group = only_child(root, "g")
    must(group.attrib == ROUND, f"the group has {group.attrib}")
    clips = {}
    found = list(group)
    if found and found[0].tag == f"{SPACE}defs":
        clips = clips_of(found.pop(0), 16 * height)
        must(clips, "no clip paths in defs")
    are_numbered = bool(found) and found[0].tag == f"{SPACE}g" and "id" in found[0].attrib
    sheets = [list(sheet) for sheet in groups(found)] if are_numbered else [found]
    used = set()
    read = [things_of(sheet, number, clips, used, 16 * height) for number, sheet in enumerate(sheets, 1)]
    must(used == set(clips), f"clip paths that are not used: {sorted(set(clips) - used)}")
    labels = tuple(label for _, own in read for label in own)
    return Document(width, height, [shapes for shapes, _ in read], are_numbered, None, labels)


def attributes(element, name, *names):
    """The values of an element's attributes, which has these and no others."""
    must(element.tag == SPACE + name, f"{element.tag} instead of {name}")
    must(list(element.attrib) == list(names), f"{name} has {list(element.attrib)}")
    return list(element.attrib.values())


def only_child(element, name):
    found = list(element)
    must([it.tag for it in found] == [SPACE + name], f"{element.tag} has {[it.tag for it in found]}")
    return found[0]


def page_of(root):
    """The sides of the page in plotter units, which are in millimetres and in grains."""
    *sides, box = attributes(root, "svg", "width", "height", "viewBox")
    units = []
    for side in sides:
        found = MILLIMETRES.fullmatch(side)
        must(found, f"a side of {side}")
        units.append(Fraction(found[1]) * UNITS_OF_A_MILLIMETRE)
    must(all(side.denominator == 1 for side in units), f"sides of {sides}")
    width, height = map(int, units)
    must(box == f"0 0 {16 * width} {16 * height}", f"a page of {sides} in {box}")
    return width, height


def clips_of(defs, top):
    """The windows of the clip paths by their names, each once."""
    attributes(defs, "defs")
    clips = {}
    for path in defs:
        name, = attributes(path, "clipPath", "id")
        rectangle = only_child(path, "rect")
        numbers = attributes(rectangle, "rect", "x", "y", "width", "height")
        must(all(re.fullmatch(WHOLE, it) for it in numbers), f"the rectangle {numbers}")
        x, y, width, height = map(int, numbers)
        must(name == "w" + "_".join(numbers) and width >= 0 and height >= 0, f"{name} is {numbers}")
        must(name not in clips, f"{name} comes twice")
        clips[name] = x, top - y - height, x + width, top - y
    must(len(set(clips.values())) == len(clips), "two clip paths of one rectangle")
    return clips


def groups(elements):
    """The groups of sheets, in order."""
    for number, element in enumerate(elements, 1):
        name, = attributes(element, "g", "id")
        must(name == f"sheet-{number}", f"{name} instead of sheet {number}")
        yield element


def things_of(sheet, number, clips, used, top):
    """The lines and areas of a sheet, and its labels."""
    shapes, labels = [], []
    for element in sheet:
        first, paths = len(shapes), [element]
        if element.tag == f"{SPACE}svg":
            shapes.append(image_of(element, top))
            continue
        if element.tag == f"{SPACE}g":
            attributes(element, "g")
            must(len(element) > 1, "a label without lines")
            title, *paths = element
            attributes(title, "title")
            must(not list(title), "a title of elements")
        for path in paths:
            shapes += shapes_of(path, clips, used, top)
        if element.tag == f"{SPACE}g":
            must(all(isinstance(shape, Line) for shape in shapes[first:]), "an area in a label")
            labels.append(Group(number, first, len(shapes), title.text))
    return shapes, labels


def shapes_of(path, clips, used, top):
    """The lines of a path, or its area if it is filled, and the name of its clip path among those that are used."""
    optional = [name for name in ("fill", "fill-rule", "clip-path") if name in path.attrib]
    found = dict(zip(path.attrib, attributes(path, "path", "class", "stroke", "stroke-width", *optional, "d")))
    pen, colour, width = (found[name] for name in ("class", "stroke", "stroke-width"))
    must(not list(path), "something in a path")
    must(re.fullmatch("pen[1-9][0-9]{0,2}", pen) and int(pen[3:]) < 256, f"the class {pen}")
    must(re.fullmatch("#[0-9a-f]{6}", colour), f"the colour {colour}")
    must(re.fullmatch(COUNT, width) and int(width) >= LEAST_WIDTH, f"the width {width}")
    pen, colour, width = int(pen[3:]), tuple(bytes.fromhex(colour[1:])), int(width)
    window = window_of(found["clip-path"], clips, used) if "clip-path" in found else None
    ends = tuple(tuple((x, top - y) for x, y in line) for line in ends_of(found["d"]))
    if "fill" in found or "fill-rule" in found:
        must(width == LEAST_WIDTH, f"edges of the width {width}")
        return [FilledPath(pen, colour, rule_of(found), window, ends)]
    must(len(ends) <= MOST_IN_A_PATH, f"{len(ends)} lines in a path")
    return [Line(pen, colour, width, window, *line) for line in ends]


def image_of(view, top):
    """An image: what its PNGs show, where its matrix puts it, in its window."""
    *numbers, box = attributes(view, "svg", "x", "y", "width", "height", "viewBox")
    must(all(re.fullmatch(WHOLE, it) for it in numbers) and box == " ".join(numbers), f"a view of {numbers} in {box}")
    x, y, width, height = map(int, numbers)
    group = only_child(view, "g")
    text, = attributes(group, "g", "transform")
    found = MATRIX.fullmatch(text)
    must(found, f"the matrix {text}")
    sizes = [int(it.removesuffix("e-9")) for it in found.groups()[:4]]
    along, across = ((sign(it[0]), -sign(it[1])) for it in (sizes[:2], sizes[2:]))
    size, = {abs(it) for it in sizes} - {0}
    per_inch = round(INCH * 10**9 / size)
    must(size == (2 * INCH * 10**9 + per_inch) // (2 * per_inch), f"dots of {size} billionths of a grain")
    dots = [dot for part in group for dot in dots_of(part)]
    window = x, top - y - height, x + width, top - y
    return Picture(window, (int(found[5]), top - int(found[6])), across, along, per_inch, tuple(sorted(dots)))


def sign(number):
    return (number > 0) - (number < 0)


def dots_of(part):
    """The dots that a part of an image shows."""
    *numbers, aspect, rendering, data = attributes(
        part, "image", "x", "y", "width", "height", "preserveAspectRatio", "image-rendering", LINK)
    must((aspect, rendering) == ("none", "pixelated") and data.startswith(DATA), f"an image of {data[:40]}")
    must(all(re.fullmatch(COUNT, it) for it in numbers), f"an image at {numbers}")
    x, y, width, height = map(int, numbers)
    *sides, colours = read_part(base64.b64decode(data.removeprefix(DATA), validate=True))
    must(sides == [width, height], f"a PNG of {sides} as {width} by {height}")
    return [(y + at // width, x + at % width, tuple(colour)) for at, colour in enumerate(colours) if colour is not None]


def rule_of(path):
    """The rule by which a path is filled, which has the colour of its edges; winding is the one that need not be named."""
    must(path.get("fill") == path["stroke"], f"{path['stroke']} around {path.get('fill')}")
    must(path.get("fill-rule", "evenodd") == "evenodd", f"the rule {path.get('fill-rule')}")
    return BY_ODD_COUNTS if "fill-rule" in path else BY_WINDING


def window_of(clip, clips, used):
    """The window of a clip path, whose name is used."""
    name = clip.removeprefix("url(#").removesuffix(")")
    must(clip == f"url(#{name})" and name in clips, f"the clip path {clip}")
    used.add(name)
    return clips[name]


def ends_of(commands):
    """The ends of the lines that commands draw."""
    must(PATH.fullmatch(commands), f"the commands {commands[:60]}")
    at, found = (0, 0), []
    for letter, x, y in COMMAND.findall(commands):
        to = (int(x), int(y)) if letter.isupper() else (at[0] + int(x), at[1] + int(y))
        if letter in "Ll":
            found.append((at, to))
        at = to
    return found
