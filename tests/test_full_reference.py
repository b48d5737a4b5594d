"""Checks the plain plotter of tests/reference in the profile full, without the program: on the rows of
full_examples.txt, and of image_examples.txt, whose plots have images."""

import os
import re

import pytest

from reference import messages
from reference.geometry import Page
from reference.outputs import Drawing, answer, areas_in, draw, strokes_in
from reference.plotter import BLACK, COLOURS, Refused
from shared import HERE, assert_nothing, read_bytes

ROWS = os.path.join(HERE, "full_examples.txt")
IMAGE_ROWS = os.path.join(HERE, "image_examples.txt")
USUAL = {"profile": "full", "width": "1000", "height": "1000"}
REFUSALS = {"3": "off-range", "4": "too-many-strokes", "12": "too-many-pixels"}
# The rule that refuses only a picture.
OF_PICTURES = "12"
PLACE = r"\((-?\d+),(-?\d+)\)"
STROKE = re.compile(rf"{PLACE}(?:-{PLACE})?((?: [pwc]\w+)*)")
# A row or some rows of pixels, and pixels of a row: columns, pen and colour.
PIXEL_ROWS = re.compile(r"rows? (\d+)(?: to (\d+))?: ([^,]+)(?:, |$)")
PIXEL_COLUMNS = re.compile(r"(\d+)(?:-(\d+))?(?:p(\d+))?(?:c(\w{6}))?")


def rows(path=ROWS):
    """Each row: its name, and the values of each of its keys."""
    found = []
    for line in read_bytes(path).decode().splitlines():
        if line.startswith("    "):
            key, _, value = line.strip().partition(" ")
            found[-1][1].setdefault(key, []).append(value)
        elif line and not line.startswith("#"):
            found.append((line, {}))
    return found


def plot_of(text):
    """A plot with its bytes; <n> is the byte n."""
    return re.sub(rb"<(\d+)>", lambda byte: bytes([int(byte[1])]), text.encode())


def options_of(keys):
    words = " ".join(keys.get("options", [])).split()
    options = {**USUAL, **dict(zip((word[2:] for word in words[::2]), words[1::2]))}
    return {name: value for name, value in options.items() if (name, value) != ("profile", "core")}


def drawn(plot, options):
    """What a plot draws, which may have images; of a refusal its text."""
    page = Page(*(int(options.get(name, 0)) for name in ("width", "height", "left", "below")))
    sheet = int(options.get("sheet", 1)) if options.get("profile") == "full" else None
    try:
        return draw(plot, page, sheet, characters=options.get("characters"))
    except Refused as refusal:
        return str(refusal)


def spelled(stroke):
    """A stroke as the rows spell it."""
    text = "({},{})".format(*stroke.a) + ("" if stroke.a == stroke.b else "-({},{})".format(*stroke.b))
    text += "" if stroke.pen == 1 else f" p{stroke.pen}"
    text += "" if stroke.width == 224 else f" w{stroke.width}"
    return text + colour_of(stroke)


def colour_of(shape):
    return "" if shape.colour == COLOURS.get(shape.pen, BLACK) else f" c{bytes(shape.colour).hex()}"


def spelled_area(area):
    """An area as the rows spell it."""
    text, last = "", None
    for a, b in area.edges:
        text += "" if a == last else "{}({},{})".format(", " if text else "", *a)
        text += "-({},{})".format(*b)
        last = b
    text += "" if area.pen == 1 else f" p{area.pen}"
    return text + colour_of(area) + (" by winding" if area.rule else "")


def marks_of(texts):
    """The lines of `marks`, by what a row says of pixels."""
    lines = []
    assert not any(PIXEL_ROWS.sub("", text) for text in texts), texts
    for first, last, columns in (found for text in texts for found in PIXEL_ROWS.findall(text)):
        for row in range(int(first), int(last or first) + 1):
            for least, most, pen, colour in PIXEL_COLUMNS.findall(columns):
                pen = int(pen or 1)
                colour = colour or bytes(COLOURS.get(pen, BLACK)).hex()
                lines += [f"{row} {column} {pen} {colour}" for column in range(int(least), int(most or least) + 1)]
    return lines


def marks_case(keys):
    """The options of `marks` for the pixels of a row."""
    words = " ".join(keys.get("marks", [])).split()
    return {**options_of(keys), "dots": "127", **dict(zip((word[2:] for word in words[::2]), words[1::2]))}


def strokes_of(keys):
    """The strokes that a row lists, or None."""
    texts = [text for line in keys.get("draws", []) for text in re.split(r"(?<!\d), ", line)]
    if not texts or texts[0].startswith("as "):
        return None
    listed = [found[0] for line in keys["draws"] for found in STROKE.finditer(line)]
    assert ", ".join(listed) == ", ".join(keys["draws"]) or keys["draws"] == ["nothing"], keys["draws"]
    return listed


def differences(keys):
    """What is not as a row says, whose plot may have images."""
    options = options_of(keys)
    plot = plot_of(keys["plot"][0])
    got = drawn(plot, options)
    if "refused" in keys or isinstance(got, str):
        rule, _, at = keys.get("refused", [""])[0].partition(" at ")
        if rule == OF_PICTURES:
            got = answer("marks", marks_case(keys), plot).error[len("plotraster: "):-1]
        wanted = {"refusal": messages.text(REFUSALS[rule], at) if rule in REFUSALS else "nothing is refused"}
        found = {"refusal": got if isinstance(got, str) else "nothing is refused"}
    else:
        wanted, found = wanted_of(keys, options), found_of(keys, got, answer("report", options, plot))
        if "pixels" in keys:
            found["pixels"] = answer("marks", marks_case(keys), plot).output.decode().splitlines()
        if "black" in keys:
            found["black"] = blacks_in(answer("pbm", marks_case(keys), plot).output)
    for name in wanted:
        if wanted[name] != found[name]:
            yield f"{name}: {found[name]} instead of {wanted[name]}"


def wanted_of(keys, options):
    """What a row says, by the names of its facts."""
    wanted = {"notes": keys.get("note", []), "sheets": max(1, int(keys.get("sheets", ["1"])[0]))}
    listed = strokes_of(keys)
    if "draws" in keys or "area" in keys:
        wanted["areas"] = keys.get("area", [])
    if listed is not None:
        wanted["strokes"] = listed
    elif "draws" in keys:
        other = keys["draws"][0][3:]
        if other == "the core":
            other = drawn(plot_of(keys["plot"][0]), {**options, "profile": "core"})
            wanted["notes"] = [f"{note.at} {note.kind} {note.has}" for note in other.notes]
        else:
            other = drawn(plot_of(other), options)
        wanted["strokes"] = [spelled(stroke) for stroke in strokes_in(other.shapes)]
    if "strokes" in keys:
        wanted["count"] = int(keys["strokes"][0])
    for key, at in (("first", "0"), ("last", "-1")):
        wanted.update({f"stroke {at}": text for text in keys.get(key, [])})
    for value in keys.get("stroke", []):
        at, _, text = value.partition(" ")
        wanted[f"stroke {at}"] = text
    if "box" in keys:
        wanted["box"] = keys["box"][0]
    if "report" in keys:
        wanted["report"] = keys["report"]
    if "pixels" in keys:
        wanted["pixels"] = marks_of(keys["pixels"])
    if "black" in keys:
        wanted["black"] = [tuple(map(int, mark.split()[:2])) for mark in marks_of(keys["black"])]
    return wanted


def blacks_in(bitmap):
    """The row and the column of each black pixel of a PBM."""
    header, size, *_ = bitmap.split(b"\n", 2)
    columns, rows = map(int, size.split())
    stride = (columns + 7) // 8
    bits = bitmap[len(header) + len(size) + 2 :]
    return [(row, column) for row in range(rows) for column in range(columns)
            if bits[row * stride + column // 8] >> (7 - column % 8) & 1]


def found_of(keys, got: Drawing, reported):
    """The same facts of a drawing and of the report on it."""
    lines, strokes = reported.output.decode().splitlines(), strokes_in(got.shapes)
    found = {
        "notes": [line[len("note "):] for line in lines if line.startswith("note ")],
        "sheets": max(1, got.sheets or 0),
        "strokes": [spelled(stroke) for stroke in strokes],
        "areas": [spelled_area(area) for area in areas_in(got.shapes)],
        "count": len(strokes),
        "box": " ".join(line.partition(" box ")[2] for line in lines if " box " in line),
        "report": [line for line in lines if line.startswith(("strokes ", "areas ", "images ", "pen ", "image "))],
    }
    for at in ("0", "-1", *(value.partition(" ")[0] for value in keys.get("stroke", []))):
        if -len(strokes) <= int(at) < len(strokes):
            found[f"stroke {at}"] = spelled(strokes[int(at)])
        else:
            found[f"stroke {at}"] = "none"
    return found


@pytest.mark.parametrize("name, keys", rows(), ids=[name.replace(" ", "_") for name, _ in rows()])
def test_examples(name, keys):
    assert_nothing(f"{name}: {difference}" for difference in differences(keys))


@pytest.mark.parametrize("name, keys", rows(IMAGE_ROWS), ids=[name.replace(" ", "_") for name, _ in rows(IMAGE_ROWS)])
def test_examples_of_images(name, keys):
    assert_nothing(f"{name}: {difference}" for difference in differences(keys))


def test_number_of_examples():
    """Each row has a name of its own, a plot, and something that it says of it."""
    names = [name for name, _ in rows()]
    assert len(names) == len(set(names)) == 232
    says = {"draws", "strokes", "area", "pixels", "refused"}
    assert_nothing(f"{name} says nothing" for name, keys in rows() if len(keys["plot"]) != 1 or not says & set(keys))
