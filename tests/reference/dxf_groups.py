"""The bytes of DXF documents of R12, groups of a code and a value, a line each: a writer, a reader, and which bytes are as good."""

import re

from .dxf import MOST_OBLIQUE, WHOLE_TURN, Drawn, Dxf, Layer, Written
from .reading import must

MILLIMETRE, UNIT, DEGREE = 10_000_000, 250_000, 10_000
# The greatest count: a table may have fewer entries than it says.
MOST_LAYERS = 32_767
LAYER = re.compile("(?:S([1-9][0-9]*)_)?PEN_([1-9][0-9]{0,2})")
NUMBER = re.compile(r"(-?)(0|[1-9][0-9]*)(?:\.([0-9]*[1-9]))?")
# A text: printed ASCII, in which a backslash begins an escape.
TEXT = re.compile(r"(?:[ -$&-\[\]_-~]|\\U\+[0-9A-F]{4})+")
# How far an angle may be from the true one, in degrees, and the name and the length of a file in a listing.
NEAR, NAMED = 0.00025, re.compile(rb"(.*\.dxf) [0-9]+")


# ---- the writer


def bytes_of(document):
    """The bytes of a document."""
    groups = [*header_of(document), *tables_of(document.layers), (0, "SECTION"), (2, "ENTITIES")]
    for it in document.entities:
        look = [(8, name_of(it.layer)), *([] if it.colour == it.layer.colour else [(62, it.colour)])]
        groups += groups_of_text(it, look) if isinstance(it, Written) else groups_of_lines(it, look)
    groups += [(0, "ENDSEC"), (0, "EOF")]
    return "".join(f"{code}\n{value}\n" for code, value in groups).encode("ascii")


def name_of(layer):
    return f"PEN_{layer.pen}" if layer.sheet is None else f"S{layer.sheet}_PEN_{layer.pen}"


def header_of(document):
    sides = [number(UNIT * side) for side in document[:2]]
    yield from [(0, "SECTION"), (2, "HEADER"), (9, "$ACADVER"), (1, "AC1009")]
    yield from [(9, "$EXTMIN"), *place_of("0", "0"), (30, 0), (9, "$EXTMAX"), *place_of(*sides), (30, 0)]
    yield from [(9, "$INSUNITS"), (70, 4), (0, "ENDSEC")]


def tables_of(layers):
    yield from [(0, "SECTION"), (2, "TABLES"), (0, "TABLE"), (2, "LTYPE"), (70, 1), (0, "LTYPE"), (2, "CONTINUOUS"), (70, 0)]
    yield from [(3, "Solid line"), (72, 65), (73, 0), (40, 0), (0, "ENDTAB"), (0, "TABLE"), (2, "LAYER"), (70, MOST_LAYERS)]
    for name, colour in [("0", 7), *((name_of(layer), layer.colour) for layer in layers)]:
        yield from [(0, "LAYER"), (2, name), (70, 0), (62, colour), (6, "CONTINUOUS")]
    yield from [(0, "ENDTAB"), (0, "TABLE"), (2, "STYLE"), (70, 1), (0, "STYLE"), (2, "STANDARD"), (70, 0), (40, 0), (41, 1)]
    yield from [(50, 0), (71, 0), (42, 1), (3, "txt"), (4, ""), (0, "ENDTAB"), (0, "ENDSEC")]


def groups_of_lines(it, look):
    """A point, a line, or a polyline with its vertices."""
    places = [tuple(map(number, place)) for place in it.places]
    if len(places) < 3 and not it.is_closed:
        other = place_of(*places[1], 11) if places[1:] else []
        return [(0, "LINE" if other else "POINT"), *look, *place_of(*places[0]), *other]
    width = number(it.width)
    groups = [(0, "POLYLINE"), *look, (66, 1), *place_of(0, 0), (30, 0), (70, int(it.is_closed)), (40, width), (41, width)]
    for place in places:
        groups += [(0, "VERTEX"), look[0], *place_of(*place)]
    return [*groups, (0, "SEQEND")]


def groups_of_text(it, look):
    """A text, which is fitted between its start and its end if it has one."""
    groups = [(0, "TEXT"), *look, *place_of(*map(number, it.start)), (40, number(it.height)), (1, it.text)]
    groups += [(50, number(it.rotation, DEGREE)), (41, number(it.factor, DEGREE))]
    groups += [(51, number(it.oblique, DEGREE))] if it.oblique else []
    groups += [(7, "STANDARD"), *([(71, 4)] if it.is_mirrored else [])]
    return [*groups, *([(72, 0)] if it.end is None else [(72, 5), *place_of(*map(number, it.end), 11)])]


def place_of(x, y, code=10):
    return [(code, x), (code + 10, y)]


def number(parts, whole=MILLIMETRE):
    """A decimal number of so many parts of a whole one, a power of ten."""
    size, digits = abs(parts), len(str(whole)) - 1
    text = f"{size // whole}.{size % whole:0{digits}}".rstrip("0").rstrip(".")
    return f"-{text}" if parts < 0 else text


# ---- the reader


def read_dxf(data):
    """What a document has: its bytes are those of the writer, of layers and entities that are in order."""
    must(data.isascii() and data.endswith(b"\n"), "more than ASCII, or no end of the last line")
    lines = data.decode().split("\n")[:-1]
    must(len(lines) % 2 == 0 and all(re.fullmatch("0|[1-9][0-9]?", code) for code in lines[::2]), "lines that are no groups")
    groups = list(zip(map(int, lines[::2]), lines[1::2]))
    records = [[]]
    for group in groups:
        records += [[]] if group[0] == 0 else []
        records[-1].append(group)
    sides = sides_of(next((it for it in records if (2, "HEADER") in it), []))
    layers = [layer_of(it) for it in records if it[:1] == [(0, "LAYER")] and (2, "0") not in it]
    begin = next((at for at, it in enumerate(records) if (2, "ENTITIES") in it), None)
    must(begin is not None and records[-2:] == [[(0, "ENDSEC")], [(0, "EOF")]], "no entities, or no end")
    named = {name_of(layer): layer for layer in layers}
    must(len(named) == len(layers) and layers == sorted(layers, key=lambda it: (it.sheet or 0, it.pen)), f"the layers {layers}")
    must(len({layer.sheet is None for layer in layers}) < 2, "sheets and no sheets")
    found = Dxf(*sides, layers, entities_of(records[begin + 1:-2], named))
    must(bytes_of(found) == data, f"other bytes than for {found}"[:2000])
    return found


def sides_of(header):
    at = header.index((9, "$EXTMAX")) if (9, "$EXTMAX") in header else len(header)
    must([code for code, _ in header[at:at + 3]] == [9, 10, 20], "no size")
    sides = [parts_of(text) for _, text in header[at + 1:at + 3]]
    must(all(side > 0 and side % UNIT == 0 for side in sides), f"the sides {sides}")
    return [side // UNIT for side in sides]


def layer_of(record):
    name = value_of(record, 2)
    found = LAYER.fullmatch(name)
    must(found and int(found[2]) < 256, f"the layer {name}")
    return Layer(int(found[1]) if found[1] else None, int(found[2]), colour_of(record))


def colour_of(record, default=None):
    words = value_of(record, 62, default)
    must(re.fullmatch("[1-9][0-9]{0,2}", words) and int(words) < 256, f"the colour {words}")
    return int(words)


def entities_of(records, layers):
    """The entities of records, of which those of a polyline follow one another."""
    found, at = [], 0
    while at < len(records):
        kind, end = value_of(records[at], 0), at + 1
        if kind == "POLYLINE":
            end = next((after for after in range(at, len(records)) if value_of(records[after], 0) == "SEQEND"), at) + 1
            must(end > at + 2, "a polyline without vertices or an end")
        must(kind in READERS, f"an entity {kind}")
        layer = layers.get(value_of(records[at], 8))
        must(layer, f"the layer of {records[at]}")
        found.append(READERS[kind](layer, colour_of(records[at], str(layer.colour)), records[at:end]))
        at = end
    return found


def point(layer, colour, records):
    return Drawn(layer, colour, 0, False, (place_in(records[0]),))


def line(layer, colour, records):
    return Drawn(layer, colour, 0, False, (place_in(records[0]), place_in(records[0], 11)))


def polyline(layer, colour, records):
    width, is_closed = parts_of(value_of(records[0], 40)), value_of(records[0], 70) == "1"
    must(width >= 0 and len(records) > (3 if is_closed else 4), f"a polyline of the width {width}, and {len(records)} records")
    return Drawn(layer, colour, width, is_closed, tuple(map(place_in, records[1:-1])))


def text(layer, colour, records):
    record, = records
    has_end = value_of(record, 72) == "5"
    rotation, factor, oblique = (parts_of(value_of(record, code, "0"), DEGREE) for code in (50, 41, 51))
    height, words = parts_of(value_of(record, 40)), value_of(record, 1)
    must(height > 0 and factor > 0 and 0 <= rotation < WHOLE_TURN and abs(oblique) <= MOST_OBLIQUE, f"the text {record}")
    must(TEXT.fullmatch(words), f"the text {words}")
    is_mirrored, end = value_of(record, 71, "0") == "4", place_in(record, 11) if has_end else None
    return Written(layer, colour, words, place_in(record), height, rotation, factor, oblique, is_mirrored, end)


READERS = {"POINT": point, "LINE": line, "POLYLINE": polyline, "TEXT": text}


def place_in(record, code=10):
    return parts_of(value_of(record, code)), parts_of(value_of(record, code + 10))


def value_of(record, code, default=None):
    """The value of the first group of a record that has this code."""
    found = next((value for own, value in record if own == code), default)
    must(found is not None, f"no group {code} in {record}"[:200])
    return found


def parts_of(words, whole=MILLIMETRE):
    """How many parts of a whole one a number has."""
    found = NUMBER.fullmatch(words)
    digits = len(str(whole)) - 1
    must(found and len(found[3] or "") <= digits, f"the number {words}")
    size = int(found[2]) * whole + int((found[3] or "").ljust(digits, "0"))
    return -size if found[1] else size


def characters_of(text):
    """The characters of a text as it is written."""
    return re.sub(r"\\U\+([0-9A-F]{4})", lambda found: chr(int(found[1], 16)), text)


# ---- comparison


def near(got, wanted):
    """What was got, with angles as they are wanted if they are near enough: they may be computed in another way."""
    lines, others = got.split(b"\n"), wanted.split(b"\n")
    if len(lines) != len(others):
        return got
    for at, (it, other) in enumerate(zip(lines, others)):
        if it != other and (is_near_angle(lines[at - 1], it, other) or is_same_name(it, other)):
            lines[at] = other
    return b"\n".join(lines)


def is_near_angle(code, angle, other):
    if code not in (b"50", b"51") or not all(re.fullmatch(NUMBER.pattern.encode(), it) for it in (angle, other)):
        return False
    by = abs(float(angle) - float(other))
    return min(by, 360 - by) <= NEAR


def is_same_name(it, other):
    """Whether two lines begin a file of the same name in a listing."""
    names = NAMED.fullmatch(it), NAMED.fullmatch(other)
    return all(names) and names[0][1] == names[1][1]
