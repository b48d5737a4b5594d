"""What ezdxf, which reads DXF of all releases, finds in a document."""

import io

import ezdxf
import ezdxf.units
from ezdxf.lldxf.encoding import decode_dxf_unicode

from reference.dxf import Drawn
from reference.dxf_groups import characters_of, name_of, read_dxf

# A part of a millimetre, and how far a number may be from its nearest float, in parts.
PART, NEAR = 1e-7, 1e-3


def document_by_ezdxf(data):
    return ezdxf.read(io.StringIO(data.decode("ascii")))


def texts_by_ezdxf(data):
    return [decode_dxf_unicode(it.dxf.text) for it in document_by_ezdxf(data).modelspace() if it.dxftype() == "TEXT"]


def said_of_dxf(data):
    """What ezdxf finds wrong, and where it finds something else than tests/reference."""
    document, ours = document_by_ezdxf(data), read_dxf(data)
    layers = {layer.dxf.name: layer.dxf.color for layer in document.layers if "PEN_" in layer.dxf.name}
    if layers != {name_of(it): it.colour for it in ours.layers}:
        yield f"ezdxf: the layers {layers} instead of {ours.layers}"
    limits = tuple(document.header["$EXTMAX"])
    if document.units != ezdxf.units.MM or limits != (ours.width / 40, ours.height / 40, 0):
        yield f"ezdxf: the unit {document.units}, and a page up to {limits}"
    theirs = list(document.modelspace())
    if len(theirs) != len(ours.entities):
        yield f"ezdxf: {len(theirs)} entities instead of {len(ours.entities)}"
    for it, other in zip(ours.entities, theirs):
        if not is_same(it, other):
            yield f"ezdxf: {other} {other.dxfattribs()} instead of {it}"
    auditor = document.audit()
    yield from (f"ezdxf: {it.message}" for it in (*auditor.errors, *auditor.fixes))


def is_same(it, other):
    """Whether an entity of ezdxf is one of ours."""
    colour = other.dxf.color if other.dxf.hasattr("color") else it.layer.colour
    if (other.dxf.layer, colour) != (name_of(it.layer), it.colour):
        return False
    return is_same_drawing(it, other) if isinstance(it, Drawn) else is_same_text(it, other)


def is_same_drawing(it, other):
    kind, widths = other.dxftype(), []
    if kind == "POLYLINE":
        places = [vertex.dxf.location for vertex in other.vertices]
        widths = [other.dxf.default_start_width, other.dxf.default_end_width]
    else:
        places = [other.dxf.location] if kind == "POINT" else [other.dxf.start, other.dxf.end]
    is_closed = kind == "POLYLINE" and other.is_closed
    return it.is_closed == is_closed and are_near(it.places, places) and all(is_near(it.width, width) for width in widths)


def is_same_text(it, other):
    places = [other.dxf.insert, *([other.dxf.align_point] if other.dxf.halign else [])]
    angles = [(it.rotation, other.dxf.rotation), (it.factor, other.dxf.width), (it.oblique, other.dxf.oblique)]
    text, height = decode_dxf_unicode(other.dxf.text), other.dxf.height
    return (other.dxftype() == "TEXT" and text == characters_of(it.text) and is_near(it.height, height)
            and are_near([it.start, *([it.end] if it.end else [])], places)
            and all(abs(number - 10_000 * theirs) < NEAR for number, theirs in angles)
            and other.dxf.halign == (5 if it.end else 0) and other.dxf.text_generation_flag == (4 if it.is_mirrored else 0))


def are_near(places, others):
    """Whether places in parts are those of ezdxf, in millimetres."""
    return len(places) == len(others) and all(
        is_near(number, theirs) for place, other in zip(places, others) for number, theirs in zip((*place, 0), other))


def is_near(parts, millimetres):
    return abs(parts - millimetres / PART) < NEAR * (1 + abs(parts) * 1e-9)
