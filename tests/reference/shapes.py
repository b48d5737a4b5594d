"""Shapes: strokes, areas, which solid fills make in the profile full, and images."""

from typing import NamedTuple

from .images import Image
from .plotter import BLACK, Stroke


class Area(NamedTuple):
    """What is inside polygons, by the edges of all of them, each from a place to a place in grains, and by the rule of what is
    inside."""

    pen: int
    colour: tuple
    window: tuple
    edges: tuple
    rule: int
    sheet: int = 1
    labels: int = 0  # how many labels come before it

    label = None  # no area is part of a label


def is_area(shape):
    return isinstance(shape, Area)


def is_image(shape):
    return isinstance(shape, Image)


def placed(shape, place_of, window):
    """A shape whose places are where a function puts them, in a window."""
    if is_image(shape):
        return shape.placed(place_of, window)
    if is_area(shape):
        return shape._replace(edges=tuple(tuple(map(place_of, edge)) for edge in shape.edges), window=window)
    return shape._replace(a=place_of(shape.a), b=place_of(shape.b), window=window)


def strokes_of(shape):
    """A stroke itself, the edges of an area as strokes of width 0, or an image as one from corner to corner."""
    if is_image(shape):
        return [Stroke(shape.pen, BLACK, 0, shape.window, shape.corner, shape.far_corner(), shape.sheet)]
    if not is_area(shape):
        return [shape]
    return [Stroke(shape.pen, shape.colour, 0, shape.window, a, b, shape.sheet) for a, b in shape.edges]
