#!/usr/bin/env python3
"""Writes the plot of examples/ribbon.plt: a word, a ribbon and a border of curves, for the profile full.

    examples/ribbon.py > examples/ribbon.plt

The page is 4000 by 3000 plotter units (100 by 75 mm). Letters and the ribbon are Bezier curves (BZ and BR), and the
border is a row of arcs through three points (AT and RT). Letters are drawn twice, by a wide pen and by a thin one.
"""

import sys

# A quarter of a circle of radius 1 has its control points this far from its ends.
QUARTER = 0.5523
STEM, BOWL = 520, 190


def curve(*numbers, name="BR"):
    return name + ",".join(f"{number:.0f}" for number in numbers) + ";"


def turn(radius, way, side):
    """A quarter of a circle from the pen on: at first along `way`, then to the `side`, as vectors."""
    (wx, wy), (sx, sy) = way, side
    part = QUARTER * radius
    first = (part * wx, part * wy)
    second = (radius * wx + (radius - part) * sx, radius * wy + (radius - part) * sy)
    return curve(*first, *second, radius * (wx + sx), radius * (wy + sy))


RIGHT, UP, LEFT, DOWN = (1, 0), (0, 1), (-1, 0), (0, -1)


def circle():
    """Round, from the leftmost point on, clockwise."""
    return "".join(turn(BOWL, *ways) for ways in ((UP, RIGHT), (RIGHT, DOWN), (DOWN, LEFT), (LEFT, UP)))


def word(x, y):
    """The word `plot`, from its first stem's place on the base line on."""
    yield f"PU{x},{y - 260};PD{x},{y + 2 * BOWL};PU{x},{y + BOWL};PD;" + circle()
    x += 2 * BOWL + 150
    yield f"PU{x},{y + STEM};PD{x},{y + 90};" + turn(90, DOWN, RIGHT)
    x += 200
    yield f"PU{x},{y + BOWL};PD;" + circle()
    x += 2 * BOWL + 220
    yield f"PU{x},{y + STEM - 60};PD{x},{y + 90};" + turn(90, DOWN, RIGHT)
    yield f"PU{x - 110},{y + 2 * BOWL - 20};PD{x + 130},{y + 2 * BOWL - 20};"


def ribbon(lines=36):
    """Curves between two others, from blue to red."""
    ends = ((250, 900, 1500, 2300, 2300, -800, 3750, 1250), (250, 1350, 1100, -700, 2600, 2500, 3750, 650))
    for k in range(lines + 1):
        share = k / lines
        x, y, *rest = (a + (b - a) * share for a, b in zip(*ends))
        yield f"PC3,{40 + 180 * share:.0f},{60:.0f},{200 - 120 * share:.0f};PU{x:.0f},{y:.0f};PD;" + curve(*rest, name="BZ")


def border(step=150):
    """Arcs side by side along the edges of the page: out and back to the next point."""
    yield "PU200,150;PD;" + f"RT{step // 2},-60,{step},0;" * 24
    yield "PU3800,150;PD;" + f"RT60,{step // 2},0,{step};" * 18
    yield "PU3800,2850;PD;" + f"RT{-step // 2},60,{-step},0;" * 24
    yield "PU200,2850;PD;" + f"RT-60,{-step // 2},0,{-step};" * 18


def main():
    plot = "IN;PW.18;SP2;PC2,90,90,90;" + "".join(border()) + "PW.2,3;SP3;" + "".join(ribbon())
    for pen, width, colour in ((1, 1.9, "20,40,90"), (4, 0.35, "255,255,255")):
        plot += f"PW{width},{pen};PC{pen},{colour};SP{pen};" + "".join(word(1280, 2020))
    sys.stdout.write(plot + "PU;SP0;\n")


if __name__ == "__main__":
    main()
