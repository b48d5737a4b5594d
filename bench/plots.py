"""The plots that are drawn beside hp2xx, and the commands that draw them."""

import collections
import os
import shutil
import subprocess
import sys

import made_plots

TOP = os.path.dirname(os.path.dirname(os.path.abspath(__file__)))

# A page is its width, its height, and how far its corner is left of (0,0) and below it. The pen is
# what hp2xx gets by -p, or None for the widths in the plot. `made` is the made plot, or None.
Plot = collections.namedtuple("Plot", "name page pen text made")

CARD = (4000, 3000, 0, 0)
A4_CENTRED = (11880, 8400, 5940, 4200)


def example(name, page, pen=None):
    with open(os.path.join(TOP, "examples", name + ".plt"), "rb") as text:
        return Plot(name, page, pen, text.read(), None)


def chart(name, script, needs, page, pen):
    """A plot that a script in examples/ writes, or None if what it needs is not installed."""
    if not shutil.which(needs):
        print(f"{needs} is not installed, so there is no plot of {name}", file=sys.stderr)
        return None
    text = subprocess.run([os.path.join(TOP, "examples", script), "--plot"], stdout=subprocess.PIPE, check=True).stdout
    return Plot(name, page, pen, text, None)


def made(plot):
    return Plot(plot.name, (*plot.page, 0, 0), "3" if plot.pen == 35 else None, made_plots.bytes_of(plot), plot)


SOURCES = {
    "line": lambda: example("line", (64, 64, 0, 0)),
    "rose": lambda: example("rose", CARD),
    "tide": lambda: example("tide", CARD),
    "figures": lambda: example("figures", CARD),
    "characters": lambda: example("characters", CARD),
    "centred": lambda: example("centred", A4_CENTRED),
    "flange": lambda: example("flange", CARD),
    "island": lambda: example("island", CARD),
    "windows": lambda: example("windows", CARD),
    "metro": lambda: example("metro", CARD),
    "gnuplot": lambda: example("gnuplot", (8800, 6600, 0, 0), "3"),
    # Its lines are about 0.13 mm wide in our picture.
    "graph": lambda: chart("graph", "graph.sh", "graph", (8128, 8128, 0, 0), "1"),
    **{plot.name: lambda plot=plot: made(plot) for plot in made_plots.PLOTS},
}


def our_words(program, form, plot, path):
    width, height, left, below = map(str, plot.page)
    return [program, form, "--width", width, "--height", height, "--left", left, "--below", below, path]


def hp2xx_words(plot, dots, path, form="pbm"):
    width, height, left, below = plot.page
    words = ["hp2xx", "-q", "-m", form, "-d", str(dots)]
    if form == "pbm":
        words += ["-c", "11111111"]  # all pens black, else a plot in colours becomes a PPM
    words += ["-t"]  # true size, 0.025 mm to a plotter unit; else the picture fits 200 by 200 mm
    words += ["-N", "-H", str(height), "-W", str(width)]  # P1 and P2 are the page's corners, whatever PS says
    words += ["-x", str(-left), "-X", str(width - left), "-y", str(-below), "-Y", str(height - below)]
    if plot.pen:
        words += ["-p", 8 * plot.pen]  # the width of each pen in tenths of a millimetre
    return words + ["-f", "-", path]
