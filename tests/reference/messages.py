"""What the program says, each text once, with the exit status of what it refuses; `{}` is a number, a name or a reason."""

MESSAGES = {
    # of plots
    "off-range": (1, "place off range at byte {}"),
    "too-many-strokes": (1, "too many strokes at byte {}"),
    "too-long": (1, "plot is longer than 67108864 bytes"),
    # of words
    "too-many-pixels": (2, "the picture has too many pixels"),
    "first-row": (2, "first row is past the last row"),
    "resolution": (2, "resolution is not one of PCL's"),
    "too-far-to-turn": (2, "a line leads too far from the page to be turned"),
    "long-page": (2, "--width and --height over 65536 need --profile full"),
    "too-fine": (2, "--dots times --smooth is over 1200"),
    "pens": (2, "bad pen list"),
    "profile": (2, "bad profile"),
    "colours": (2, "bad colours: {}"),
    "widths": (2, "bad widths: {}"),
    "margin-without-fit": (2, "--margin needs --fit"),
    "rotation": (2, "bad rotation: use 0, 90, 180 or 270"),
    "page-and-sides": (2, "--page may not be given with --width or --height"),
    "labels": (2, "bad labels: use text or strokes"),
    "labels-without-texts": (2, "--labels needs the form dxf"),
    "labels-in-core": (2, "--labels needs --profile full"),
    "smooth-without-shades": (2, "--smooth needs the form png or ppm"),
    "no-pixels": (2, "--dots, --size and --smooth may not be given with the forms pdf, svg and dxf"),
    "no-folder": (2, "several plots need --output FOLDER"),
    "each-without-folder": (2, "--sheet each needs --output FOLDER"),
    # of files and devices
    "open": (3, "cannot open {}"),
    "not-opened": (3, "cannot open {}: {}"),
    "output": (3, "cannot write {}: {}"),
    "read": (3, "read failed"),
    "write": (3, "write failed"),
    "broken-off": (3, "write failed: go on from row {} after byte {}"),
    "memory": (4, "out of memory"),
    # remarks on what was written
    "blank": (0, "nothing is drawn on the page: see {}"),
    "blank-to-fit": (0, "the page is not fitted: nothing is drawn"),
    "too-large-to-fit": (0, "the page is not fitted: the drawing is larger than a page can be"),
    "no-size": (0, "the page is the default one: the plot asks for no size"),
    "first-sheet": (0, "the plot has {} sheets; this is the first"),
}
# Why a file is not opened or written.
REASONS = {
    "no-such-file": "no such file or folder",
    "no-such-folder": "no such folder",
    "denied": "permission denied",
    "not-a-folder": "it is not a folder",
    "a-folder": "it is a folder",
    "taken": "it is written for another plot",
    "the-plot": "it is the plot",
    "a-plot": "it is one of the plots",
    "no-name": "the plot on standard input has no name",
}


def reason(name):
    """The reason of this name, or what was given, if it is a reason of the system."""
    return REASONS.get(name, name)


def text(name, *values):
    """What a message says of these values. Why a file is not opened or written may be a reason by its name."""
    if name in ("not-opened", "output"):
        file, why = values
        values = file, reason(why)
    return MESSAGES[name][1].format(*values)


def said(name, *values):
    """The line of a message on standard error."""
    return f"plotraster: {text(name, *values)}\n".encode()


def refused(name, *values):
    """The exit status and standard error of a run that ends with this message."""
    return MESSAGES[name][0], said(name, *values)


def said_why(name):
    """The line of a reason by itself on standard error."""
    return f"plotraster: {reason(name)}\n".encode()
