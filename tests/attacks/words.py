"""Random command lines: right ones that draw small pictures, and wrong ones with what the program must say."""

from reference import messages
from reference.command_line import (
    CHARACTERS, DOTS_OF_PCL, LABELS, MOST_DOTS, PICTURES, ROTATIONS, VECTORS, WITH_SHADES, Mistake, ranges_of, request_of)
from reference.random_options import (
    COLOURS, PENS, WIDTHS, WRONG_CHARACTERS, WRONG_COLOURS, WRONG_PENS, WRONG_SIZES, WRONG_WIDTHS)

COMMANDS = ("draw", *PICTURES, "report")
# Options that the reference does not know, since they change no picture.
FLAGS = ("verbose", "progress", "quiet")
PAPERS = ("a5", "a4-portrait", "letter", "a0", "arch-e-portrait")
SIDES = ("64", "65", "200", "1000")
FOLDER = "out"
# As many letters as Linux lets a word have, nearly.
LONG = 120000
WRONG_NUMBERS = ("", " ", "x", "+", "-1", "1e2", "0x64", "\u0661\u0660", "1 0", "99999999999999999999", "9" * 4000)
WRONG_TEXTS = {
    "pens": (*WRONG_PENS, "1" * LONG), "characters": WRONG_CHARACTERS, "profile": ("", "Core", "fuller"),
    "form": ("", "gif", "P" * LONG), "labels": ("", "Text", "stroke", "text" * (LONG // 4)),
    "sheet": ("", "-1", "4194305", "all", "1-2", str(2**64 + 1)), "page": ("", "A4", "a6", "a4-", "-portrait" * (LONG // 9)),
    "rotate": ("", "1", "-90", "+90", "090", "360", "90 ", "all", "9" * LONG),
    "colours": WRONG_COLOURS, "widths": WRONG_WIDTHS, "size": WRONG_SIZES,
}
# Words that are right, at least beside others.
ALONE = ("--margin=1", "--rotate=90", "--sheet=each", "--profile=full")
UNKNOWN = ("--dot", "--d", "--Dots", "--version", "-V", "-p", "-1", "--=", "---", "--\u00e9", "--" + "w" * LONG)
NO_TEXT = (b"\xff", b"--dots=\x80", b"pl\xc3", b"\xc0\xaf.plt", b"-o\xed\xa0\x80", b"--\xf4\x90\x80\x80")


def form_of(command, options):
    """The form of the output of a right command line."""
    return options.get("form", "png").lower() if command == "draw" else command


def right_options(command, dice):
    """Options of a command that go together, for a picture that is not large."""
    options = page_options(command, dice)
    is_small = options.get("width") is not None and "fit" not in options
    profile = dice.choice(("core", "full", "full"))
    if command == "draw" and dice.random() < 0.8:
        options["form"] = dice.choice((*PICTURES, "PNG"))
    form = form_of(command, options)
    if profile != "full" or command != "draw" or dice.random() < 0.3:
        options["profile"] = profile
    if profile == "full":
        options.update({"sheet": dice.choice("00112")} if dice.random() < 0.8 else {})
        options.update({"characters": dice.choice(CHARACTERS)} if dice.random() < 0.2 else {})
        options.update({"labels": dice.choice(LABELS)} if form == "dxf" and dice.random() < 0.5 else {})
    if form != "report" and form not in VECTORS:
        options.update(pixel_options(command, form, is_small, dice))
    options.update(look_options(command, form, dice))
    return options


def page_options(command, dice):
    """Which page is drawn."""
    kind, fit, options = dice.randrange(20), dice.random() < 0.15, {}
    if kind < 14:
        options = {"width": dice.choice(SIDES), "height": dice.choice(SIDES)}
    elif kind < 17:
        options = {"page": dice.choice(("plot", "plot", *PAPERS))}
    is_fitted = fit or command == "draw" and not options
    options.update({"fit": None} if fit else {})
    options.update({"margin": dice.choice(("0", "1", "100"))} if is_fitted and dice.random() < 0.3 else {})
    for name in ("left", "below"):
        options.update({name: dice.choice(("0", "30", "5000", "65536"))} if dice.random() < 0.1 else {})
    options.update({"rotate": dice.choice(ROTATIONS)} if dice.random() < 0.25 else {})
    return options


def pixel_options(command, form, is_small, dice):
    """How large a picture is, and how it is painted: coarsely if its page may be large."""
    dots = dice.choice((10, 33, 75, 100, 127, 150) + (300, 600, 1200) * (dice.random() < 0.1) if is_small else (10, 11, 12))
    if form == "pcl":
        dots = dice.choice(DOTS_OF_PCL if is_small else DOTS_OF_PCL[:1])
    options = {"dots": str(dots)}
    if command == "draw" and form != "pcl" and dice.random() < 0.5:
        options = {"size": dice.choice(("16", "17", "33", "100"))}
    if form in WITH_SHADES and (dice.random() < 0.3 or command == "draw" and not is_small):
        options["smooth"] = str(dice.randint(1, min(4, MOST_DOTS // dots)))
    if command in ("marks", "pbm", "ppm", "pcl"):
        options.update({"band": dice.choice(("1", "3", "64", "4096"))} if dice.random() < 0.5 else {})
        options.update({"from": dice.choice(("0", "1", "7", "99"))} if dice.random() < 0.1 else {})
        options.update({"rows": dice.choice(("1", "2", "9", "400000"))} if dice.random() < 0.1 else {})
    return options


def look_options(command, form, dice):
    """How lines look, and what is said."""
    options = {}
    if command != "report":
        options.update({"pens": dice.choice(("all", "1", "2-255", "1,3-5"))} if dice.random() < 0.2 else {})
        options.update({"progress": None} if dice.random() < 0.1 and command not in VECTORS else {})
    for name, values in ((dice.choice(("colours", "colors")), COLOURS), ("widths", WIDTHS)):
        options.update({name: assignments(values, dice)} if dice.random() < 0.1 else {})
    options.update({"verbose": None} if dice.random() < 0.1 else {})
    options.update({"quiet": None} if command == "draw" and dice.random() < 0.3 else {})
    return options


def assignments(values, dice):
    """A list of pens with values."""
    return ",".join(f"{dice.choice(PENS)}={dice.choice(values)}" for _ in range(dice.choice((1, 1, 2, 5))))


def words_of(command, options, files, dice):
    """The words of a command line, in any order."""
    parts = [spelled(name, value, dice) for name, value in options.items()] + [[file] for file in files]
    kept = [part for part in parts if part[0] in files]
    dice.shuffle(parts)
    # Files stay in their order.
    parts = [kept.pop(0) if part[0] in files else part for part in parts]
    return [command, *(word for part in parts for word in part)]


def spelled(name, value, dice):
    """The words of an option. A value that looks like an option follows an equals sign."""
    if value is None:
        return [f"--{name}"]
    is_bound = value.startswith("-") or dice.random() < 0.5
    if name == "output" and value and dice.random() < 0.5:
        return [f"-o{value}"] if is_bound else ["-o", value]
    return [f"--{name}={value}"] if is_bound else [f"--{name}", value]


def mistake_in(command, options):
    """What is wrong with options, as standard error begins, or None."""
    known = {name: value for name, value in options.items() if name not in FLAGS}
    known.update({"page": "plot"} if known.get("page") in PAPERS else {})
    try:
        request = request_of(command, known)
    except Mistake as mistake:
        return f"plotraster: {mistake}" if mistake.args else "error: "
    except ValueError:
        return "plotraster: bad page: "
    return f"plotraster: {messages.text('resolution')}" if request.form == "pcl" and request.dots not in DOTS_OF_PCL else None


def with_wrong_value(command, options, dice):
    """Options of which one has another value, mostly a wrong one, and what is wrong with them."""
    ranges = ranges_of(command)
    name = dice.choice((*ranges, *WRONG_TEXTS))
    least, most, _ = ranges.get(name, (0, 0, 0))
    near = tuple(str(it) for it in (least - 1, most + 1, 2**32 + least, 2**64 + least))
    options = {**options, name: dice.choice((*WRONG_TEXTS.get(name, ()), *WRONG_NUMBERS, *near))}
    return options, mistake_in(command, options)


def with_wrong_word(command, options, files, dice):
    """The words of a right command line with something wrong, and how standard error begins."""
    words, kind = words_of(command, options, files, dice), dice.randrange(6)
    at = dice.randrange(1, len(words) + 1)
    if kind == 0:
        name, value = dice.choice([*options.items(), ("left", "7")] if "left" not in options else [*options.items()])
        again = spelled(name, value, dice)
        return words + again + ([] if name in options else again), "error: "
    if kind == 1:
        # It takes no value, as no word is left, or as an option follows.
        name = dice.choice((*ranges_of(command), "page", "rotate", "profile", "output"))
        return [*words, f"--{name}", *dice.choice(((), ("--verbose",)))], "error: "
    if kind == 2:
        return words + [dice.choice(UNKNOWN)], "error: "
    if kind == 3:
        words.insert(at, dice.choice(NO_TEXT))
        return words, "plotraster: words not understood\n"
    if kind == 4:
        return [dice.choice(("--width=64", "pb", "", "PNG", "-", "p" * LONG, "--")), *words], "error: "
    return [*words, "a.plt", "b.plt"], f"plotraster: {messages.text('no-folder')}\n"


def soup(dice):
    """Words in any order, of which most are words of command lines."""
    command = dice.choice(COMMANDS)
    options = {name: value for name, value in right_options(command, dice).items() if name not in ("dots", "size")}
    options.update({"output": FOLDER} if dice.random() < 0.5 else {})
    words = words_of(command, options, ["a.plt"], dice)
    for _ in range(dice.choice((1, 1, 1, 2, 5))):
        at, kind = dice.randrange(len(words) + 1), dice.randrange(5)
        if kind == 0 and at:
            del words[at - 1]
        elif kind == 1:
            words.insert(at, dice.choice(("--", "-h", "--help", "a.plt", "b.plt", "-", "", "--fit", "none.plt", "each", "=")))
        elif kind == 2:
            words.insert(at, dice.choice((*UNKNOWN, *NO_TEXT, *COMMANDS, *ALONE)))
        elif kind == 3:
            dice.shuffle(words)
        elif at and isinstance(words[at - 1], str):
            words[at - 1] = words[at - 1][:dice.randrange(1 + len(words[at - 1]))]
    return words
