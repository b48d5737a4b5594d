"""What commands in the documents must have made, beside those of docs/RECIPES.md, and which commands are not run."""

import glob
import os
import re
import subprocess
import sys

from cad_readers import said_of_dxf
from recipe_checks import A4, PNG, SECONDS, Check, lines_of, netpbm, plan, turned_pdf
from reference.dxf_groups import read_dxf
from shared import TOP, ink, pixels, read, read_bitmap

# Commands that stand in documents and are not run by tests/test_documents.py, each with the reason.
NOT_RUN = {
    r"make( (first|demo|test|prove|mutants|audit|check|fuzz|install|dist|clean)\b.*)?": "takes minutes, or installs",
    r"rt( .*)?": "the toolchain: make check runs it",
    r"tests/(fuzz|campaign)( .*)?": "takes minutes; a maintainer runs it",
    r"bench/\S+( .*)?": "measurements, which take minutes and need other programs",
    r"tools/(mutants|audit|setup)( .*)?": "takes minutes; make check runs it, or a maintainer does",
    r"sudo apt install \./build/\S+": "changes the machine; tests/test_packages.py unpacks the package",
    r"tar xzf build/\S+ --strip-components=1 -C \S+": "tests/test_packages.py runs it",
    r"trap '' XFSZ": "a case of tests/cases ignores the signal",
    r"plotraster report": "a name, as in `plotraster report plan.plt`",
}
# Commands within sentences that another check runs: those of the table of causes, by recipe_checks.py.
RUN_ELSEWHERE = {"docs/RECIPES.md": r"(sed|head|tail) .*"}


def leaves_out(block):
    """Are all commands of a block such as are not run?"""
    lines = [re.sub(r" +#.*", "", line) for line in block.splitlines()]
    return all(is_not_run(line) for line in lines if line)


def is_not_run(command):
    return any(re.fullmatch(pattern, command) for pattern in NOT_RUN)


COMMANDS = (r"(plotraster|make|rt|tools/\w+(\.py)?|examples/\w+|sed|head|tail|trap|tar|sudo|lpr?|(pnm|pam|ppm|pbm)\w+)"
            r" \S.*")


def commands_in_sentences(path, text):
    """The commands with arguments in the sentences of a document, without those that other checks run."""
    sentences = re.sub(r"^```.*?^```", "", text, flags=re.M | re.S)
    for command in re.findall(r"`([^`\n]+)`", sentences):
        elsewhere = RUN_ELSEWHERE.get(path)
        if re.fullmatch(COMMANDS, command) and not (elsewhere and re.fullmatch(elsewhere, command)):
            yield command


FOLDERS = ("bench", "completions", "crates", "docs", "examples", "man", "mutants", "packaging", "tests", "tools")


def missing_files(path):
    """The files that a document names and that are not there: links, and names from a top folder or a crate on."""
    with open(os.path.join(TOP, path), encoding="utf-8") as document:
        sentences = re.sub(r"^```.*?^```", "", document.read(), flags=re.M | re.S)
    links = re.findall(r"\]\(([^)#:]+)\)", sentences)
    names = [os.path.normpath(os.path.join(os.path.dirname(path), link)) for link in links]
    crates = os.listdir(os.path.join(TOP, "crates"))
    for name in re.findall(r"`(\w+/[^`\s]*)`", sentences):
        first = name.split("/")[0]
        # CRATE and NAME stand for any.
        if "NAME" not in name and "CRATE" not in name and first in (*FOLDERS, *crates):
            names.append(os.path.join("crates", name) if first in crates else name)
    return [name for name in dict.fromkeys(names) if not glob.glob(os.path.join(TOP, name))]


def transcript(text):
    """The commands of a block that shows a terminal, each with what it printed."""
    for part in re.split(r"^\$ ", text, flags=re.M)[1:]:
        command, _, output = part.partition("\n")
        yield command, output


def few_lines(made, name):
    """A document of lines has some on its first sheet, on a page that is none too small."""
    found = read_dxf(made.read(name)) if name.endswith(".dxf") else lines_of(made, name)
    lines = found.entities if name.endswith(".dxf") else found.sheets[0]
    if len(lines) < 4 or min(found.width, found.height) < 1000:
        yield f"{name}: {len(lines)} lines on {found.width} by {found.height} units"


def pictures(made):
    """Each file that the block names as output is a picture, and what is printed is for a printer."""
    named = set(re.findall(r"(?:>|plt -o) (\S+)", made.block))
    for name in named:
        if name.endswith((".pdf", ".svg", ".dxf")):
            yield from few_lines(made, name)
            continue
        data = made.of_png(name) if name.endswith(".png") else made.read(name)
        about = netpbm(["pamfile", "-"], data)
        if len(data) < 1000 or re.search(rb"P[BGP]M raw, \d{3,} by \d{3,}", about) is None:
            yield f"{name}: {about!r}"
    for words, data in made.printed:
        if not data.startswith((b"%!PS", b"\x1bE")) or len(data) < 1000:
            yield f"{words}: {data[:20]!r}"
    if not named and not made.printed:
        yield "made nothing"


def more_pictures(made):
    """Beside these, pictures of two plots in a folder."""
    yield from pictures(made)
    for name in ("plan", "centred"):
        if made.read(f"pictures/{name}.png") != made.run("draw", f"{name}.plt"):
            yield f"{name}: another picture in the folder"


PLOTS = {"plots/one.plt": plan(*A4), "plots/two.plt": b"SP1;PU0,0;PD9000,9000;"}


def pictures_of_a_folder(made):
    for name in PLOTS:
        picture = "pictures/" + os.path.basename(name)[:-4] + ".pbm"
        if made.read(picture) != made.run("pbm", "--dots", "300", name):
            yield f"{name}: another picture"


def wrong_picture(made, name, plot):
    """What is wrong if the picture has not the pixels of the one in docs/, or the plot is not what its script writes."""
    if made.pixmap(f"{name}.png") != made.pixmap(os.path.join(TOP, "docs", f"{name}.png")):
        yield f"docs/{name}.png is another picture"
    if f"]({name}.png)" not in read("docs", "GALLERY.md"):
        yield f"{name}.png is not shown"
    script = os.path.join(TOP, "examples", f"{plot}.py")
    if os.path.exists(script):
        written = subprocess.run([sys.executable, script], stdout=subprocess.PIPE, check=True, timeout=SECONDS).stdout
        if written != made.read(f"examples/{plot}.plt"):
            yield f"examples/{plot}.py writes another plot"


def stored(made):
    """The picture of a block is the one in docs/."""
    plot, = set(re.findall(r"examples/(\w+)\.plt", made.block))
    yield from wrong_picture(made, re.findall(r"(?:>|-o) (\w+)\.png", made.block)[-1], plot)


def stored_lines(made):
    """The SVG of a block is the one in docs/, and its PDF has the lines of the SVG."""
    if made.read("metro.svg").decode() != read("docs", "metro.svg"):
        yield "metro.svg is another document than docs/metro.svg"
    if lines_of(made, "metro.pdf").sheets != lines_of(made, "metro.svg").sheets:
        yield "metro.pdf has other lines"


def flange_as_dxf(made):
    """The lines and the texts of the flange, in the layers of its pens; the picture by LibreCAD is shown."""
    yield from few_lines(made, "flange.dxf")
    yield from said_of_dxf(made.read("flange.dxf"))
    document = read_dxf(made.read("flange.dxf"))
    if "Flange 80 x 26, bore 28" not in document.texts():
        yield f"the texts {document.texts()}"
    if "](librecad.png)" not in read("docs", "GALLERY.md"):
        yield "librecad.png is not shown"


def stored_each(made):
    """The pictures of a block with a loop over plots are those in docs/."""
    for name in re.search(r"^for name in (.+); do$", made.block, re.M)[1].split():
        yield from wrong_picture(made, name, name)


def centred(made):
    """A page about (0,0): what is drawn there, and not only its quarter."""
    whole = read_bitmap(made.run("pbm", "--left", "5940", "--below", "4200", "plan.plt"))
    given = read_bitmap(made.read("plan.pbm"))
    if given != whole or ink(given) == 0 or (given.columns, given.rows) != tuple(pixels(units, 100) for units in A4):
        yield f"{given.columns} by {given.rows} pixels, {ink(given)} are black"


def notes(made):
    if made.output != "note 0 skipped WU\nnote 5 bad SC\n":
        yield f"printed {made.output!r}"


def eight_marks(made):
    if made.output != "".join(f"4 {column} 1 000000\n" for column in range(8)):
        yield f"printed {made.output!r}"


def box_of_pen_2(made):
    if not made.output.startswith("pen 2 strokes 1 widest 224 box 0 0 1600 3200"):
        yield f"printed {made.output!r}"


GALLERY = {
    "The profile core": [Check(stored_each, PNG)],
    "The profile full": [Check(stored_each, PNG)],
    "Letters": [Check(stored, PNG), Check(stored, PNG)],
    "Plots of other programs": [Check(stored_each, (*PNG, "pnmcat")), Check(stored, (*PNG, "pnmcat")),
                                Check(stored, (*PNG, "pnmcat"))],
    "Core and full side by side": [Check(stored_each, (*PNG, "pnmcat"))],
    "PDF and SVG": [Check(stored_lines)],
    "DXF": [Check(flange_as_dxf, ("ezdxf",))],
    "A chart by gnuplot": [Check(stored, PNG)],
    "A detail at 1200 dots per inch": [Check(stored, (*PNG, "pamcut"))],
    "A chart in both profiles": [Check(stored, (*PNG, "pnmcat"))],
}
DOCUMENT_CHECKS = {
    "docs/GALLERY.md": GALLERY,
    "README.md": {
        "plotraster": [Check(stored, PNG)],
        "Use": [Check(pictures, (*PNG, "pamfile"))],
        "More": [Check(more_pictures, (*PNG, "pamfile"))],
    },
    "man/plotraster.1": {
        "EXAMPLES": [Check(pictures, (*PNG, "pamfile")), Check(pictures, ("pamfile",)), Check(pictures, ("pamfile",)),
                     Check(pictures_of_a_folder, (), PLOTS), Check(pictures, (*PNG, "pamfile")),
                     Check(pictures, ("pamfile",)), Check(pictures),
                     Check(notes, (), {"plan.plt": b"WU1;;SC0,0,0,9;" + plan(*A4)}), Check(turned_pdf), Check(centred, ()),
                     Check(eight_marks)],
    },
}
