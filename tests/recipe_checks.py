"""What the recipes must have made: sample plots, readers of pictures, and CHECKS of docs/RECIPES.md for tests/test_documents.py."""

import collections
import functools
import gzip
import os
import re
import resource
import signal
import struct
import subprocess

from cad_readers import said_of_dxf
from reference import messages
from reference.dxf_groups import read_dxf
from reference.pdf import read_pdf
from reference.svg import read_svg
from shared import ink, pixels, read_bitmap, write
from test_printer import bitmap_of

SECONDS = 300
A4, A4_PORTRAIT, A0 = (11880, 8400), (8400, 11880), (47560, 33640)


# Sample plots.

def plan(width, height):
    """A plot for a page of this size: a frame, crossing lines, a circle and a label, by five pens."""
    right, top = width - 400, height - 400
    return (f"IN;SP1;PW0.5,1;PU400,400;PD{right},400,{right},{top},400,{top},400,400;PU;"
            f"SP2;PU400,400;PD{right},{top};PU;SP3;PU{right},400;PD400,{top};PU;"
            f"SP5;PW1.2,5;PU{width // 2},{height // 2};CI{height // 4},3;"
            f"SP8;SI0.5,0.8;PU1000,1000;LBplan of {width}\x03SP0;").encode()


CENTRED = b"SP1;PU-3000,0;PD3000,0;PU0,-2000;PD0,2000;PU0,0;CI1500;"
OFF_RANGE = b"IN;PU0,0;PD8388607.9,0;"
NO_PLOT = b"%!\n1 2 3\n"
ARCHIVE = {
    "plots/first.plt": plan(*A4),
    "plots/with blanks, and a comma.plt": b"PU100,100;PD5000,4000;",
    "plots/a folder/it's \"quoted\".plt": b"SP2;PU100,100;PD3000,100;",
    "plots/a folder/first.plt": b"SP3;PU100,100;PD100,3000;",
    "plots/off range.plt": OFF_RANGE,
    "plots/a folder/-off\\new.plt": b"PD0,0," + b"1,1," * 9 + b"0,8388607.9;",
    "plots/no plot.plt": NO_PLOT,
}
REFUSED = {
    "plots/off range.plt": f"plotraster: {messages.text('off-range', 9)}",
    "plots/a folder/-off\\new.plt": f"plotraster: {messages.text('off-range', 0)}",
}


def samples():
    return {"plan.plt": plan(*A4), "portrait.plt": plan(*A4_PORTRAIT), "centred.plt": CENTRED}


# Pictures.

class Made:
    """What a block made: its folder, its standard output, and the words and data of each job that it printed."""

    def __init__(self, program, top, section, block, output):
        self.program, self.section, self.block, self.output = program, section, block, output
        self.folder, self.commands = os.path.join(top, "work"), os.path.join(top, "commands")
        printed = os.path.join(top, "printed")
        self.printed = [(self.read(os.path.join(printed, job, "words")).decode().strip(),
                         self.read(os.path.join(printed, job, "data")))
                        for job in sorted(os.listdir(printed), key=int)]

    def path(self, name):
        """A file of the block's folder, or one named in full."""
        return os.path.join(self.folder, name)

    def read(self, name):
        with open(self.path(name), "rb") as file:
            return file.read()

    def lines(self, name):
        return self.read(name).decode().splitlines()

    def files(self, suffix):
        """All files with this suffix, by their names from the folder on."""
        found = (os.path.relpath(os.path.join(at, name), self.folder)
                 for at, _, names in os.walk(self.folder) for name in names)
        return {name for name in found if name.endswith(suffix) and not name.startswith("examples/")}

    def run(self, *words, plot=None):
        """What the program writes, for a plot on standard input if one is given."""
        return subprocess.run([self.program, *words], input=plot, cwd=self.folder, stdout=subprocess.PIPE,
                              check=True, timeout=SECONDS).stdout

    def of_png(self, name):
        """A PNG file as Netpbm reads it."""
        return netpbm(["pngtopam", self.path(name)], None)

    def pixmap(self, name):
        """The same as a pixmap, also if all its colours are grey."""
        return netpbm(["ppmtoppm"], self.of_png(name))


def netpbm(command, data, errors=False):
    """What a command writes to standard output, or to standard error."""
    ran = subprocess.run(command, input=data, capture_output=True, check=True, timeout=SECONDS)
    return ran.stderr if errors else ran.stdout


# What the blocks must have made. Each check gives what is wrong, a line each.

# The frame of the plan, with half of its width of 20 units and a margin of 200 units on each side.
DRAWN = tuple(units - 2 * 400 + 2 * (10 + 200) for units in A4)


def wrong_smoothed(made, name, *words):
    """What is wrong with a smoothed picture of all that the plan draws, with a margin of 5 mm."""
    values = set(made.of_png(name).split(b"\n", 3)[3])
    if 255 not in values or len(values) < 10:
        yield f"not smoothed: {len(values)} values"
    whole = ["--width", str(DRAWN[0]), "--height", str(DRAWN[1])]
    corner = b"IP0,0,4000,4000;SC190,4190,190,4190;"
    if made.pixmap(name) != made.run("ppm", "--profile", "full", *whole, *words, plot=plan(*A4).replace(b"IN;", b"IN;" + corner)):
        yield "another picture"


def drawn_png(made):
    yield from wrong_smoothed(made, "plan.png", "--dots", "150", "--smooth", "4")


def preview(made):
    """At 35 dots per inch the longer side has 396 pixels, and at 36 it would have 407."""
    size = tuple(map(int, made.of_png("preview.png").split(b"\n", 3)[1].split()))
    if size != (396, 276):
        yield f"{size[0]} by {size[1]} pixels"
    yield from wrong_smoothed(made, "preview.png", "--dots", "35", "--smooth", "8")


def black_png(made):
    if made.of_png("plan.png") != made.run("pbm", "--dots", "300", "plan.plt"):
        yield "another bitmap"
    data = made.read("plan.png")
    at = data.index(b"pHYs")
    across, upward, unit = struct.unpack(">IIB", data[at + 4:at + 13])
    if (across, upward, unit) != (round(300 / 0.0254), round(300 / 0.0254), 1):
        yield f"{across} by {upward} pixels a unit {unit}"


def lines_of(made, name):
    """What a document of lines shows."""
    data = made.read(name)
    return read_pdf(data).document if name.endswith(".pdf") else read_svg(data)


# What `draw` does to the lines of a plot, in words of the other commands.
AS_DRAW = ("--profile", "full", "--page", "plot", "--fit", "--margin", "5")


def drawn_pdf(made):
    """All lines, on the page around them: a frame, two lines, a circle of 120 parts and a label."""
    found = read_pdf(made.read("plan.pdf"))
    if made.read("plan.pdf") != made.run("pdf", *AS_DRAW, "--sheet", "0", "plan.plt"):
        yield "another document"
    if (found.document.width, found.document.height) != DRAWN:
        yield f"a page of {found.document.width} by {found.document.height} units"
    if found.layers != [1, 2, 3, 5, 8] or found.document.title != "plan.plt" or len(found.document.sheets) != 1:
        yield f"the layers {found.layers} in {found.document.title}"


def printed_pdf(made):
    yield from drawn_pdf(made)
    if made.printed != [("lp -o media=A4 -o fit-to-page plan.pdf", b"")]:
        yield f"printed {made.printed}"


def numbered(program, folder, _):
    """Draws two plots, each with another number in its label."""
    for name, number in (("bracket", "4711"), ("shaft", "4712")):
        subprocess.run([program, "draw", "--quiet", "-o", f"{name}.pdf"], input=f"PU400,400;LBno. {number}\x03".encode(),
                       cwd=folder, check=True, timeout=SECONDS)
    return []


def found(made):
    """The drawing that has the number."""
    if made.output != "bracket.pdf\n":
        yield f"printed {made.output!r}"


def printed_plot(made):
    """The plot itself is given to CUPS; tests/test_cups.py calls the filter."""
    if made.printed != [("lp plan.plt", b"")]:
        yield f"printed {made.printed}"


def turned_pdf(made):
    """All lines and the text, turned by a quarter."""
    found, upright = lines_of(made, "plan.pdf"), read_pdf(made.run("draw", "--form", "pdf", "plan.plt")).document
    if (found.width, found.height) != DRAWN[::-1] or found.texts() != upright.texts():
        yield f"a page of {found.width} by {found.height} units with {found.texts()}"
    turned = [[(16 * upright.height - y, x) for x, y in (line.a, line.b)] for line in upright.sheets[0]]
    if [[line.a, line.b] for line in found.sheets[0]] != turned:
        yield "other lines"


def pen_as_svg(made):
    """The frame alone."""
    lines, = lines_of(made, "plan.svg").sheets
    if [line.pen for line in lines] != [1] * 4 or {line.width for line in lines} != {320}:
        yield f"{lines}"
    if made.read("plan.svg") != made.run("svg", *AS_DRAW, "--pens", "1", "plan.plt"):
        yield "another document"


def plan_as_dxf(made):
    """The frame and the circle, each as one line of several parts, two lines, and the label as a text, in five layers."""
    data = made.read("plan.dxf")
    document = read_dxf(data)
    yield from said_of_dxf(data)
    if data != made.run("dxf", *AS_DRAW, "plan.plt"):
        yield "another document"
    if document[:2] != DRAWN or document.texts() != [f"plan of {A4[0]}"]:
        yield f"a page of {document.width} by {document.height} units with {document.texts()}"
    parts = [(it.layer.pen, len(it.places)) for it in document.without_texts().entities]
    if parts != [(1, 5), (2, 2), (3, 2), (5, 121)]:
        yield f"lines of {parts} places"


def cut_as_dxf(made):
    """The same without texts, in which the letters of the label are lines of its pen."""
    data, whole = made.read("cut.dxf"), read_dxf(made.run("draw", "--form", "dxf", "plan.plt"))
    document = read_dxf(data)
    yield from said_of_dxf(data)
    if data != made.run("dxf", *AS_DRAW, "--labels", "strokes", "plan.plt"):
        yield "another document"
    if document != document.without_texts() or document[:3] != whole[:3]:
        yield f"a page of {document.width} by {document.height} units with {document.texts()}"
    others = [it for it in document.entities if it.layer.pen != 8]
    if others != whole.without_texts().entities or len(document.entities) < len(others) + 8:
        yield f"{len(document.entities)} lines, of which {len(others)} are no letters'"


def tiff(made):
    if netpbm(["tifftopnm", made.path("plan.tiff")], None) != made.run("pbm", "--dots", "400", "plan.plt"):
        yield "another bitmap"
    about = netpbm(["tifftopnm", "-headerdump", made.path("plan.tiff")], None, errors=True)
    if b"Resolution: 400, 400 pixels/inch" not in about or b"CCITT Group 4" not in about:
        yield f"{about!r}"


def recoloured(made):
    """The picture is that of a plot that sets these pens itself."""
    settings = b"PC3,0,0,0;PC5,0,0,0;PC2,0,90,180;PW0.5;PW0.7,2;"
    plot = plan(*A4).replace(b"PW0.5,1;", b"").replace(b"PW1.2,5;", b"").replace(b"IN;", b"IN;" + settings)
    if made.read("plan.png") != made.run("draw", plot=plot):
        yield "another picture"
    if b"\x00\x5a\xb4" not in made.pixmap("plan.png"):
        yield "nothing has the new colour"


SHEETS = b"SP2;PU0,0;PD3000,0;PG;SP3;PD3000,2000;"


def apart(made):
    wanted = {"plan.png": made.run("draw", "plan.plt")}
    for sheet in (1, 2):
        alone = made.run("draw", "--form", "png", "--sheet", str(sheet), "--width", "3414", "--height", "2414",
                         "--left", "207", "--below", "207", "sheets.plt")
        wanted[f"sheets-{sheet}.png"] = alone
    if made.files(".png") != {f"sheets/{name}" for name in wanted}:
        yield f"made {sorted(made.files('.png'))}"
    for name, picture in wanted.items():
        if made.read(f"sheets/{name}") != picture:
            yield f"{name}: another picture"


def postscript(made):
    (words, data), = made.printed
    text = data.decode()
    whole = read_bitmap(made.run("pbm", "--dots", "300", "plan.plt"))
    if words != "lpr" or not text.startswith("%!PS-Adobe"):
        yield f"{words}: {text[:20]!r}"
    if "\n%%BoundingBox: 0 0 595 841\n" not in text or "90 rotate" not in text:
        yield "not on A4 in portrait"
    scale = tuple(map(float, re.search(r"^([0-9.]+) ([0-9.]+) scale$", text, re.M).groups()))
    true = whole.rows / 300 * 72, whole.columns / 300 * 72
    if any(abs(given - wanted) > 0.01 for given, wanted in zip(scale, true)):
        yield f"{scale} points instead of {true}"
    shown = bytes.fromhex(re.search(r"\nimage\n((?:[0-9a-f]+\n)+)", text).group(1))
    # White is 1, and unused bits are 0.
    black = 8 * len(shown) - bin(int.from_bytes(shown, "big")).count("1") - whole.rows * (-whole.columns % 8)
    if black != ink(whole):
        yield f"{black} black pixels instead of {ink(whole)}"


def of_pbmtolj(data, columns):
    """The PBM that pbmtolj made a picture in PCL of: it writes each row up to its last byte that is not 0."""
    head, foot = b"\x1bE\x1b&l0E\x1b*t300R\x1b*r1A", b"\x1b*rB\x1bE"
    if not data.startswith(head) or not data.endswith(foot):
        raise ValueError(f"{data[:20]!r} .. {data[-6:]!r}")
    rows, at, wide = [], len(head), (columns + 7) // 8
    while at < len(data) - len(foot):
        found = re.compile(rb"(?:\x1b\*b0M)?\x1b\*b([0-9]+)W").match(data, at)
        at = found.end() + int(found.group(1))
        rows.append(data[found.end():at].ljust(wide, b"\0"))
    return b"P4\n%d %d\n" % (columns, len(rows)) + b"".join(rows)


def pcl(made):
    if [words for words, _ in made.printed] != ["lp -o raw"] * 3:
        yield f"printed by {[words for words, _ in made.printed]}"
    (_, upright), (_, turned), (_, by_netpbm) = made.printed
    columns, rows, data = bitmap_of(upright)
    wanted = made.run("pbm", "--width", "8400", "--height", "11880", "--dots", "300", "portrait.plt")
    if b"P4\n%d %d\n" % (columns, rows) + data != wanted or columns != pixels(8400, 300):
        yield "another bitmap in portrait"
    columns, rows, data = bitmap_of(turned)
    wanted = made.run("pbm", "--rotate", "90", "--dots", "300", "plan.plt")
    if b"P4\n%d %d\n" % (columns, rows) + data != wanted or columns != pixels(8400, 300):
        yield "another bitmap in landscape"
    if of_pbmtolj(by_netpbm, columns) != wanted:
        yield "another bitmap by Netpbm"


def fitted_page(made):
    fitted = ("--profile", "full", "--fit", "--margin", "5", "--dots", "150", "--smooth", "4")
    if made.pixmap("centred.png") != made.run("ppm", *fitted, "examples/centred.plt"):
        yield "another picture"


def archive(made):
    drawn = set(ARCHIVE) - set(REFUSED)
    if made.files(".png") != {name[:-4] + ".png" for name in drawn} or made.files(".pbm"):
        yield f"made {sorted(made.files('.png') | made.files('.pbm'))}"
    for name in drawn:
        if made.read(name[:-4] + ".png") != made.run("draw", "--", name):
            yield f"{name}: another picture"
    wanted = sorted(f"{name}: {why}" for name, why in REFUSED.items())
    if sorted(made.lines("refused.txt")) != wanted:
        yield f"refused.txt has {made.lines('refused.txt')}"


def archive_in_one_run(made):
    names = {name[6:-4]: name for name in ARCHIVE if name.count("/") == 1}
    drawn = {name for name in names if names[name] not in REFUSED}
    if made.files(".png") != {f"pictures/{name}.png" for name in drawn} or made.files(".part"):
        yield f"made {made.files('.png')} and {made.files('.part')}"
    for name in drawn:
        if made.read(f"pictures/{name}.png") != made.run("draw", "--", names[name]):
            yield f"{name}: another picture"
    wanted = [f"plotraster: {name}: {REFUSED[name].removeprefix('plotraster: ')}" for name in names.values() if name in REFUSED]
    if made.lines("refused.txt") != wanted:
        yield f"refused.txt has {made.lines('refused.txt')}"


def blank_plots(made):
    if made.lines("empty.txt") != ["plots/no plot.plt"]:
        yield f"empty.txt has {made.lines('empty.txt')}"


def archive_by_parallel(made):
    for name in set(ARCHIVE) - set(REFUSED):
        if made.read(name[:-4] + ".pbm") != made.run("pbm", "--dots", "300", name):
            yield f"{name}: another picture"
    if len(made.files(".pbm")) != len(ARCHIVE) - len(REFUSED) or made.files(".part"):
        yield f"made {made.files('.pbm')} and {made.files('.part')}"
    wanted = sorted(f"{name}\t{why}" for name, why in REFUSED.items())
    if sorted(made.lines("refused.txt")) != wanted:
        yield f"refused.txt has {made.lines('refused.txt')}"


def archive_by_machines(made):
    yield from archive_by_parallel(made)
    jobs = made.lines("jobs.txt")
    failed = [job for job in jobs[1:] if job.split("\t")[6] != "0"]
    if (len(jobs), len(failed)) != (1 + len(ARCHIVE), len(REFUSED)):
        yield f"jobs.txt has {jobs}"
    yield from resumed(made, jobs)


def resumed(made, jobs):
    """The same commands again, as if the run had been stopped before one job ended: they do that job, and no other."""
    picture, other = "plots/first.pbm", "plots/a folder/first.pbm"
    os.remove(made.path(picture))
    write(made.path(other), b"done before")
    finished = [job for job in jobs if " plots/first.plt " not in job]
    write(made.path("jobs.txt"), "".join(f"{job}\n" for job in finished).encode())
    path = f"{made.commands}:{os.environ['PATH']}"
    subprocess.run(["bash", "-c", made.block], cwd=made.folder, env=dict(os.environ, PATH=path), check=True, timeout=SECONDS)
    if len(finished) != len(jobs) - 1 or len(made.lines("jobs.txt")) != len(jobs):
        yield f"jobs.txt has {made.lines('jobs.txt')}"
    if made.read(other) != b"done before" or len(made.lines("refused.txt")) != len(REFUSED):
        yield "a finished job was done again"
    if made.read(picture) != made.run("pbm", "--dots", "300", "plots/first.plt"):
        yield "another picture of the missing job"


def parts(made):
    page = ["--page", "a0", "--dots", "600"]
    if made.read("plan.pbm") != made.run("pbm", *page, "plan.plt"):
        yield "the joined picture is not the whole one"
    if made.output or any(name.startswith("strip.") for name in os.listdir(made.folder)):
        yield f"left {os.listdir(made.folder)}, and said {made.output!r}"


def pens(made):
    whole = read_bitmap(made.run("pbm", "--dots", "300", "plan.plt"))
    if made.files(".pbm") != {f"plan.{pen}.pbm" for pen in (1, 2, 3, 5, 8)}:
        yield f"made {made.files('.pbm')}"
    for pen in (1, 2, 3, 5, 8):
        others = re.compile(rb"SP(?!%d;)\d+;" % pen)
        alone = others.sub(b"SP0;", plan(*A4))
        if made.read(f"plan.{pen}.pbm") != made.run("pbm", "--dots", "300", plot=alone):
            yield f"pen {pen}: another picture"
    each = [read_bitmap(made.read(name)) for name in made.files(".pbm")]
    together = [functools.reduce(int.__or__, lines) for lines in zip(*(bitmap.lines for bitmap in each))]
    if together != whole.lines or sum(map(ink, each)) <= ink(whole):
        yield "the pens' pictures are not the whole one"


def cut_off(program, folder, words, name, room):
    """Writes a picture to a disk that has room for so many bytes, and gives the message."""
    def limit():
        signal.signal(signal.SIGXFSZ, signal.SIG_IGN)
        resource.setrlimit(resource.RLIMIT_FSIZE, (room, room))
    with open(os.path.join(folder, name), "wb") as to:
        ran = subprocess.run([program, *words, "plan.plt"], cwd=folder, stdout=to, stderr=subprocess.PIPE,
                             text=True, preexec_fn=limit, timeout=SECONDS)
    return ran.stderr


def failed_write(program, folder, section):
    """Fills the disk as the recipe says, and compares the message."""
    command, message = section["text"][0].splitlines()
    words = re.fullmatch(r"\$ plotraster (.+) plan\.plt > plan\.pbm", command).group(1).split()
    os.mkdir(os.path.join(folder, "large"))
    room = int(message.split()[-1]) + 100
    said = cut_off(program, folder, words, "plan.pbm", room)
    return [] if said == message + "\n" else [f"the message is {said!r}"]


def continued(made):
    if made.read("large/plan.pbm") != made.run("pbm", "--dots", "300", "plan.plt"):
        yield "the continued picture is not the whole one"
    for form, room in (("ppm", 1000000), ("pcl", 100000), ("marks", 123456), ("pcl", 10)):
        whole = made.run(form, "plan.plt")
        said = cut_off(made.program, made.folder, [form], "cut", room)
        row, good = re.fullmatch(messages.said("broken-off", r"(\d+)", r"(\d+)").decode(),
                                 said).groups()
        if made.read("cut")[:int(good)] + made.run(form, "--from", row, "plan.plt") != whole:
            yield f"{form}: the continued picture is not the whole one"


# A plot and a page for each row of the table of causes, what the report has, and the remedy that is run.
CAUSES = [
    (b"IN;SP0;PU100,100;PD5000,5000;", r"strokes 0\n\Z", "sed"),
    (b"%PDF-1.4\n1 0 obj\n<< /Type /Catalog >>\n" * 9, r"strokes 1\n.*\n(note \d+ (stray|skipped) \S+\n){9}", "head"),
    (gzip.compress(b"IN;SP1;PU100,100;PD5000,5000;", mtime=0), r"note 0 stray 31\nnote 1 stray 139\n", "zcat"),
    ("IN;SP1;PU100,100;PD5000,5000;".encode("utf-16"), r"(note \d+ stray 0\n(note \d+ stray [1-9]\d*\n)?){9}", "iconv"),
    (b'Valve of 3" pipe\r\nIN;PU100,100;PD5000,5000;', r"strokes 0\nnote 0 .+\n", "sed"),
    (b"PU-9000,-9000;PD-100,-100;", r"box -144000 -144000 -1600 -1600\n\Z", "--fit"),
    (b"PU20000,20000;PD30000,30000;", r"box 320000 320000 480000 480000\n\Z", "--fit"),
    (b"IN;SC0,0,0,9;PA1,1;PD5,5;", r"box 16 16 80 80\nnote 3 bad SC\n\Z", "tail"),
    (b"IW90000,90000,90001,90001;PD5000,5000;", r"box 0 0 80000 80000\n\Z", "sed"),
    (b"PC1,255,255,255;PD5000,5000;", r"box 0 0 80000 80000\n\Z", "pbm"),
    (b"LBa text;PU0,0;PD5000,5000;", r"note 0 open LB\n\Z", None),
    (b"RA5000,5000;", r"strokes 0\nnote 0 skipped RA\n\Z", None),
]


def remedied(made, cell, remedy, note):
    """What a row's remedy gives: a picture, or the text that it shows."""
    command = next((span for span in re.findall(r"`([^`]+)`", cell) if span.startswith(remedy)), "")
    run = functools.partial(subprocess.run, cwd=made.folder, capture_output=True, check=True, timeout=SECONDS)
    if remedy == "--fit":
        return made.run("pbm", "--fit", "plan.plt")
    if remedy == "pbm":
        return made.run("pbm", "plan.plt")
    shown = run(["bash", "-c", command.replace("\\|", "|")], env=dict(os.environ, AT=note)).stdout
    return made.run("pbm", plot=shown) if remedy in ("sed", "zcat", "iconv") else shown


def is_blank(made, *words):
    """Is a picture of plan.plt white?"""
    data = made.run(*words, "plan.plt")
    if words[0] == "ppm":
        return not data.split(b"\n", 3)[3].strip(b"\xff")
    return ink(read_bitmap(data)) == 0


def causes(made):
    if not re.match(r"page 11880 8400 0 0\nstrokes [1-9]\d*\npen 1 ", made.output):
        yield f"the report is {made.output!r}"
    rows = [row for row in made.section["rows"] if row[0] != "The report"]
    if len(rows) != len(CAUSES):
        yield f"{len(rows)} rows instead of {len(CAUSES)}"
    for row, (plot, has, remedy) in zip(rows, CAUSES):
        write(made.path("plan.plt"), plot)
        report = made.run("report", "plan.plt").decode()
        if not re.search(has, report):
            yield f"{row[1]}: the report is {report!r}"
        form = "ppm" if remedy == "pbm" else "pbm"
        if not re.match("few strokes|all boxes small|`note AT open", row[0]) and not is_blank(made, form):
            yield f"{row[1]}: the picture is not empty"
        note = re.search(r"note (\d+)", report)
        gives = remedied(made, row[2], remedy, note.group(1) if note else "") if remedy else b""
        wanted = {"head": plot.startswith(gives) and gives, "tail": gives.startswith(b"SC0,0,0,9;")}
        if remedy and not wanted.get(remedy, gives.startswith(b"P4") and ink(read_bitmap(gives))):
            yield f"{row[1]}: the remedy gives {gives[:60]!r}"


def units_of(size):
    """The width and the height in plotter units of a size such as `297 by 210 mm`."""
    sides = re.fullmatch(r"([0-9.]+) by ([0-9.]+) (mm|in)", size)
    return [round(float(side) * {"mm": 40, "in": 1016}[sides[3]]) for side in (sides[1], sides[2])]


def sizes(made):
    bitmap = read_bitmap(made.read("plan.pbm"))
    if (bitmap.columns, bitmap.rows) != (pixels(A0[1], 200), pixels(A0[0], 200)):
        yield f"{bitmap.columns} by {bitmap.rows} pixels"
    rows = [row for row in made.section["rows"] if row[0] != "`--page`"]
    if len(rows) != 17:
        yield f"{len(rows)} papers"
    for name, size in rows:
        width, height = units_of(size)
        if made.run("report", "--page", name.strip("`"), plot=b"") != f"page {width} {height} 0 0\nstrokes 0\n".encode():
            yield f"{name}: another page than {width} by {height}"


# `made` gives what is wrong with what a block made, `needs` are commands, `plots` are files that the block needs
# beside the usual samples, and `prepare` goes before the block.
Check = collections.namedtuple("Check", "made needs plots prepare", defaults=((), {}, None))
PNG = ("pnmtopng", "pngtopam")
CHECKS = {
    "docs/RECIPES.md": {
        "PNG, in colour": [Check(drawn_png, PNG), Check(preview, PNG)],
        "PNG, black and white": [Check(black_png, PNG)],
        "PDF and SVG": [Check(drawn_pdf), Check(found, ("pdfgrep",), {}, numbered), Check(pen_as_svg)],
        "A plot back into CAD": [Check(plan_as_dxf, ("ezdxf",)), Check(cut_as_dxf, ("ezdxf",))],
        "A large plot on small paper": [Check(printed_pdf)],
        "Plots by CUPS": [Check(printed_plot)],
        "TIFF, true to size": [Check(tiff, ("pamtotiff", "tifftopnm"))],
        "A PostScript printer, true to size": [Check(postscript, ("pnmtops",))],
        "A PCL printer": [Check(pcl, ("pbmtolj",))],
        "A page that fits the drawing": [Check(fitted_page, PNG)],
        "A plot that lies on its side": [Check(turned_pdf)],
        "Other colours and widths": [Check(recoloured, PNG)],
        "The sheets of a plot": [Check(apart, (), {"sheets.plt": SHEETS})],
        "An archive of plots": [Check(archive_in_one_run, (), ARCHIVE), Check(archive, (), ARCHIVE),
                                Check(blank_plots, (), ARCHIVE)],
        "Several machines": [Check(archive_by_machines, ("parallel",), ARCHIVE)],
        "A large page in parts": [Check(parts, ("parallel",), {"plan.plt": plan(*A0)})],
        "A picture for each pen": [Check(pens)],
        "Resume after a failed write": [Check(continued, (), {}, failed_write)],
        "An empty picture": [Check(causes)],
        "Page sizes": [Check(sizes)],
    },
}
