"""The outputs, from the words of the command line and the bytes of a plot.

docs/FORMATS.md. Of a PNG, a PDF and an SVG it is what a reader is to find in it, and of a DXF its bytes.
"""

from itertools import islice
from typing import NamedTuple

from . import cutting, full_cutting, full_plotter, messages, plotter, raster
from .carousel import EMPTY
from .command_line import AS_TEXT, DOTS_OF_PCL, EACH, MOST_DOTS, PAGE_OPTIONS, VECTORS, Mistake, request_of
from .dxf import drawing_of
from .dxf_groups import bytes_of
from .fitting import BLANK, LONGEST, LONGEST_OF_CORE, TOO_LARGE, UNIT, fitted, is_off
from .geometry import Page
from .images import Dot
from .labels import groups_of, rows_moved, texts_of
from .plotter import Refused
from .shapes import is_area, is_image
from .turning import Turn
from .vectors import Document, shapes_of, spans_of

ESC = b"\x1b"
WHITE = b"\xff\xff\xff"
# The most columns of a picture in pixels, and the most rows.
MOST_COLUMNS_AND_ROWS = 400_000
# The name of the plot whose pictures are in a folder, without its extension.
PLOT = "plot"


class Answer(NamedTuple):
    """What the program answers. A mistake in usage has a text of its own, which is not compared."""

    status: int
    output: bytes
    error: str


USAGE = Answer(2, b"", "error: ")


def fault(status, text):
    return Answer(status, b"", f"plotraster: {text}\n")


def answer(command, options, plot):
    """What the program answers; the plot may have images."""
    try:
        request = request_of(command, options)
    except Mistake as mistake:
        return fault(2, mistake) if mistake.args else USAGE
    if request.form == "pcl" and request.dots not in DOTS_OF_PCL:
        return fault(2, messages.text("resolution"))
    try:
        shown = shown_by(request, plot)
    except Refused as refusal:
        return fault(refusal.status, refusal)
    if request.form == "report":
        return Answer(0, report(shown.drawing, shown.page), said_of(request, shown, shown.drawing.shapes))
    return pictured(request, shown)


class Drawing(NamedTuple):
    """What is drawn of a plot: the shapes of the sheet asked for, all notes, in full the greatest sheet, whether a sheet
    ends before the plot does, and the lines of all labels."""

    shapes: list
    notes: list
    sheets: int = None
    has_ends: bool = False
    labels: list = ()


def draw(plot, page, sheet, carousel=EMPTY, characters=None):
    """What a plot draws in the profile core, if there is no sheet, or in full; those of all sheets are 0's."""
    if sheet is None:
        return Drawing(*plotter.draw(plot, page, carousel))
    plotted = full_plotter.after(plot, page, carousel, characters=characters)
    shapes = plotted.shapes_drawn()
    sheets = max((shape.sheet for shape in shapes), default=0)
    shapes = [shape for shape in shapes if sheet in (0, EACH, shape.sheet)]
    return Drawing(shapes, plotted.notes, sheets, plotted.sheet > 1, plotted.labels)


class Shown(NamedTuple):
    """A page, what is drawn on it, how finely, by which message it is another page than was asked for, or None, and of how many
    lines of all pens."""

    page: Page
    drawing: Drawing
    dots: int
    smooth: int
    why: str
    lines: int


def shown_by(request, plot):
    """What a request shows of a plot."""
    page, why = request.page, None
    if request.is_page_asked:
        asked = asked_page(plot, request)
        page, why = asked or page, None if asked else "no-size"
    drawing = draw(plot, page, request.sheet, request.carousel, request.characters)
    shapes, lines = drawing.shapes, len(drawing.shapes)
    if request.form != "report":
        shapes = [shape for shape in shapes if shape.pen in request.pens or is_image(shape)]
    if request.margin is not None:
        given = page
        page, shapes, why = fitted(shapes, given, request.margin, longest_in(request))
        by = UNIT * (page.left - given.left), UNIT * (page.below - given.below)
        drawing = drawing._replace(labels=[rows_moved(rows, *by) for rows in drawing.labels])
    if request.form != "report":
        turn = Turn(page, request.rotation)
        page, shapes = turn.page, turn.shapes(shapes)
        drawing = drawing._replace(labels=turn.labels(drawing.labels))
    dots, smooth = request.dots, request.smooth
    if request.pixels:
        dots = dots_of_size(page, request.pixels)
        smooth = min(smooth, MOST_DOTS // dots)
    return Shown(page, drawing._replace(shapes=shapes), dots, smooth, why, lines)


def longest_in(request):
    """The longest side of a page in the profile of a request."""
    return LONGEST_OF_CORE if request.sheet is None else LONGEST


def asked_page(plot, request):
    """The page of the first valid PS, or None; without a width it is as high as the default page."""
    items = cutting.items if request.sheet is None else full_cutting.items
    for item in items(plot):
        if item.code == "PS":
            try:
                numbers = cutting.numbers(plot, item.at + 2)[0]
            except cutting.BadFrom:
                continue
            sides = [cutting.rounded(number, cutting.MILLION) for number in numbers[:2]]
            least, _, height = PAGE_OPTIONS["height"]
            if sides and all(least <= side <= longest_in(request) for side in sides):
                return request.page._replace(width=sides[0], height=(sides[1:] or [height])[0])
    return None


def dots_of_size(page, pixels):
    """The greatest resolution at which the longer side has at most so many pixels, or 1 if there is none."""
    longer = max(page.width, page.height)
    return max((dots for dots in range(1, MOST_DOTS + 1) if max(1, raster.count(longer, dots)) <= pixels), default=1)


def said_of(request, shown, shapes, about=""):
    """What is said of shapes that are shown, beside their picture, with what it is about."""
    said = f"plotraster: {about}{messages.text(shown.why)}\n" if shown.why else ""
    report = "plotraster report" + ("" if request.sheet is None else " --profile full")
    is_blank = shown.why == BLANK or all(is_off(it, shown.page) for it in shapes)
    if request.is_draw and is_blank and shown.why != TOO_LARGE:
        said = "" if request.is_quiet else f"plotraster: {about}{messages.text('blank', report)}\n"
    if request.is_quiet:
        return said
    sheets, notes = shown.drawing.sheets or 0, len(shown.drawing.notes)
    if request.is_draw and not is_blank and (sheets < 2 or request.sheet == 0) and notes > shown.lines:
        lines = "1 line" if shown.lines == 1 else f"{shown.lines} lines"
        said += f"plotraster: {notes} notes on {lines}: see {report}\n"
    if sheets > 1 and not request.is_sheet_named and request.sheet not in (0, EACH) and request.form != "report":
        said += f"plotraster: {messages.text('first-sheet', sheets)}\n"
    return said


def pictured(request, shown):
    """The picture of what is shown, or in a folder those of all sheets."""
    shapes = shown.drawing.shapes
    sheets = [("", shapes)]
    if request.sheet == EACH and shown.drawing.sheets > 1:
        numbers = range(1, shown.drawing.sheets + 1)
        sheets = [(f"sheet {number}: ", [it for it in shapes if it.sheet == number]) for number in numbers]
    refused = refused_for(request, shown)
    if refused:
        return Answer(2, b"", "".join(f"plotraster: {about}{messages.text(refused)}\n" for about, _ in sheets))
    if not request.folder:
        return Answer(0, picture_of(request, shown, shapes), said_of(request, shown, shapes))
    names = file_names(len(sheets), request.form)
    files = {name: picture_of(request, shown, drawn) for name, (_, drawn) in zip(names, sheets)}
    return Answer(0, listed(files), "".join(said_of(request, shown, drawn, about) for about, drawn in sheets))


def refused_for(request, shown):
    """By which message there is no picture on the page that is shown, or None."""
    if request.form in VECTORS:
        return None
    columns, rows = (raster.count(side, shown.dots) for side in (shown.page.width, shown.page.height))
    if max(columns, rows) > MOST_COLUMNS_AND_ROWS:
        return "too-many-pixels"
    if request.first and request.first > rows:
        return "first-row"
    return None


def file_names(count, form):
    """The names of the files of so many sheets."""
    digits = len(str(count))
    return [f"{PLOT}-{sheet:0{digits}}.{form}" for sheet in range(1, count + 1)] if count > 1 else [f"{PLOT}.{form}"]


def listed(files):
    """Files as bytes: of each its name, its length, and what is in it."""
    return b"".join(b"%s %d\n%s\n" % (name.encode(), len(files[name]), files[name]) for name in sorted(files))


def picture_of(request, shown, shapes):
    """The picture of shapes on the page that is shown."""
    if request.form in VECTORS:
        return document_of(request, shown, shapes)
    page, dots, smooth, first = shown.page, shown.dots, shown.smooth, request.first
    if request.form == "png" or smooth > 1:
        rows = islice(smoothed_rows(shapes, page, dots, smooth, request.pens, first), request.most)
        return pixmap(request.form, page, dots, rows, first == 0)
    rows = islice(raster.rows(shapes, page, dots, request.pens, first), request.most)
    is_end = request.most is None or first + request.most >= raster.count(page.height, dots)
    return picture(request.form, page, dots, rows, first == 0, is_end)


def document_of(request, shown, shapes):
    """What a document of shapes on the page that is shown has: in PDF pages, and in SVG groups and in DXF layers if there is more
    than a sheet by itself. Only SVG has images."""
    is_pdf, is_whole = request.form == "pdf", request.sheet == 0
    shapes = [it for it in shapes if request.form == "svg" or not is_image(it)]
    numbers = range(1, max(1, shown.drawing.sheets if is_whole else 1) + 1)
    sheets = [[it for it in shapes if not is_whole or it.sheet == number] for number in numbers]
    are_numbered = is_pdf or is_whole and shown.drawing.has_ends
    page, title = shown.page, f"{PLOT}.plt" if is_pdf and request.folder else None
    if request.form == "dxf":
        labels = shown.drawing.labels if request.labels == AS_TEXT else None
        return bytes_of(drawing_of(page, sheets, labels, are_numbered))
    read = texts_of if is_pdf else groups_of
    labels = [it for number, own in enumerate(sheets, 1) for it in read(number, spans_of(own), shown.drawing.labels)]
    document = Document(page.width, page.height, [shapes_of(it, page) for it in sheets], are_numbered, title, tuple(labels))
    return document.listing()


def smoothed_rows(shapes, page, dots, times, pens, first):
    """The colours of each row from the first on: each is the mean of times by times pixels of the finer picture, beyond
    which all is white."""
    columns, fine_columns = raster.count(page.width, dots), raster.count(page.width, dots * times)
    fine = [colours(*row) for row in raster.rows(shapes, page, dots * times, pens, first * times)]
    wide = 3 * times * columns
    fine = [row[:wide] + WHITE * (times * columns - fine_columns) for row in fine]
    count = raster.count(page.height, dots) - first
    fine += [b"\xff" * wide] * (times * count - len(fine))
    for row in range(count):
        sums = [sum(of_a_channel) for of_a_channel in zip(*fine[times * row:times * (row + 1)])]
        yield bytes(mean(sums[at + channel:at + 3 * times:3], times) for at in range(0, wide, 3 * times) for channel in range(3))


def mean(sums, times):
    """The mean of a pixel's parts, to the nearest number, by their sums in each column."""
    return (2 * sum(sums) + times * times) // (2 * times * times)


def pixmap(form, page, dots, rows, has_header):
    """A pixmap, by the colours of its rows; before that of a PNG is how many pixels a metre has."""
    size = raster.count(page.width, dots), raster.count(page.height, dots)
    header = b"P6\n%d %d\n255\n" % size if has_header else b""
    before = b"%d pixels a metre\n" % ((20000 * dots + 254) // 508) if form == "png" else b""
    return before + header + b"".join(rows)


def picture(form, page, dots, rows, has_header, has_foot):
    """The bytes of a picture, by its rows."""
    header_of, row_of, foot = FORMS[form]
    size = raster.count(page.width, dots), raster.count(page.height, dots)
    return (header_of(dots, *size) if has_header else b"") + b"".join(row_of(*row) for row in rows) + (foot if has_foot else b"")


def commands_before(dots, columns, rows):
    """The header of PCL."""
    return (ESC + b"E" + ESC + b"*t%dR" % dots + ESC + b"*r%dS" % columns + ESC + b"*r%dT" % rows
            + ESC + b"*r0A" + ESC + b"*b0M")


def marks(row, cells):
    """A line for each pixel that shows a shape."""
    return b"".join(
        b"%d %d %d %s\n" % (row, column, shape.pen, bytes(shape.colour).hex().encode())
        for column, shape in enumerate(cells)
        if shape
    )


def bits(_, cells):
    """Eight pixels a byte, the leftmost one in the highest bit."""
    cells = cells + [None] * (-len(cells) % 8)
    return bytes(sum(128 >> i for i in range(8) if is_black(cells[at + i])) for at in range(0, len(cells), 8))


def is_black(cell):
    """Whether a pixel is black: any line is, and a dot of an image is if it is dark."""
    if not cell or not isinstance(cell, Dot):
        return bool(cell)
    red, green, blue = cell.colour
    return 299 * red + 587 * green + 114 * blue < 128_000


def colours(_, cells):
    """Three bytes a pixel; the paper is white."""
    return b"".join(bytes(shape.colour) if shape else b"\xff\xff\xff" for shape in cells)


def transfer(row, cells):
    """A row of PCL: the command that says how many bytes follow, and the row as bits."""
    packed = bits(row, cells)
    return ESC + b"*b%dW" % len(packed) + packed


# Each form: its header by the resolution, the columns and the rows; its rows; and its foot.
FORMS = {
    "marks": (lambda *_: b"", marks, b""),
    "pbm": (lambda dots, *size: b"P4\n%d %d\n" % size, bits, b""),
    "ppm": (lambda dots, *size: b"P6\n%d %d\n255\n" % size, colours, b""),
    "pcl": (commands_before, transfer, ESC + b"*rB" + ESC + b"E"),
}


def report(drawing, page):
    """The lines of a report: the page, in full the sheets, the strokes, and the areas and the images if there are any, of all pens
    and of each pen, each image, and the notes."""
    shapes, notes, sheets, *_ = drawing
    lines = ["page %d %d %d %d" % page]
    lines += [] if sheets is None else [f"sheets {sheets}"]
    lines.append(f"strokes {len(strokes_in(shapes))}")
    lines += [f"areas {len(areas_in(shapes))}"] if areas_in(shapes) else []
    lines += [f"images {len(images_in(shapes))}"] if images_in(shapes) else []
    for pen in sorted({shape.pen for shape in shapes}):
        own = [shape for shape in shapes if shape.pen == pen]
        lines += [f"pen {pen} {of_own}" for of_own in (*of_strokes(strokes_in(own)), *of_areas(areas_in(own)))]
    lines += [of_image(image) for image in images_in(shapes)]
    lines += [f"note {note.at} {note.kind} {note.has}" for note in notes]
    return "".join(line + "\n" for line in lines).encode()


def strokes_in(shapes):
    return [shape for shape in shapes if not is_area(shape) and not is_image(shape)]


def areas_in(shapes):
    return [shape for shape in shapes if is_area(shape)]


def images_in(shapes):
    return [shape for shape in shapes if is_image(shape)]


def of_image(image):
    """What a report says of an image: its columns, its rows, its resolution and its box."""
    return f"image {image.width} {len(image.rows)} {image.per_inch} {box_of([image.corner, image.far_corner()])}"


def of_strokes(strokes):
    """What a report says of the strokes of a pen, if it has any."""
    if strokes:
        ends = [end for stroke in strokes for end in (stroke.a, stroke.b)]
        yield f"strokes {len(strokes)} widest {max(stroke.width for stroke in strokes)} {box_of(ends)}"


def of_areas(areas):
    """What a report says of the areas of a pen, if it has any."""
    if areas:
        edges = [edge for area in areas for edge in area.edges]
        yield f"areas {len(areas)} edges {len(edges)} {box_of([end for edge in edges for end in edge])}"


def box_of(places):
    """The box around places."""
    x, y = zip(*places)
    return f"box {min(x)} {min(y)} {max(x)} {max(y)}"
