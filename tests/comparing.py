"""The built program beside tests/reference, a plain plotter: do they answer a case alike?

Standard output, status and standard error must be the same; of a PNG, a PDF and an SVG what tests/reference reads in it, and of
a DXF its bytes but for the last digits of angles. Of a mistake in usage only the status and the beginning of the text are
compared. The longest plot and the most strokes take the reference too long; tests/cases has them.
"""

import os
import subprocess
import tempfile

from reference.dxf_groups import near
from reference.outputs import PLOT, USAGE, Answer, answer, listed
from reference.pdf import read_pdf
from reference.png import read_png
from reference.reading import Wrong
from reference.svg import read_svg

TIMEOUT = 20


def words_of(case):
    """The words of the command line. A value may begin with a minus sign, so it follows an equals sign. None is no value.
    With an output, which is a folder, the plot is a file, else standard input."""
    words = [case.form] + [f"--{name}" + ("" if value is None else f"={value}") for name, value in case.options.items()]
    return [*words, f"{PLOT}.plt"] if "output" in case.options else words


def answer_of(program, case):
    """What the program answers; the files of a folder are listed as the reference lists them."""
    with tempfile.TemporaryDirectory() as top:
        folder = os.path.join(top, case.options.get("output", "."))
        os.makedirs(folder, exist_ok=True)
        if "output" in case.options:
            with open(os.path.join(top, f"{PLOT}.plt"), "wb") as file:
                file.write(case.plot)
        try:
            ran = subprocess.run([program, *words_of(case)], input=case.plot, capture_output=True, timeout=TIMEOUT, cwd=top)
        except subprocess.TimeoutExpired:
            return Answer(-1, b"", f"no end after {TIMEOUT} seconds")
        output = ran.stdout if "output" in case.options else shown(ran.stdout, case)
        if "output" in case.options:
            output += listed({name: shown(read(folder, name), case) for name in os.listdir(folder)})
    return Answer(ran.returncode, output, ran.stderr.decode(errors="replace"))


def read(folder, name):
    with open(os.path.join(folder, name), "rb") as file:
        return file.read()


def listing_of_png(data):
    """How many pixels a metre has, and a pixmap."""
    picture = read_png(data)
    return b"%d pixels a metre\n" % picture.per_metre + picture.ppm()


# What the reference has of a document, by its form.
LISTINGS = {
    "png": listing_of_png, "pdf": lambda data: read_pdf(data).document.listing(), "svg": lambda data: read_svg(data).listing(),
}


def shown(data, case):
    """An output as the reference has it, or why it is no such document."""
    form = case.options.get("form", "png").lower() if case.form == "draw" else case.form
    if form not in LISTINGS or not data:
        return data
    try:
        return LISTINGS[form](data)
    except Wrong as wrong:
        return f"no {form}: {wrong}".encode()


def answers(program, case):
    """What the program and the reference answer, and whether they agree."""
    got = answer_of(program, case)
    try:
        wanted = answer(*case)
    except Exception as mistake:
        wanted = Answer(-1, b"", f"the reference fails: {mistake!r}")
    if case.form == "dxf" or case.options.get("form", "").lower() == "dxf":
        got = got._replace(output=near(got.output, wanted.output))
    if wanted is USAGE:
        return got, wanted, got[:2] == wanted[:2] and got.error.startswith(wanted.error)
    return got, wanted, got == wanted


def differs(program, case):
    return not answers(program, case)[2]


def smaller(program, case):
    """A case that differs too, with as little as can be left out."""
    # A picture of the usual page takes the reference too long.
    needed = () if case.form == "report" else ("width", "height", "dots", "size", "smooth")
    for name in case.options:
        fewer = case._replace(options={other: case.options[other] for other in case.options if other != name})
        if name not in needed and differs(program, fewer):
            case = fewer
    size = max(1, len(case.plot) // 2)
    while size:
        at, is_shorter = 0, False
        while at < len(case.plot):
            rest = case._replace(plot=case.plot[:at] + case.plot[at + size:])
            if differs(program, rest):
                case, is_shorter = rest, True
            else:
                at += size
        size = size if is_shorter and size == 1 else size // 2
    return case


def difference(name, program, case):
    """A text on a case that differs, made smaller."""
    case = smaller(program, case)
    got, wanted, _ = answers(program, case)
    lines = [f"{name}: plotraster {' '.join(words_of(case))}", f"    plot       {case.plot!r}"]
    for by, answered in (("program", got), ("reference", wanted)):
        lines.append(f"    {by:10} status {answered.status}, {len(answered.output)} bytes: {answered.output[:300]!r}")
        if answered.error:
            lines.append(f"    {'':10} {answered.error.splitlines()[0]!r}")
    return "\n".join(lines)
