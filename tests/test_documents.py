"""Runs the commands of README.md, docs/ and the manual page, and looks at what they made.

Each `sh` block, and each example of the manual page, runs by bash, with -e and pipefail, in a folder of its
own that has sample plots under the names of the recipes and a copy of examples/. `plotraster` is PROGRAM; `lp`
and `lpr` keep what they get. CHECKS of tests/recipe_checks.py and DOCUMENT_CHECKS of tests/document_checks.py
say what each block must have made. A block without a check fails, and so does a check without a block. A block
that needs a missing command fails, or is skipped. A `text` block that shows a terminal must show what its commands print,
and a command within a sentence must run. NOT_RUN of tests/document_checks.py has the commands that are left out. Files
that a document names must be there.
"""

import glob
import itertools
import os
import re
import shutil
import subprocess
import tempfile

import pytest

from document_checks import DOCUMENT_CHECKS, box_of_pen_2, commands_in_sentences, eight_marks, is_not_run, leaves_out
from document_checks import missing_files, pictures, transcript
from recipe_checks import CHECKS, PNG, SECONDS, Check, Made, samples
from reference.command_line import DOCUMENTS
from reference.outputs import FORMS
from shared import TOP, assert_nothing, need, read, write

STUB = """#!/bin/sh
job=$PRINTED/$(ls "$PRINTED" | wc -l)
mkdir "$job"
echo "${0##*/} $*" > "$job/words"
cat > "$job/data"
"""


def documents():
    """All documents, from the folder of the repository on."""
    pages = sorted(glob.glob(os.path.join(TOP, "docs", "*.md")))
    return ["README.md", "CHANGELOG.md", "man/plotraster.1", *(os.path.relpath(page, TOP) for page in pages)]


def read_examples(path):
    """The commands of the manual page's examples, as blocks of their section."""
    with open(path, encoding="utf-8") as page:
        examples = re.search(r"^\.SH EXAMPLES\n(.*?)^\.SH ", page.read(), re.M | re.S)[1]
    commands = [line[3:].replace("\\-", "-") for line in examples.splitlines() if line.startswith(".B ")]
    return {"EXAMPLES": {"sh": commands}}


def read_sections(path):
    """For each heading its `sh` blocks, its `text` blocks and the rows of its tables."""
    if path.endswith(".1"):
        return read_examples(path)
    sections, heading, language = {}, None, None
    with open(path, encoding="utf-8") as lines:
        for line in lines:
            fence = re.match(r"```(\w*)$", line)
            if fence:
                language = fence.group(1) if language is None else None
                if language is not None:
                    sections[heading].setdefault(language, []).append("")
            elif language is not None:
                sections[heading][language][-1] += line
            elif line.startswith("#"):
                heading = line.strip("# \n")
                sections[heading] = {"sh": [], "rows": []}
            elif line.startswith("|") and not line.startswith("|---"):
                cells = re.split(r"(?<!\\)\|", line.strip().strip("|"))
                sections[heading]["rows"].append([cell.strip() for cell in cells])
    return sections


def set_up(top, program, plots):
    """Makes the folders that a block needs: one with plots, one for what it prints, its commands, and a home."""
    for name in ("work", "printed", "commands", "home"):
        os.mkdir(os.path.join(top, name))
    shutil.copytree(os.path.join(TOP, "examples"), os.path.join(top, "work", "examples"))
    for name, plot in plots.items():
        write(os.path.join(top, "work", name), plot)
    os.symlink(program, os.path.join(top, "commands", "plotraster"))
    for name in ("lp", "lpr"):
        write(os.path.join(top, "commands", name), STUB.encode(), 0o755)


def run(top, block):
    """Runs a block in its folder."""
    surroundings = dict(
        os.environ, PATH=os.path.join(top, "commands") + os.pathsep + os.environ["PATH"],
        PRINTED=os.path.join(top, "printed"), HOME=os.path.join(top, "home"),
    )
    return subprocess.run(["bash", "-e", "-o", "pipefail", "-c", block], cwd=os.path.join(top, "work"),
                          env=surroundings, capture_output=True, timeout=SECONDS)


def judge(program, check, section, block):
    """What is wrong with a block, a line each."""
    with tempfile.TemporaryDirectory() as top:
        set_up(top, program, {**samples(), **check.plots})
        try:
            if check.prepare:
                yield from check.prepare(program, os.path.join(top, "work"), section)
            ran = run(top, block)
            if ran.returncode != 0:
                yield f"status {ran.returncode}: {ran.stderr.decode()[-500:]}"
            else:
                yield from check.made(Made(program, top, section, block, ran.stdout.decode()))
        except (AttributeError, LookupError, OSError, ValueError, subprocess.SubprocessError) as wrong:
            yield f"{type(wrong).__name__}: {wrong}"


def pairs(path, checks):
    """Each block of a file with its heading, number, section and check; what is missing is None."""
    sections = read_sections(os.path.join(TOP, path))
    for heading in dict.fromkeys([*sections, *checks]):
        section = sections.get(heading, {"sh": []})
        wanted = checks.get(heading, [])
        blocks = [block for block in section["sh"] if not leaves_out(block)]
        for number, (block, check) in enumerate(itertools.zip_longest(blocks, wanted), 1):
            yield heading, number, section, block, check


def prints(command, output):
    """A check that a command prints what a document shows."""
    def made(ran):
        if ran.output != output:
            yield f"{command} prints {ran.output!r}"
    return Check(made)


def all_blocks(path):
    """What is run of a document: its blocks, its terminals, and commands in sentences."""
    checks = {**CHECKS, **DOCUMENT_CHECKS}.get(path, {})
    yield from pairs(path, checks)
    for heading, section in read_sections(os.path.join(TOP, path)).items():
        # A check that prepares something does so from the text of its section.
        if not any(check.prepare for check in checks.get(heading, [])):
            shown = [each for text in section.get("text", []) for each in transcript(text)]
            for number, (command, output) in enumerate(shown, 1):
                yield heading, f"shown {number}", section, command, prints(command, output)
    with open(os.path.join(TOP, path), encoding="utf-8") as text:
        for command in dict.fromkeys(commands_in_sentences(path, text.read())):
            if not is_not_run(command):
                in_full = re.sub(r"^tools/", os.path.join(TOP, "tools", ""), command)
                needs = re.findall(r"\b(?:pnm|pam)\w+", command)
                yield "sentences", command, {}, in_full, Check(lambda ran: (), needs)


def blocks_of_documents():
    """What is run of each document, by its name."""
    for path in documents():
        for heading, number, section, block, check in all_blocks(path):
            name = f"{path}, {heading}, {number}".replace("::", ":")
            yield pytest.param(section, block, check, id=name)


@pytest.mark.parametrize("path", documents())
def test_files_are_there(path):
    assert_nothing(f"there is no {file}" for file in missing_files(path))


@pytest.mark.parametrize("section, block, check", blocks_of_documents())
def test_block(section, block, check, program, pytestconfig):
    assert block is not None, "there is no block for this check"
    assert check is not None, "there is no check for this block"
    need(pytestconfig, *check.needs)
    assert_nothing(judge(program, check, section, block))


# Those that do not just make a picture.
HELP_CHECKS = {
    "": Check(pictures, PNG), "png": Check(pictures, PNG), "marks": Check(eight_marks),
    "report": Check(box_of_pen_2, (), {"plan.plt": b"SP2;PU0,0;PD100,200;"}),
}


@pytest.mark.parametrize("command", ["", *DOCUMENTS, *FORMS, "report"])
def test_example_of_help(command, program, pytestconfig):
    """The example that ends each page of help."""
    words = [program, *([command] if command else []), "--help"]
    shown = subprocess.run(words, capture_output=True, text=True, check=True, timeout=SECONDS).stdout
    examples = re.findall(r"^Example.*:\n  (.+)$", shown, re.M)
    assert len(examples) == 1
    check = HELP_CHECKS.get(command, Check(pictures))
    need(pytestconfig, *check.needs)
    assert_nothing(judge(program, check, {}, examples[0]))


def test_formats_of_each_command():
    """docs/FORMATS.md has a section for each form, and one for the report."""
    sections = re.findall(r"^## ([a-z]+)$", read("docs", "FORMATS.md"), re.M)
    assert sections == [*DOCUMENTS, *FORMS, "report"]


def test_pictures_of_the_gallery():
    """Each picture that docs/GALLERY.md shows is made by one of its blocks, but for two of viewers, and the other way round."""
    text = read("docs", "GALLERY.md")
    made = [name for names in re.findall(r"^for name in (.+); do$", text, re.M) for name in names.split()]
    made += [name for name in re.findall(r"(?:>|-o) (\w+)\.png$", text, re.M)]
    assert sorted([*made, "layers", "librecad"]) == sorted(re.findall(r"\]\((\w+)\.png\)", text))


def test_number_of_blocks():
    assert len(list(blocks_of_documents())) > 55
