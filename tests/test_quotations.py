"""Compares what documents quote and list with the sources.

Each `rust` block of a page in PAGES must stand in one source file of its crates, line for line, and each `antt`
block in one of their specs/. Each line of a `text` block must stand in crates.txt. Each public function of the
crate library_examples must be shown in docs/LIBRARY.md. The tables of definitions in docs/PROOF.md must be what
tools/path prints, and the figures of speed in docs/SPEED.md and README.md those of bench/results. The calls in
docs/PROOF.md must be public in their crates, the limits and the patterns of lines in docs/INSTRUCTIONS.md those
of the sources, its instructions in the manual page, and its table of all instructions what the code's tables say.
A table of a document must be one, and a link must lead to a heading.
"""

import glob
import os
import re
import subprocess

import pytest

import instruction_table
from reference.line_types import ADAPTIVE, FIXED
from shared import TOP, assert_nothing, read

# The pages, each with the crates that it quotes.
PAGES = {"docs/LIBRARY.md": "library_examples", "docs/PROOF.md": "*"}
BLOCK = re.compile(r"^```(\w*)\n(.*?)^```$", re.M | re.S)
SECONDS = 60


def texts(crates, folder, ending):
    """The texts of files in a folder of crates, each between line feeds, so that only whole lines are found."""
    paths = sorted(glob.glob(os.path.join(TOP, "crates", crates, folder, "*" + ending)))
    return ["\n" + read(path) for path in paths]


def differences(page, crates):
    sources = {"rust": texts(crates, "src", ".rt"), "antt": texts(crates, "specs", ".antt")}
    listed = read("crates.txt").splitlines()
    for language, block in BLOCK.findall(read(page)):
        first = block.partition("\n")[0]
        if language == "text":
            for line in block.splitlines():
                if line not in listed:
                    yield f"not in crates.txt: {line}"
        elif not any("\n" + block in source for source in sources.get(language, [])):
            yield f"not in the sources: the {language or 'nameless'} block that begins: {first}"


@pytest.mark.parametrize("page, crates", PAGES.items())
def test_quotations(page, crates):
    assert len(BLOCK.findall(read(page))) > 5
    assert_nothing(differences(page, crates))


def test_functions_of_the_examples_are_shown():
    shown = "".join(block for language, block in BLOCK.findall(read("docs/LIBRARY.md")) if language == "rust")
    names = [name for source in texts("library_examples", "src", ".rt") for name in re.findall(r"^pub fn (\w+)", source, re.M)]
    assert len(names) >= 4
    assert_nothing(f"not shown: {name}" for name in names if not re.search(rf"^pub fn {name}\b", shown, re.M))


@pytest.mark.parametrize("script", ["tools/path", "bench/typical"])
def test_tables_that_scripts_write(script):
    done = subprocess.run([os.path.join(TOP, script), "--check"], capture_output=True, text=True, timeout=SECONDS)
    assert (done.returncode, done.stderr) == (0, "")


def documents():
    pages = [f"docs/{name}" for name in sorted(os.listdir(os.path.join(TOP, "docs"))) if name.endswith(".md")]
    return ["README.md", "CONTRIBUTING.md", "CHANGELOG.md", *pages]


@pytest.mark.parametrize("path", documents())
def test_tables_of_documents(path):
    """A line of dashes is the second of a table, after one row with as many cells."""
    lines = re.sub(r"^```.*?^```$", "", read(path), flags=re.M | re.S).splitlines()
    for at, line in enumerate(lines):
        if re.fullmatch(r"\|[-:|]+\|", line):
            assert lines[at - 1].startswith("|") and lines[at - 2] == "", f"{path}: no table begins with {lines[at - 1]}"
            assert cells_of(lines[at - 1]) == cells_of(line), f"{path}: {lines[at - 1]}"
            for row in lines[at + 1:]:
                if not row.startswith("|"):
                    break
                assert cells_of(row) == cells_of(line), f"{path}: {row}"


def cells_of(row):
    return len(re.findall(r"(?<!\\)\|", row))


def anchor_of(heading):
    return re.sub(r"[^\w -]", "", heading.lower()).replace(" ", "-")


@pytest.mark.parametrize("path", documents())
def test_anchors_of_links(path):
    """A link to a part of a document leads to a heading."""
    for target, anchor in re.findall(r"\]\(([^)#:]*)#([^)]+)\)", read(path)):
        page = os.path.normpath(os.path.join(os.path.dirname(path), target)) if target else path
        headings = re.findall(r"^#+ (.+)$", read(page), re.M)
        assert anchor in map(anchor_of, headings), f"{path}: {target}#{anchor}"


def section(path, heading):
    """The text of a document below a heading, up to the next one."""
    return re.search(rf"^#+ {re.escape(heading)}\n(.*?)(?=^#|\Z)", read(path), re.M | re.S)[1]


def wrong_calls():
    """The calls in the table of docs/PROOF.md that are not public in the crates of their row."""
    crates = []
    for row in re.findall(r"^\|(.+)\|$", section("docs/PROOF.md", "Crate by crate"), re.M)[2:]:
        first, calls, _ = row.split("|", 2)
        crates = re.findall(r"`(\w+)`", first) or crates
        sources = [text for crate in crates for text in sources_of(crate)]
        for call in re.findall(r"`(\w+)`", calls):
            found = re.compile(rf"^ *(?:pub )?(?:fn|struct|mod) {call}\b", re.M)
            if not any(found.search(text) for text in sources):
                yield f"{call} is not in {crates}"


def sources_of(crate):
    return [read(path) for path in glob.glob(os.path.join(TOP, "crates", crate, "src", "**", "*.rt"), recursive=True)]


def test_calls_that_are_proved():
    assert_nothing(wrong_calls())


def constant(source, name):
    return int(re.search(rf"pub const {name}: usize = ([\d_]+);", read("crates", source))[1].replace("_", ""))


def test_limits():
    """The limits that docs/INSTRUCTIONS.md and the manual page give are the constants of the code."""
    longest = constant("hpgl_text/src/program.rt", "LONGEST_PLOT")
    most = constant("plot_page/src/stroke.rt", "MOST_STROKES")
    said, page = section("docs/INSTRUCTIONS.md", "What is refused"), read("man", "plotraster.1")
    assert re.search(r"more than ([\d,]+) bytes", said)[1] == f"{longest:,}"
    assert re.search(r"more than ([\d,]+) lines", said)[1] == f"{most:,}"
    assert re.search(r"brings the plot to more than (\d+) lines", page)[1] == str(most)
    assert re.search(r"Reading stops after (\d+) bytes", page)[1] == str(longest + 1)


def test_bytes_of_a_stroke():
    """docs/ARCHITECTURE.md has the bytes of a stroke as docs/SPEED.md counts them, and those of an edge as the code says."""
    said = re.sub(r"\s+", " ", section("docs/ARCHITECTURE.md", "The way of a byte"))
    words = r"(\d+) bytes for each stroke and (\d+) for each edge .*?; then (\d+) bytes for the link"
    stroke, edge, link = re.search(words, said).groups()
    assert f"{int(stroke) + int(link)} bytes a stroke" in section("docs/SPEED.md", "Beside hp2xx")
    assert f"{edge} bytes for each" in read("crates", "polygons", "src", "buffer.rt")


def test_patterns_of_lines():
    """docs/INSTRUCTIONS.md has the patterns of the types 1 to 8, and says how those of -1 to -8 follow from them."""
    cells = re.findall(r"[^|\n]+", section("docs/INSTRUCTIONS.md", "Line types"))
    said = {int(kind): tuple(int(it) for it in gaps.split()) for kind, gaps in zip(cells, cells[1:])
            if re.fullmatch(r" \d ", kind) and re.fullmatch(r" [\d ]+ ", gaps)}
    assert said == FIXED
    for kind, (first, *rest) in said.items():
        assert ADAPTIVE[kind] == ((first, *rest) if kind == 1 else (first // 2, *rest, first // 2))


def names_in_table(heading):
    """The instructions in the first column of a table of docs/INSTRUCTIONS.md."""
    rows = re.findall(r"^\| (`.+?) \|", section("docs/INSTRUCTIONS.md", heading), re.M)
    return [name for row in rows for name in re.findall(r"`([A-Z]{2})`", row)]


@pytest.mark.parametrize("heading", ["What is drawn", "The profile full"])
def test_instructions_of_the_manual_page(heading):
    """Each instruction in the tables of docs/INSTRUCTIONS.md stands in the manual page, where it says what is read."""
    names = names_in_table(heading)
    page = re.search(r'^\.SH "WHAT IS READ"\n(.*?)^\.SH ', read("man", "plotraster.1"), re.M | re.S)[1]
    assert len(names) > 20
    assert_nothing(f"not in the manual page: {name}" for name in names if not re.search(rf"\b{name}\b", page))


def wrong_states():
    """Where the table of all instructions differs from the code's tables."""
    core, full = instruction_table.states_of_the_code()
    rows = {row.code: row for row in instruction_table.rows()}
    yield from (f"not in the table: {code}" for code in full.keys() - rows.keys())
    for code, row in rows.items():
        for profile, said, states in (("core", row.core, core), ("full", row.full, full)):
            if said.said != states.get(code, "skipped"):
                yield f"{code} in {profile}: {states.get(code, 'skipped')}, and not {said.said}"


def test_table_of_all_instructions():
    """It is in the order of the alphabet, each instruction has a name, and is what the code makes of it."""
    rows = instruction_table.rows()
    codes = [row.code for row in rows]
    assert codes == sorted(set(codes))
    assert_nothing(f"{row.code} has no name" for row in rows if not re.match("[A-Z]", row.name))
    assert_nothing(wrong_states())


def test_links_of_all_instructions():
    """What core or full reads is linked to the table that has it, and all of these tables is read."""
    rows = instruction_table.rows()
    drawn, further = (set(names_in_table(it)) for it in ("What is drawn", "The profile full"))
    assert {row.code for row in rows if row.core.link == "what-is-drawn"} == drawn
    assert {row.code for row in rows if row.full.link == "what-is-drawn"} == drawn - further
    assert {row.code for row in rows if row.full.link == "the-profile-full"} == further
    for row in rows:
        for state in (row.core, row.full):
            assert state.link or state.said in ("skipped", "no effect"), row.code
            assert state.said == "skipped" or not state.is_marked, row.code
