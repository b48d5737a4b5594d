"""What packaging/desktop tells desktops of plots: their type, by shared-mime-info, and the thumbnailer, called as GNOME does."""

import configparser
import os
import shlex
import subprocess
import sys

import pytest

from shared import EXAMPLES, TOP, assert_nothing, need, read_bytes, run

SECONDS = 60
FOLDER = os.path.join(TOP, "packaging", "desktop")
TYPE = "application/vnd.hp-hpgl"
DEBIAN_TYPES = "/usr/share/mime/packages/freedesktop.org.xml"
PLOT = b"IN;SP1;PU100,100;PD3000,100,3000,2000;"
# What plots begin with, and what is no plot although it begins alike.
BEGINNINGS = (
    b"IN;SP1;", b"\r\nIN;", b" IN;", b";IN;PU;", b"DF;PU0,0;", b"BP;IN;", b"PU;PA0,0;", b"PD;PR1,1;", b"PU100,200;PD;",
    b"PU-100,200;", b"PD100,200;", b"PD-1,-2;", b"PA0,0;PD;", b"PA-3,3;",
    b"PS10000,8000;", b"SP1;PU0,0;", b"SP1PU0,0", b"SP12;PA", b"PC1,200,0,0;",
    b"\x1b.(;IN;", b"\x1b.@;0:", b"\x1b.Y\nIN", b"\x1b%0BIN", b"\x1b%-1BIN", b"\x1bE\x1b&l1O\x1b%1BIN", b"\x1bE\x1b%0BBP",
    b"\x1b%-12345X@PJL ENTER LANGUAGE=HPGL2\r\n",
)
OTHERS = (
    b"IN the beginning; and", b"INDEX;1;2", b"PLUGIN;on", b"PUBLIC;", b"PUT /a HTTP/1.1; a", b"PDF;is a format", b"PA is a state;",
    b"PAIR;1", b"PA1 and PA2;", b"PS1=$;", b"SPAIN;Madrid", b"SP is short;", b"SP1 is a service pack", b"SP1RIT;",
    b"PC1 and PC2;", b"PC is short;", b"\x1b(B", b"\x1b%Gtext;", b"\x1bE\x1b&l1O a text\x0c", b"%PDF-1.4\n", b"%!PS\n",
    b"\x1b%-12345X@PJL ENTER LANGUAGE=PCL\r\n", b"set term png; plot sin(x)\n", b"#!/bin/sh\nPU0,0;\n", b"G21*\nX0Y0;\n",
)


@pytest.fixture(scope="module")
def types(pytestconfig, tmp_path_factory):
    """Gives the types of files, with what is packaged and without."""
    need(pytestconfig, "update-mime-database", "gio")
    homes = {}
    for name, files in (("without", [DEBIAN_TYPES]), ("with", [DEBIAN_TYPES, os.path.join(FOLDER, "plotraster.xml")])):
        homes[name] = tmp_path_factory.mktemp(name)
        packages = homes[name] / "mime" / "packages"
        packages.mkdir(parents=True)
        for file in files:
            (packages / os.path.basename(file)).symlink_to(file)
        # Much faster, if no file is put onto the disk at once.
        made = subprocess.run(["update-mime-database", packages.parent], env={**os.environ, "PKGSYSTEM_ENABLE_FSYNC": "0"},
                              capture_output=True, text=True, timeout=SECONDS)
        assert made.returncode == 0 and "rror" not in made.stderr, made.stderr

    def types_of(paths, which="with"):
        words = ["gio", "info", "-a", "standard::content-type", *paths]
        surroundings = {**os.environ, "XDG_DATA_DIRS": str(homes[which]), "XDG_DATA_HOME": str(homes[which] / "none"),
                        "HOME": str(homes[which]), "GIO_USE_VFS": "local"}
        said = subprocess.run(words, env=surroundings, capture_output=True, text=True, timeout=SECONDS, check=True)
        mark = "standard::content-type: "
        found = [line.partition(mark)[2] for line in said.stdout.splitlines() if mark in line]
        assert len(found) == len(paths)
        return found
    return types_of


def files_of(folder, contents):
    """Makes a file of each of these contents, without an extension."""
    for at, content in enumerate(contents):
        (folder / f"file{at}").write_bytes(content)
    return [str(folder / f"file{at}") for at in range(len(contents))]


def test_types_of_plots(types, tmp_path):
    """A plot is known by its extension, whatever is in it, and by what it begins with."""
    examples = [read_bytes(os.path.join(EXAMPLES, name)) for name in os.listdir(EXAMPLES) if name.endswith(".plt")]
    assert len(examples) > 20
    contents = [*BEGINNINGS, *examples]
    found = zip(contents, types(files_of(tmp_path, contents)))
    assert_nothing(f"{content[:30]!r} is {name}" for content, name in found if name != TYPE)
    named = [tmp_path / f"plan{extension}" for extension in (".plt", ".PLT", ".hpgl", ".hpg", ".hgl")]
    for path in named:
        path.write_bytes(b"SC0,9,0,9;PA1,1;")
    assert types([str(path) for path in named]) == [TYPE] * len(named)


def test_types_of_others(types, tmp_path):
    """No other file becomes a plot: texts that begin alike, and the files of this repository and of Python."""
    files = subprocess.run(["git", "ls-files", "*.md", "*.py", "*.png", "*.case", "*.txt", "*.1", "tools/*", "Makefile"],
                           cwd=TOP, capture_output=True, text=True, check=True).stdout.splitlines()
    contents = [*OTHERS, *(read_bytes(os.path.join(TOP, name)) for name in files), read_bytes(sys.executable)]
    paths = files_of(tmp_path, contents)
    found = list(zip(contents, types(paths), types(paths, "without")))
    assert len(found) > 200
    assert_nothing(f"{content[:30]!r} is {name}, was {before}" for content, name, before in found if name != before)


@pytest.fixture
def thumbnailer(program, tmp_path):
    """Makes a thumbnail by the line of the thumbnailer, with words in place of its marks, as GNOME does."""
    parser = configparser.RawConfigParser()
    parser.optionxform = str
    parser.read(os.path.join(FOLDER, "plotraster.thumbnailer"))
    entry = parser["Thumbnailer Entry"]
    assert entry["TryExec"] == "plotraster" and TYPE in entry["MimeType"].split(";")
    os.makedirs(tmp_path / "bin")
    os.symlink(program, tmp_path / "bin" / "plotraster")

    def make(plot, picture, size):
        marks = {"%i": str(plot), "%o": str(picture), "%s": str(size)}
        words = [marks.get(word, word) for word in shlex.split(entry["Exec"])]
        assert all(mark in shlex.split(entry["Exec"]) for mark in marks) and not any("%" in it for it in words)
        surroundings = {**os.environ, "PATH": f"{tmp_path}/bin:{os.environ['PATH']}"}
        return subprocess.run(words, env=surroundings, capture_output=True, text=True, timeout=SECONDS, cwd=tmp_path)
    return make


def test_thumbnails(program, thumbnailer, tmp_path):
    """Pictures of each of GNOME's sizes, of plots and into files with odd names."""
    names = ("plan.plt", "with blanks, and 'quotes'.plt", "-x.plt", "--help", "\u00e4\u00f6.PLT", "plan")
    for at, name in enumerate(names):
        (tmp_path / name).write_bytes(PLOT)
        size = (128, 256, 512, 1024)[at % 4]
        # GNOME's paths are whole; another program may give names alone.
        picture = tmp_path / ("thumbnail" if at % 2 else ".thumbnail.png")
        made = thumbnailer(name if at < 3 else tmp_path / name, picture, size)
        assert (made.returncode, made.stdout, made.stderr) == (0, "", ""), name
        wanted = run(program, ["draw", "--size", str(size), tmp_path / "plan.plt"], SECONDS).stdout
        data = picture.read_bytes()
        assert data == wanted and max(int.from_bytes(data[16:20], "big"), int.from_bytes(data[20:24], "big")) <= size
        picture.unlink()


def test_no_thumbnails_of_bad_plots(thumbnailer, tmp_path):
    """A plot that is refused, and one that is not there, leave no file."""
    (tmp_path / "bad.plt").write_bytes(b"PU0,0;PD8388607.9,0;")
    for name, status in (("bad.plt", 1), ("none.plt", 3)):
        made = thumbnailer(tmp_path / name, tmp_path / "thumbnail.png", 256)
        assert made.returncode == status and made.stderr.startswith("plotraster: "), name
    assert not [name for name in os.listdir(tmp_path) if "thumbnail" in name]
