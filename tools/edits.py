"""The crates, and the mutants: how they are written, and what they change.

A mutant is an edit of a crate that changes its meaning. It is a block of mutants/CRATE.txt, and is called CRATE/NAME:

    mutant: NAME
    function: NAME              if all of this changes one function
    test: CRATE::MODULE::NAME   the test that notices it, which tools/mutants --find writes
    gate: yes                   if the gate hands it to the prover
    file: PATH
    old: TEXT                   what is in that file once
    new: TEXT                   what the mutant has there

More texts may follow, and more files with theirs. A text of several lines has its key before each. If no test can
notice a mutant, it has a control, an edit of the same shape that changes no meaning: there is no `test`, and a line
`control: TEXT`, after an old text or its new one, is what the control has there. Empty lines separate blocks.
"""

import os
import re
import sys
from dataclasses import dataclass, field
from pathlib import Path

TOP = os.path.dirname(os.path.dirname(os.path.abspath(__file__)))
CRATES = os.path.join(TOP, "crates")
MUTANTS = Path(TOP, "mutants")
# The keys of lines that may come after a line of a key. An empty line has an empty key.
AFTER = {
    "": ("mutant", ""),
    "mutant": ("function", "test", "gate", "file"),
    "function": ("test", "gate", "file"),
    "test": ("gate", "file"),
    "gate": ("file",),
    "file": ("old",),
    "old": ("old", "new", "control"),
    "new": ("new", "control", "old", "file", ""),
    "control": ("control", "old", "file", ""),
}


@dataclass
class Mutant:
    """A mutant; its edit and its control are lists of a file, an old and a new text each."""

    function: str = ""
    test: str = ""
    gate: str = ""
    edit: list = field(default_factory=list)
    control: list = field(default_factory=list)


def dependencies():
    """The crates, lowest first, and what each uses."""
    uses = {}
    with open(os.path.join(TOP, "crates.txt"), encoding="utf-8") as lines:
        for line in lines:
            name, found, rest = line.partition(":")
            if found and not name.startswith("#"):
                uses[name.split()[0]] = rest.split()
    return uses


def below(crate, uses):
    """This crate and all crates of the repository that it needs."""
    found = {crate}
    for name in uses[crate]:
        if name in uses:
            found |= below(name, uses)
    return found


def fault_of(key, text, last, found):
    """What is wrong with a line, after one with the key `last` and the mutants that were found, or None."""
    if key not in AFTER[last]:
        return "in its place must be " + " or ".join(f"`{it}:`" if it else "an empty line" for it in AFTER[last])
    if key == "mutant" and text in found:
        return "there is another of this name"
    return "it must be `gate: yes`" if key == "gate" and text != "yes" else None


def read(path):
    """The mutants of a file, by name."""
    found, last, old = {}, "", ""
    for number, line in enumerate([*path.read_text(encoding="utf-8").splitlines(), ""], 1):
        key, _, text = line.partition(":")
        text = text.removeprefix(" ")
        if fault_of(key, text, last, found):
            sys.exit(f"{path}:{number}: `{line}`: {fault_of(key, text, last, found)}")
        if key == "mutant":
            mutant = found[text] = Mutant()
        elif key == "file":
            place = text
        elif key == "old":
            old = f"{old}\n{text}" if last == key else text
        elif key in ("new", "control"):
            changes = mutant.edit if key == "new" else mutant.control
            text = f"{changes.pop()[2]}\n{text}" if last == key else text
            changes.append((place, old, text))
        elif key:
            setattr(mutant, key, text)
        last = key
    return found


def all_mutants():
    """All mutants, by the names CRATE/NAME."""
    paths = sorted(MUTANTS.iterdir())
    return {f"{path.stem}/{name}": mutant for path in paths for name, mutant in read(path).items()}


def write_test(name, test):
    """Writes the test that notices a mutant into its block."""
    crate, short = name.split("/")
    path = MUTANTS / f"{crate}.txt"
    head = rf"^(mutant: {short}\n(?:function: .*\n)?)(?:test: .*\n)?"
    text = re.sub(head, rf"\1test: {test}\n", path.read_text(encoding="utf-8"), flags=re.M)
    path.write_text(text, encoding="utf-8")


def edited(changes, folder):
    """The texts of a crate's files in this folder with an edit, by file."""
    texts = {}
    for file, old, new in changes:
        text = texts.get(file) or Path(folder, file).read_text(encoding="utf-8")
        if text.count(old) != 1:
            sys.exit(f"{file}: this is in it {text.count(old)} times: {old}")
        texts[file] = text.replace(old, new)
    return texts


def apply(changes, folder):
    """Applies an edit to the crate in this folder."""
    for file, text in edited(changes, folder).items():
        Path(folder, file).write_text(text, encoding="utf-8")
