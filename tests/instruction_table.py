"""The table of all instructions in docs/INSTRUCTIONS.md, and what crates/hpgl_text/src/mnemonic.rt does with each.

An instruction is `read`, `skipped` with a note, passed over with `no effect`, or it `ends a sheet`.
"""

import re
from typing import NamedTuple

from shared import read

ROW = re.compile(r"^\| `([A-Z]{2})` \| ([^|]*) \| ([^|]*) \| ([^|]*) \|$", re.M)
STATE = re.compile(r"(?:\[([a-z ]+)\]\(#([a-z-]+)\)|([a-z ]+?))( \*)?")
# What an instruction is by what follows its mnemonic; all others are read.
STATES = {
    "Kind::SkippedSymbol": "skipped", "Kind::SkippedBuffer": "skipped", "Kind::WithoutEffect": "no effect",
    "Kind::Display": "no effect", "Kind::Comment": "no effect", "Kind::Unread(Further::EndSheet)": "ends a sheet",
}


class State(NamedTuple):
    """What becomes of an instruction, the heading's anchor to which it is linked, and whether it has a mark."""

    said: str
    link: str
    is_marked: bool


class Row(NamedTuple):
    code: str
    name: str
    core: State
    full: State


def state(cell):
    linked, link, bare, mark = STATE.fullmatch(cell).groups()
    return State(linked or bare, link, bool(mark))


def rows():
    """The rows of the table of docs/INSTRUCTIONS.md."""
    table = re.search(r"^## All instructions\n(.*?)(?=^#|\Z)", read("docs/INSTRUCTIONS.md"), re.M | re.S)[1]
    found = [Row(code, name.strip(), state(core), state(full)) for code, name, core, full in ROW.findall(table)]
    assert len(found) == len(re.findall(r"^\| `", table, re.M)) > 100
    return found


def source():
    return read("crates", "hpgl_text", "src", "mnemonic.rt")


def mnemonics(text):
    return re.findall(r'b"([A-Z]{2})"', text)


def arms(function):
    """The mnemonics that a function compares with, each with what it gives."""
    body = re.search(rf"^fn {function}\(.*?^}}$", source(), re.M | re.S)[0]
    found = dict(re.findall(r'^ +b"([A-Z]{2})" => (.+),$', body, re.M))
    assert len(found) == len(mnemonics(body)) > 0, f"{function} has other arms"
    return {code: re.sub(r"^Some\((.+)\)$", r"\1", given) for code, given in found.items()}


def without_effect():
    return mnemonics(re.search(r"^const WITHOUT_EFFECT: .*?;$", source(), re.M | re.S)[0])


def states(kinds):
    return {code: STATES.get(kind, "read") for code, kind in kinds.items()}


def states_of_the_code():
    """What each mnemonic of the code's tables is in the profiles core and full. Those that are in none are skipped."""
    core = arms("core_kind_of_code")
    full = {**core, **dict.fromkeys(without_effect(), "Kind::WithoutEffect"), **arms("other_way_of_code"),
            **arms("numbered_of_code")}
    assert full.keys() == set(mnemonics(source()))
    return states(core), states(full)
