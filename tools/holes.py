"""Leaves out all proofs of a crate but those of some functions.

What a proof knows of a lemma is its statement, and of a function its contract. So where some functions alone are tried,
the other proofs of the crate may be holes, which `rattle check --allow-holes` takes by what they state, and which take
no time. A proof may unfold a lemma: one that any proof unfolds is kept. And a function may have any body: one that calls
itself calls no other, whose contract would be read.
"""

import os
import re
import shutil
import sys
from pathlib import Path

sys.path.insert(0, os.path.dirname(os.path.abspath(__file__)))
from switch import HEAD, arguments_of, block_around, function_around  # noqa: E402

LEMMA = re.compile(r"^(?:pub )?([^\s:]+) : ")
BLOCK = re.compile(r"^(?:unsafe )?impl(?:<.*?>)? (\w+)(?!.* for )")
TYPE = re.compile(r"^(?:pub(?:\([^)]*\))? )?(?:struct|enum) (\w+)")
PROOF = """use Rattle.{crate}.proofs.{path} as stated

pub +{name}_spec : {{M : Type 1}} → stated.statement M
+{name}_spec = ?
"""


def unfolded_in(proofs):
    """The names that these texts unfold."""
    lines = [line for text in proofs for line in text.split("\n") if "unfolding" in line]
    return {name for line in lines for name in re.split(r"[\s()]+", line)}


def with_holes(text, kept):
    """A text of lemmas with a hole for the proof of each, but for these names."""
    lines, at, made = text.split("\n"), 0, []
    while at < len(lines):
        lemma = LEMMA.match(lines[at])
        made.append(lines[at])
        at += 1
        if lemma and lemma[1] not in kept:
            end = end_of_statement(lines, at)
            made += lines[at:end]
            at = end_of_proof(lines, end, lemma[1])
            made += [f"{lemma[1]} = ?"] if at > end else []
    return "\n".join(made)


def end_of_statement(lines, at):
    """The first line after a statement whose lines after the first begin here."""
    while at < len(lines) and lines[at].startswith(" "):
        at += 1
    return at


def end_of_proof(lines, first, name):
    """The first line after the proof of a lemma that begins here, or this line if none does."""
    end = at = first
    while at < len(lines) and (not lines[at] or lines[at][0] in " ])}" or lines[at].startswith((f"{name} ", "unfolding "))):
        # of the empty lines only those between two lines of the proof belong to it
        at += 1
        end = at if lines[at - 1] else end
    return end if any(it.startswith(f"{name} ") for it in lines[first:end]) else first


def modules_of(folder):
    """The lines of each module of a crate that has no tests, by its path."""
    source = Path(folder, "src")
    tests = re.findall(r"#\[cfg\(test\)\]\nmod (\w+);", Path(source, "lib.rt").read_text(encoding="utf-8"))
    found = {it.relative_to(source).with_suffix("").parts: it for it in sorted(source.rglob("*.rt"))}
    return {
        tuple(part for part in parts if part != "lib"): path.read_text(encoding="utf-8").split("\n")
        for parts, path in found.items()
        if parts[0] not in tests
    }


def called_in(lines, function):
    """Whether a function is in a cycle of calls, where its proof stands elsewhere."""
    attributes = "\n".join(lines[function.first : function.head])
    return "#[cycle" in attributes or re.search(rf"\b{function.name}\(", "\n".join(lines[function.head + 1 : function.end]))


def functions_of(modules):
    """The functions of modules and of their types: the module, the path, and where it stands. Those of traits, of cycles of
    calls, and those whose body is empty are left out."""
    types = {it[1]: module for module, lines in modules.items() for it in map(TYPE.match, lines) if it}
    for module, lines in modules.items():
        owner = None
        for at, line in enumerate(lines):
            if line and line[0] not in " }#/":
                block = BLOCK.match(line)
                owner = block and block[1] in types and (*types[block[1]], block[1])
            function = function_around(lines, at) if HEAD.match(line) else None
            path = owner if line.startswith(" ") else module
            if function and function.head == at and path is not None and path is not False and not called_in(lines, function):
                yield module, (*path, function.name), function


def has_lifetime_bound(lines, function):
    """Whether a type parameter of a function, or of its type, has a bound that names a lifetime: then a function that
    calls itself has no theorem."""
    block = block_around(lines, function)
    heads = [*([block[0]] if block else []), *lines[function.head : function.body]]
    return re.search(r"\b[A-Z]\w*: [^,(){]*'", "\n".join(heads))


def leave_out(folder, crate, functions):
    """Leaves out the proofs of the crate in this folder, but for those of these functions. Each other function calls itself
    alone, if it can."""
    proofs, modules, kept = Path(folder, "proofs"), modules_of(folder), {tuple(it.split("::")) for it in functions}
    files = {it: it.read_text(encoding="utf-8") for it in sorted(proofs.rglob("*.antt"))}
    unfolded = unfolded_in(files.values())
    for path, text in files.items():
        if path.parent.relative_to(proofs).parts not in kept and path.name != "Invariants.antt":
            path.write_text(with_holes(text, unfolded), encoding="utf-8")
    for module, path, function in reversed(list(functions_of(modules))):
        lines = modules[module]
        passed = arguments_of(lines, function)
        if path not in kept and passed is not None and not has_lifetime_bound(lines, function):
            owner = "Self::" if function.indent else ""
            lines[function.body + 1 : function.end] = [f"{function.indent}    {owner}{function.name}{passed}"]
            put_hole(proofs, crate, path)
    for module, lines in modules.items():
        Path(folder, "src", *(module or ("lib",))).with_suffix(".rt").write_text("\n".join(lines), encoding="utf-8")


def put_hole(proofs, crate, path):
    """Puts a hole in place of the proof of a function that calls itself."""
    shutil.rmtree(Path(proofs, *path), ignore_errors=True)
    place = Path(proofs, *path[:-1], f"+{path[-1]}")
    place.mkdir(parents=True, exist_ok=True)
    text = PROOF.format(crate=crate, path=".".join([*path[:-1], place.name]), name=path[-1])
    Path(place, "Proof.antt").write_text(text, encoding="utf-8")
