"""Blocks of documents that scripts write: the lines between `<!-- NAME -->` and the next `<!-- end -->`."""

import os
import re

TOP = os.path.dirname(os.path.dirname(os.path.abspath(__file__)))
RESULTS = "bench/results"


def read(path):
    """A document, named from the top of the repository on."""
    with open(os.path.join(TOP, path), encoding="utf-8") as document:
        return document.read()


def write(path, text):
    with open(os.path.join(TOP, path), "w", encoding="utf-8") as document:
        document.write(text)


def parts(text, name):
    """The text before a block, in it and after it."""
    found = re.fullmatch(rf"(.*^<!-- {re.escape(name)} -->\n)(.*?)(^<!-- end -->$.*)", text, re.M | re.S)
    if not found:
        raise ValueError(f"there is no block {name}")
    return found.groups()


def block(path, name):
    """What a block has, without the blank lines around it."""
    return parts(read(path), name)[1].strip("\n")


def with_block(text, name, inside):
    """A document with a block replaced."""
    before, _, after = parts(text, name)
    return f"{before}\n{inside.strip()}\n\n{after}"


def rows(text):
    """The rows of the tables in a text: for each table a list of dictionaries by the heads of columns."""
    tables = []
    for table in re.findall(r"(?:^\|.*\|$\n?)+", text, re.M):
        head, _, *lines = [[cell.strip() for cell in line.strip("|").split("|")] for line in table.splitlines()]
        tables.append([dict(zip(head, line)) for line in lines])
    return tables
