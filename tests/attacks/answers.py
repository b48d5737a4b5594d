"""What the manual page promises of each run: its exit status, its message, and what standard output has."""

import os
import re
import shlex

from reference import messages

MANUAL = os.path.join(os.path.dirname(__file__), "..", "..", "man", "plotraster.1")
# What is said of an output that is written.
LINES = rb"[0-9]+ lines?, [0-9]+ off the page(, [0-9]+ cut at its edge)?"
REPORT = b"plotraster report( --profile full)?"
REMARKS = (
    messages.text("blank", REPORT.decode()).encode(),
    rb"[0-9]+ notes on [0-9]+ lines?: see " + REPORT,
    messages.text("no-size").encode(),
    messages.text("blank-to-fit").encode(),
    messages.text("too-large-to-fit").encode(),
    messages.text("first-sheet", "[0-9]+").encode(),
    b"(nothing is drawn: )?" + LINES + rb"; [0-9]+ notes?, see " + REPORT,
)
# Why a file cannot be opened, which --verbose says in a line of its own.
REASONS = f"{messages.reason('no-such-file')}|{messages.reason('denied')}|".encode() + rb"[A-Z][a-z ]+ \(os error [0-9]+\)"
# The exit statuses of the messages that begin so; of all others it is 2.
STATUSES = {message.partition("{")[0]: status for status, message in messages.MESSAGES.values() if status}
REFUSED, USAGE, DEVICE, MEMORY = 1, 2, 3, 4


class Broken(Exception):
    """What a run broke."""


def of_the_manual():
    """The pattern of each message of the manual page, with its exit status; the name of a plot, and a sheet, may come first."""
    with open(MANUAL, encoding="utf-8") as manual:
        heads = re.findall(r'^\.(?:B|BI) "plotraster: (.*)', manual.read().replace("\\-", "-"), re.M)
    for head in heads:
        status = next((status for begins, status in STATUSES.items() if head.startswith(begins)), USAGE)
        parts = enumerate(shlex.split('"' + head))
        text = "".join(re.escape(part) if number % 2 == 0 else ".*" for number, part in parts)
        yield re.compile(b"plotraster: (.*: )?" + text.encode(), re.S), status


MESSAGES = [
    *((re.compile(b"plotraster: (.*: )?(" + remark + b")", re.S), 0) for remark in REMARKS), *of_the_manual(),
    (re.compile(b"plotraster: (" + REASONS + b")"), DEVICE),
]


def must(holds, why):
    if not holds:
        raise Broken(why)


def said(line):
    """The exit status of a message."""
    for pattern, status in MESSAGES:
        if pattern.fullmatch(line):
            return status
    raise Broken(f"says {line[:200]!r}")


def keep_promises(ran):
    """Any run ends with a status of the manual page, says why if it is not 0, and then writes nothing to standard output but the
    beginning of an output that could not be written whole."""
    must(0 <= ran.status <= MEMORY, f"status {ran.status}, says {ran.errors[:200]!r}")
    if ran.errors.startswith(b"error: "):
        must(ran.status == USAGE, f"status {ran.status} for {ran.errors[:200]!r}")
    else:
        found = [said(line) for line in ran.errors.splitlines()]
        must(max(found, default=0) == ran.status, f"status {ran.status}, says {ran.errors[:200]!r}")
        must(ran.errors.endswith(b"\n") or not ran.errors, "an end of line is missing")
    if ran.status != 0 and messages.text("write").encode() not in ran.errors:
        must(not ran.output, f"status {ran.status}, writes {ran.output[:100]!r}")


def refusals(ran):
    """The messages of a run that are no remarks."""
    return [line for line in ran.errors.splitlines() if said(line)]
