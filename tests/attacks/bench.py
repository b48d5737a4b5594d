"""Runs of the program in a folder of their own, one after another."""

import collections
import fcntl
import os
import resource
import shutil
import signal
from typing import NamedTuple

from .answers import Broken, keep_promises

SECONDS = 10
MEMORY = 1 << 30
# The least and the greatest size of a pipe.
LEAST_PIPE, LARGE_PIPE = 4096, 1 << 20


class How(NamedTuple):
    """How a run goes: the device on standard input, which is else a file; the device that the output goes to, which is else a
    file, or a pipe whose reader leaves after so many bytes; the standard files that are closed; the most bytes of a file; and
    the call that tests/refuse.c lets fail."""

    given: str = None
    to: str = None
    leaves: int = None
    closed: tuple = ()
    limit: int = None
    refused: dict = {}


PLAIN = How()


class Ran(NamedTuple):
    """A run's words, exit status, and what it wrote to standard output and to standard error."""

    words: list
    status: int
    output: bytes
    errors: bytes


class TooLong(Exception):
    """The time of a run is over."""


def end_wait(*_):
    raise TooLong


class Bench:
    """The folder, in which the process stays, and the numbers of runs by their kinds."""

    def __init__(self, program, folder, refuse):
        self.program, self.refuse = program, refuse
        self.place, self.given, self.got = (os.path.join(folder, name) for name in ("place", "given", "got"))
        self.counts, self.statuses = collections.Counter(), collections.Counter()
        self.kind, self.last = None, None
        os.mkdir(self.place)
        os.chdir(self.place)
        self.said, self.errors = os.pipe()
        fcntl.fcntl(self.errors, fcntl.F_SETPIPE_SZ, LARGE_PIPE)
        os.set_blocking(self.said, False)
        signal.signal(signal.SIGALRM, end_wait)
        # A write beyond the limit on a file fails, and is no signal.
        signal.signal(signal.SIGXFSZ, signal.SIG_IGN)
        resource.setrlimit(resource.RLIMIT_AS, (MEMORY, MEMORY))
        resource.setrlimit(resource.RLIMIT_CORE, (0, 0))

    def clear(self):
        """Removes all that is in the folder."""
        for entry in os.scandir(self.place):
            if entry.is_dir(follow_symlinks=False):
                shutil.rmtree(entry.path)
            else:
                os.unlink(entry.path)

    def run(self, words, plot=b"", how=PLAIN):
        """A run with the plot on standard input. It ends by itself, and keeps the promises of each run."""
        self.counts[self.kind, words[0] if words else ""] += 1
        self.last = words, how
        with open(self.given, "wb") as given:
            given.write(plot)
        ran = Ran(words, *self.ended(words, how))
        self.statuses[self.kind, ran.status] += 1
        # Nobody hears what is said to a file that is closed.
        if 2 not in how.closed:
            keep_promises(ran)
        return ran

    def ended(self, words, how):
        """The exit status of a run, its output and its errors."""
        reader, writer = os.pipe() if how.leaves is not None else (None, None)
        pid = self.started(words, how, writer)
        if writer is not None:
            os.close(writer)
        status, output = waited(pid, reader, how.leaves)
        if how.to is None and how.leaves is None and 1 not in how.closed:
            with open(self.got, "rb") as got:
                output = got.read()
        return status, output, self.heard()

    def started(self, words, how, writer):
        """Begins a run."""
        actions = [(os.POSIX_SPAWN_OPEN, 0, how.given or self.given, os.O_RDONLY, 0), (os.POSIX_SPAWN_DUP2, self.errors, 2)]
        if writer is None:
            to = how.to or self.got
            actions.append((os.POSIX_SPAWN_OPEN, 1, to, os.O_WRONLY | os.O_CREAT | os.O_TRUNC, 0o600))
        else:
            fcntl.fcntl(writer, fcntl.F_SETPIPE_SZ, LEAST_PIPE)
            actions.append((os.POSIX_SPAWN_DUP2, writer, 1))
        actions += [(os.POSIX_SPAWN_CLOSE, file) for file in how.closed]
        surroundings = {"LD_PRELOAD": self.refuse, **how.refused} if how.refused else {}
        no_limit = resource.RLIM_INFINITY
        try:
            resource.setrlimit(resource.RLIMIT_FSIZE, (no_limit if how.limit is None else how.limit, no_limit))
            return os.posix_spawn(
                self.program, ["plotraster", *words], surroundings, file_actions=actions, setsigdef=[signal.SIGPIPE])
        finally:
            resource.setrlimit(resource.RLIMIT_FSIZE, (no_limit, no_limit))

    def heard(self):
        """What was said to standard error."""
        parts = []
        while True:
            try:
                parts.append(os.read(self.said, LARGE_PIPE))
            except BlockingIOError:
                return b"".join(parts)


def waited(pid, reader, most):
    """The exit status of a run, or the signal that ended it as a negative number, and what was read of its output."""
    signal.setitimer(signal.ITIMER_REAL, SECONDS)
    try:
        output = b"" if reader is None else beginning(reader, most)
        _, status = os.waitpid(pid, 0)
    except TooLong:
        os.kill(pid, signal.SIGKILL)
        os.waitpid(pid, 0)
        raise Broken(f"no end after {SECONDS} seconds") from None
    finally:
        signal.setitimer(signal.ITIMER_REAL, 0)
    return os.waitstatus_to_exitcode(status), output


def beginning(reader, most):
    """What a pipe has first; then its reader leaves."""
    with open(reader, "rb") as pipe:
        return pipe.read(most)
