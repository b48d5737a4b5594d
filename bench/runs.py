"""One run of a command: its processor time and its greatest memory (Linux)."""

import collections
import ctypes
import os
import signal

from sampled_pixels import read_pbm

# Processor seconds after which a run is ended.
MOST_SECONDS = 300

Run = collections.namedtuple("Run", "failure seconds memory")


def adopt_orphans():
    """Makes this process wait for the children that its children leave behind."""
    PR_SET_CHILD_SUBREAPER = 36
    ctypes.CDLL(None).prctl(PR_SET_CHILD_SUBREAPER, 1, 0, 0, 0)


def run(words, picture, reads=read_pbm):
    """One run that writes a picture, a PBM if none else is said: what went wrong or None, the seconds, and the bytes of
    memory. `reads` gives None of a file that is no such picture.

    A shell starts it and ends. The greatest memory that is reported for a process is at least that of
    the process that started it, and a shell has less than a script in Python."""
    script = f'ulimit -t {MOST_SECONDS}; "$@" > "$0" 2> /dev/null &'
    shell = os.posix_spawn("/bin/sh", ["sh", "-c", script, picture, *words], os.environ)
    ended = {child: (status, used) for child, status, used in (os.wait4(-1, 0), os.wait4(-1, 0))}
    del ended[shell]
    ((status, used),) = ended.values()
    code = os.waitstatus_to_exitcode(status)
    failure = None
    if code != 0:
        failure = f"status {code}" if code > 0 else signal.Signals(-code).name
    elif reads(picture) is None:
        failure = "no picture"
    return Run(failure, used.ru_utime + used.ru_stime, used.ru_maxrss * 1024)


def run_on(words, plot):
    """One run that reads a plot from standard input and whose output is thrown away, without a limit.

    Its greatest memory is at least that of this process, so it says something of large plots only."""
    child = os.fork()
    if child == 0:
        with open(plot, "rb") as text, open(os.devnull, "wb") as nothing:
            os.dup2(text.fileno(), 0)
            os.dup2(nothing.fileno(), 1)
            os.execvp(words[0], words)
    _, status, used = os.wait4(child, 0)
    code = os.waitstatus_to_exitcode(status)
    return Run(f"status {code}" if code else None, used.ru_utime + used.ru_stime, used.ru_maxrss * 1024)


def best(runs):
    """What several runs took: the first failure, the least seconds and the greatest memory."""
    failures, seconds, memory = zip(*runs)
    return Run(next(filter(None, failures), None), min(seconds), max(memory))
