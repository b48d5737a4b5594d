"""Runs of the program with a terminal as standard output or as standard error."""

import errno
import os
import subprocess
import threading
import tty

SECONDS = 60


def read_all(terminal, got):
    """Keeps what a terminal gets until nothing has it open."""
    try:
        while data := os.read(terminal, 65536):
            got.append(data)
    except OSError as error:
        assert error.errno == errno.EIO


def with_terminal(stream, program, words, plot, **how):
    """A run of which this stream is a terminal, and what the terminal gets."""
    leader, follower = os.openpty()
    tty.setraw(follower)
    got = []
    reader = threading.Thread(target=read_all, args=(leader, got))
    reader.start()
    try:
        how = {"stdout": subprocess.PIPE, "stderr": subprocess.PIPE, **how, stream: follower}
        done = subprocess.run(["plotraster", *words], executable=program, input=plot, timeout=SECONDS, **how)
    finally:
        os.close(follower)
        reader.join(SECONDS)
        os.close(leader)
    return done, b"".join(got)
