"""What the readers of documents share: why bytes are no document, and zlib data."""

import zlib


class Wrong(Exception):
    """Why bytes are no such document."""


def must(holds, why):
    if not holds:
        raise Wrong(why)


def inflated(data):
    """What zlib data has, which must be whole."""
    inflater = zlib.decompressobj()
    try:
        found = inflater.decompress(data)
    except zlib.error as error:
        raise Wrong(str(error)) from error
    must(inflater.eof and not inflater.unused_data, "the zlib data does not end with its bytes")
    return found
