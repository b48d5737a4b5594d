"""The bytes of a plane of an image's row, by the compressions of HP RTL.

A plane that breaks off, or goes past its width, ends where it is. The seed is the same plane of the row before.
"""


class Ended(Exception):
    """The data end within something."""


class Data:
    """Data that are read from their begin on."""

    def __init__(self, data):
        self.data, self.at = data, 0

    def __bool__(self):
        return self.at < len(self.data)

    def byte(self):
        if not self:
            raise Ended
        self.at += 1
        return self.data[self.at - 1]

    def more(self, number, last):
        """A number, to which bytes are added if it is the last one that fits, up to a byte that is not 255."""
        added = 255 if number == last else 0
        while added == 255:
            added = self.byte()
            number += added
        return number


def plane_of(compression, data, seed, width):
    """A plane of so many bytes, or of as many as there are without a width; and whether its data break off."""
    reader, row = Data(data), bytearray(seed if compression in (3, 9) else b"")
    read = {0: unencoded, 1: pairs, 2: runs, 3: changes, 9: compressed_changes}[compression]
    is_broken = False
    try:
        read(reader, row, width)
    except Ended:
        is_broken = True
    if width is None:
        return bytes(row), is_broken
    return bytes(row[:width].ljust(width, b"\0")), is_broken


def is_full(row, width):
    return width is not None and len(row) >= width


def unencoded(data, row, width):
    while data and not is_full(row, width):
        row.append(data.byte())


def pairs(data, row, width):
    """A count and a byte, which comes once more than the count says."""
    while data and not is_full(row, width):
        count = data.byte()
        row.extend([data.byte()] * (count + 1))


def runs(data, row, width):
    """Bytes as they are, or one that comes several times."""
    while data and not is_full(row, width):
        control = data.byte()
        if control > 128:
            row.extend([data.byte()] * (257 - control))
        elif control < 128:
            for _ in range(control + 1):
                row.append(data.byte())


def changes(data, row, width):
    """Bytes that replace those of the seed, after an offset from the last one that was put."""
    at = 0
    while data and not at_end(at, width):
        control = data.byte()
        at += data.more(control % 32, 31)
        if at_end(at, width):
            return
        for _ in range(control // 32 + 1):
            at = put(row, at, data.byte())


def compressed_changes(data, row, width):
    """The same, where one byte may come several times."""
    at = 0
    while data and not at_end(at, width):
        control = data.byte()
        is_run = control >= 128
        offset, last = (control // 32 % 4, 3) if is_run else (control // 8, 15)
        count, most = (control % 32, 31) if is_run else (control % 8, 7)
        at += data.more(offset, last)
        count = data.more(count, most)
        if at_end(at, width):
            return
        byte = data.byte() if is_run else None
        for _ in range(count + 1 + is_run):
            at = put(row, at, byte if is_run else data.byte())


def at_end(at, width):
    return width is not None and at >= width


def put(row, at, byte):
    """Puts a byte; a row grows, and what is past its width is cut in the end."""
    row.extend(bytes(max(0, at + 1 - len(row))))
    row[at] = byte
    return at + 1
