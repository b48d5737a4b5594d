"""Dashes and dots of line types, in the profile full.

A pattern is a list of gaps in any unit: the first is drawn, the second is not, and so on. Lengths are in ticks. A dash
is its two ends on the line; those of a dot are the same.
"""

from itertools import accumulate

from .cutting import rounded

FIXED = {
    1: (0, 100),
    2: (50, 50),
    3: (70, 30),
    4: (80, 10, 0, 10),
    5: (70, 10, 10, 10),
    6: (50, 10, 10, 10, 10, 10),
    7: (70, 10, 0, 10, 0, 10),
    8: (50, 10, 0, 10, 10, 10, 0, 10),
}
ADAPTIVE = {
    1: (0, 100),
    2: (25, 50, 25),
    3: (35, 30, 35),
    4: (40, 10, 0, 10, 40),
    5: (35, 10, 10, 10, 35),
    6: (25, 10, 10, 10, 10, 10, 25),
    7: (35, 10, 0, 10, 0, 10, 35),
    8: (25, 10, 0, 10, 10, 10, 0, 10, 25),
}


def drawn_parts(pattern):
    """Where each drawn gap of a pattern begins and ends, and the sum of all gaps."""
    sums = [0, *accumulate(pattern)]
    return list(zip(sums, sums[1:]))[::2], sums[-1]


class Fixed:
    """The dashes of a line that begins at a phase of the pattern."""

    def __init__(self, pattern, ticks, phase, long):
        parts, whole = drawn_parts(pattern)
        self.parts = [tuple(rounded(ticks * at, whole) for at in part) for part in parts]
        self.ticks, self.phase, self.long = ticks, phase, long

    def __iter__(self):
        for repeat in range((self.long + self.phase) // self.ticks + 1):
            begin = repeat * self.ticks - self.phase
            for first, last in self.parts:
                yield from dash(begin + first, begin + last, self.long)

    def count(self):
        """How many there are: those that begin before the line's end, without those that lie before its begin."""
        return sum(self.count_before(self.long - first) - self.count_before(-first if first == last else 1 - last)
                   for first, last in self.parts)

    def count_before(self, end):
        """How many times the pattern begins before a point of the line, from the phase on."""
        return max(0, -(-(end + self.phase) // self.ticks))


class Adaptive:
    """The dashes of a line that has the pattern a whole number of times, each at most as long as this."""

    def __init__(self, pattern, ticks, long):
        self.parts, self.whole = drawn_parts(pattern)
        self.times, self.long = -(-long // ticks), long
        self.has_last_dot = pattern[0] == 0

    def __iter__(self):
        for repeat in range(self.times):
            yield from self.repeated(repeat)
        if self.has_last_dot:
            yield self.long, self.long

    def repeated(self, repeat):
        """The dashes of one pattern."""
        for part in self.parts:
            ends = (self.long * (repeat * self.whole + at) for at in part)
            yield from dash(*(rounded(end, self.times * self.whole) for end in ends), self.long)

    def count(self):
        """How many there are: only the last pattern may have dots that are left out."""
        return (self.times - 1) * len(self.parts) + len(list(self.repeated(self.times - 1))) + self.has_last_dot


def dash(first, last, long):
    """The part of a dash that lies on the line, if there is one."""
    if first == last:
        if 0 <= first < long:
            yield first, first
    elif max(first, 0) < min(last, long):
        yield max(first, 0), min(last, long)


def point(a, b, ticks, long):
    """The place so many ticks from a on the way to b."""
    (ax, ay), (bx, by) = a, b
    return ax + rounded((bx - ax) * ticks, long), ay + rounded((by - ay) * ticks, long)
