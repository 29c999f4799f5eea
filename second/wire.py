"""Requests and answers of the program `calls`: the bytes that come in, the lines that go out.

`encoded` makes a request's bytes. `written` gives all that `calls` writes for an input, whatever
bytes that is, and `asked` lists the whole requests in it. A new call is one more row of CALLS.
"""
import struct
from collections import namedtuple

import rules

MOST = 1_048_577  # elements of 8 or 16 bits: one more than any picture has
MOST_COUNTS = 4_096  # elements of 32 bits


class Bad(Exception):
    """A request that is cut short, names no call, or has too long a slice or buffer."""


class Source:
    """An input, and how much of it has been read."""

    def __init__(self, data):
        self.data, self.at = data, 0

    def bytes(self, count):
        if len(self.data) - self.at < count:
            raise Bad
        self.at += count
        return self.data[self.at - count:self.at]


class Number:
    """8 bytes, little-endian; the signed ones in two's complement."""

    def __init__(self, code):
        self.code = '<' + code

    def encoded(self, value):
        return struct.pack(self.code, value)

    def read(self, source):
        return struct.unpack(self.code, source.bytes(8))[0]


UNSIGNED, SIGNED = Number('Q'), Number('q')


class Slice:
    """A read-only slice: its length, then its elements. Here a list."""

    def __init__(self, code, most):
        self.code, self.most = code, most

    def length(self, source):
        count = UNSIGNED.read(source)
        if count > self.most:
            raise Bad
        return count

    def encoded(self, values):
        return UNSIGNED.encoded(len(values)) + struct.pack(f'<{len(values)}{self.code}', *values)

    def read(self, source):
        form = f'<{self.length(source)}{self.code}'
        return list(struct.unpack(form, source.bytes(struct.calcsize(form))))


class Buffer(Slice):
    """A buffer that the call may write: its length and one fill value. Here a list, which the rule changes."""

    def encoded(self, length_and_fill):
        return b''.join(map(UNSIGNED.encoded, length_and_fill))

    def read(self, source):
        count = self.length(source)
        fill = UNSIGNED.read(source) % 256 ** struct.calcsize('<' + self.code)
        return [fill] * count


LEVELS, VALUES, COUNTS = Slice('B', MOST), Slice('H', MOST), Slice('I', MOST_COUNTS)
VALUE_BUFFER, COUNT_BUFFER = Buffer('H', MOST), Buffer('I', MOST_COUNTS)

# A call: what its arguments are, and the rule that takes them and gives back the first line's numbers. A call of a scan is a
# rule that takes the scan before them: `calls` keeps one over all its requests.
Call = namedtuple('Call', 'arguments rule of_a_scan', defaults=[False])

CALLS = {
    b'f': Call([LEVELS, UNSIGNED, UNSIGNED, VALUE_BUFFER, VALUE_BUFFER], rules.filter),
    b'm': Call([LEVELS, UNSIGNED, UNSIGNED, VALUE_BUFFER, VALUE_BUFFER], rules.measure),
    b'j': Call([UNSIGNED, UNSIGNED, UNSIGNED, UNSIGNED], rules.judge),
    b'c': Call([VALUES, COUNT_BUFFER], rules.count),
    b't': Call([COUNTS], rules.two_means),
    b's': Call([LEVELS, UNSIGNED, UNSIGNED, SIGNED, SIGNED], rules.sample),
    b'l': Call([SIGNED, UNSIGNED], rules.length),
    b'b': Call([UNSIGNED, UNSIGNED], rules.Scan.start, of_a_scan=True),
    b'r': Call([LEVELS, VALUE_BUFFER], rules.Scan.rows, of_a_scan=True),
    b'z': Call([VALUE_BUFFER], rules.Scan.end, of_a_scan=True),
}


def encoded(letter, *values):
    """The bytes of one request."""
    kinds = CALLS[letter].arguments
    return letter + b''.join(kind.encoded(value) for kind, value in zip(kinds, values, strict=True))


def read(source):
    """The next request: its letter and its arguments."""
    letter = source.bytes(1)
    if letter not in CALLS:
        raise Bad
    return letter, [kind.read(source) for kind in CALLS[letter].arguments]


def asked(data):
    """The whole requests of an input, up to its end or to the first bad one; and whether all were good."""
    source, found = Source(data), []
    while source.at < len(data):
        try:
            found.append(read(source))
        except Bad:
            return found, False
    return found, True


def answer(letter, values, scan):
    """The lines that answer a request: the numbers that come back, then each buffer as the call leaves it. The scan is the one
    that the requests before it have left."""
    call = CALLS[letter]
    numbers = call.rule(scan, *values) if call.of_a_scan else call.rule(*values)
    lines = [' '.join([letter.decode(), *map(str, numbers)])]
    for kind, value in zip(call.arguments, values):
        if isinstance(kind, Buffer):
            lines.append(' '.join(map(str, value)))
    return lines


def written(data):
    """All the lines that `calls` writes for an input."""
    found, good = asked(data)
    scan = rules.Scan()
    lines = [line for letter, values in found for line in answer(letter, values, scan)]
    return lines + [f'answered {len(found)}' if good else f'bad request {len(found)}']
