"""The program `gongspindle`: records that come in, lines that go out.

`written` gives all that the program writes for an input, whatever bytes that is. Read it beside
document 01, "The program".
"""
import struct

import rules

MOST = 32_768  # "program input above 32,768 bytes"
SIDES = {1: 16, 2: 64}  # "Kind 1: a 16×16 picture, 256 bytes. Kind 2: a 64×64 picture, 4,096 bytes."
PIXEL = 3  # "Kind 3: pixel size, 4 bytes, little-endian"


def body_length(kind):
    """"a body whose length the kind fixes": None where there is no such kind."""
    return SIDES[kind] ** 2 if kind in SIDES else 4 if kind == PIXEL else None


def parsed(data):
    """The good records as (kind, body), and the number and offset of the bad one, or None."""
    found, at = [], 0
    while at < len(data):
        size = body_length(data[at])
        if size is None:
            return found, (16, at)
        if at + 1 + size > len(data):
            return found, (17, at)
        found.append((data[at], data[at + 1:at + 1 + size]))
        at += 1 + size
    return found, None


def picture_line(levels, side):
    """"width, height, number, q, rounds, numerator/denominator"."""
    output, histogram = [0] * side ** 2, [0] * 256
    number, ratio = rules.measure(list(levels), side, side, output, [0] * side ** 2)
    rules.count(output, histogram)
    _, rounds, numerator, denominator = rules.two_means(histogram)
    return f'{side} {side} {number} {ratio} {rounds} {numerator}/{denominator}'


def line(kind, body):
    """A good record's line."""
    if kind == PIXEL:
        return f'pixel {struct.unpack("<I", body)[0]}'
    return picture_line(body, SIDES[kind])


def written(data):
    """All the lines that the program writes for an input."""
    if len(data) > MOST:
        return ['bad 18 at 32768']  # "Input too long gives only"
    found, bad = parsed(data)
    last = f'records {len(found)}' if bad is None else f'bad {bad[0]} at {bad[1]}'
    return [line(*record) for record in found] + [last]
