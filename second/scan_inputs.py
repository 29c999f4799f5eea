"""New random inputs for the scan of `calls`: whole scans, and calls to one scan as they come, good and refused."""
import random

import rules
import wire
from inputs import KINDS, end_arguments, fill, picture, rows_arguments, sides, wide


class Beam:
    """Requests to one scan, in one run of `calls`. Each is made for what the scan holds by then, which the second program says."""

    def __init__(self, rng):
        self.rng, self.scan, self.made = rng, rules.Scan(), b''

    def ask(self, letter, *values):
        request = wire.encoded(letter, *values)
        wire.answer(*wire.read(wire.Source(request)), self.scan)
        self.made += request

    def start(self, width, height):
        """A good start, of a picture that the beam will deliver."""
        self.picture = picture(self.rng, self.rng.choice(KINDS), width, height)
        self.ask(b'b', width, height)

    def left(self):
        """How many rows are still to come."""
        return self.scan.height - len(self.scan.levels) // self.scan.width

    def due(self, rows, ended):
        """How many elements come out with some rows more, or with the end."""
        came, width = len(self.scan.levels), self.scan.width
        return width * (self.scan.out(came + rows * width, ended) - self.scan.out(came, self.scan.ended))

    def buffer(self, due):
        """An output for so many elements: just long enough, or longer."""
        return due + self.rng.choice((0, 0, 0, 1, self.scan.width, 50)), fill(self.rng)

    def rows(self, count):
        """So many rows of the picture, of those that are left."""
        width, came = self.scan.width, len(self.scan.levels)
        self.ask(b'r', self.picture[came:came + count * width], self.buffer(self.due(count, self.scan.ended)))

    def end(self):
        """An end, good after the last row."""
        self.ask(b'z', self.buffer(self.due(0, True)))

    def refused(self):
        """A call that is refused, by one number or with several faults at once."""
        self.rng.choice((self.bad_rows, self.bad_rows, self.bad_rows, self.bad_end, self.bad_start))()

    def bad_rows(self):
        """A part of a row, rows beyond the height, too short an output: one of these or more. A row of one level has no parts, and
        no output is too short for nothing."""
        rng, width = self.rng, self.scan.width
        rows = rng.choice((self.left(), rng.randint(0, self.left())))
        due = self.due(rows, self.scan.ended)
        part, short = width > 1 and rng.random() < 0.4, due > 0 and rng.random() < 0.6
        if rng.random() < 0.3 or not part and not short:
            rows = self.left() + rng.choice((1, 1, 2, 9))
        levels = [rng.randrange(256) for _ in range(rows * width + (rng.randint(1, width - 1) if part else 0))]
        self.ask(b'r', levels, (rng.choice((due - 1, due - width, 0)), fill(rng)) if short else self.buffer(due))

    def bad_end(self):
        """An end before the last row, or a second one, or one whose output is too short."""
        due, good = self.due(0, True), self.left() == 0 and not self.scan.ended
        self.ask(b'z', (self.rng.choice((0, due - 1) if good else (0, due, due + 5)), fill(self.rng)))

    def bad_start(self):
        """A start with one side out of range, or both."""
        def bad():
            return self.rng.choice((0, 1_025, 1_025 + wide(self.rng, 63)))
        width, height = sides(self.rng)
        self.ask(b'b', *self.rng.choice(((bad(), height), (width, bad()), (bad(), bad()))))

    def between(self):
        """What may come between the rows and changes nothing: a call with no rows, and refused ones."""
        while self.rng.random() < 0.4:
            self.rng.choice((lambda: self.rows(0), self.refused))()

    def whole(self, width, height, groups):
        """A whole scan, its rows in these groups."""
        self.start(width, height)
        for count in groups:
            self.between()
            self.rows(count)
        self.between()
        self.end()
        self.between()


def groupings(rows):
    """Every way to part so many rows into groups."""
    if rows == 0:
        yield []
    for first in range(1, rows + 1):
        yield from ([first, *rest] for rest in groupings(rows - first))


def grouped(rng, rows):
    """Some way to part so many rows into groups: one by one, a few at a time, or many."""
    most, groups = rng.choice((1, 2, 4, rows)), []
    while rows:
        groups.append(rng.randint(1, min(most, rows)))
        rows -= groups[-1]
    return groups


def scans(rng, sizes):
    """A scan of each size, one after the other: rows grouped at random, and refused calls and calls with no rows between them."""
    beam = Beam(rng)
    for width, height in sizes:
        beam.whole(width, height, grouped(rng, height))
    return beam.made


def every_grouping(rng, width):
    """Up to six rows, in every way to group them."""
    beam = Beam(rng)
    for height in range(1, 7):
        for groups in groupings(height):
            beam.whole(width, height, groups)
    return beam.made


def large(rng):
    """The widest pictures and the highest. They come in few calls, since the second program filters anew with each."""
    beam = Beam(rng)
    for width, height, groups in ((1_024, 5, [1, 2, 1, 1]), (1_024, 1, [1]), (1_023, 4, [3, 1]), (1_024, 40, [17, 22, 1]),
                                  (5, 1_024, [3, 1, 500, 517, 1, 1, 1]), (1, 1_024, [1_000, 23, 1]), (1, 1_023, [1_023]),
                                  (1_024, 3, [2, 1])):
        beam.whole(width, height, groups)
    return beam.made


def largest(rng):
    """The largest picture in one call, without its end, for the second program takes seconds to filter it. Before it one level more,
    and an output that is too short."""
    levels, due = list(rng.randbytes(1_024 * 1_024)), 1_021 * 1_024
    made = wire.encoded(b'b', 1_024, 1_024) + wire.encoded(b'r', levels + [7], (0, 0))  # 20
    made += wire.encoded(b'r', levels, (due - 1, fill(rng)))  # 3
    made += wire.encoded(b'r', levels, (due + 1, fill(rng)))
    return made + wire.encoded(b'z', (3 * 1_024 - 1, fill(rng)))  # 3


def fixed(seed):
    """What is scanned in every comparison, with other levels and other groups by each seed: the name of an input, and its bytes."""
    for width in range(1, 13):
        rng = random.Random(f'{seed} {width} wide')
        yield f'scans {width} wide', scans(rng, [(width, height) for height in range(1, 13)])
        if width <= 3:  # the thin ones, both ways
            yield f'high scans {width} wide', scans(rng, [(width, height) for height in range(13, 31)])
            yield f'wide scans {width} high', scans(rng, [(long, width) for long in range(13, 31)])
    for width in (1, 2, 5, 19):
        yield f'every grouping of rows {width} wide', every_grouping(random.Random(f'{seed} {width} grouped'), width)
    yield 'the large scans', large(random.Random(f'{seed} large scans'))
    yield 'the largest scan', largest(random.Random(f'{seed} largest scan'))


def sequence(rng):
    """Good and bad calls to one scan as they come: also before any start, with starts in the middle, on and on."""
    beam = Beam(rng)
    for _ in range(rng.randint(0, 5)):
        rng.choice((beam.bad_start, lambda: beam.ask(b'r', *rows_arguments(rng)), lambda: beam.ask(b'z', *end_arguments(rng))))()
    beam.start(*sides(rng))
    for _ in range(rng.randint(60, 200)):
        step(beam, rng)
    return beam.made


def step(beam, rng):
    """One call: mostly the next that is good, so that scans come to their ends."""
    chance = rng.random()
    if chance < (0.3 if beam.scan.ended else 0.04):
        beam.start(*sides(rng))
    elif chance < 0.5 and beam.left():
        beam.rows(rng.randint(1, min(beam.left(), 5)))
    elif chance < 0.5:
        beam.end()
    elif chance < 0.6:
        beam.rows(0)
    else:
        beam.refused()
