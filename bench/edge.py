"""Which rule a median filter has at the edge: found out from what it makes of a small picture."""
import statistics
import sys
from pathlib import Path

sys.path.append(str(Path(__file__).resolve().parent.parent / 'second'))
import rules  # noqa: E402 - the second program's rules: ours is held to them, never to gong

# Where a place past the edge is looked up; None: nowhere.
EDGES = {
    'drops': lambda k, side: k if 0 <= k < side else None,
    'repeats': lambda k, side: min(max(k, 0), side - 1),
    'mirrors': lambda k, side: abs(k) if k < side else 2 * side - 2 - k,
}


def read_picture(path):
    """The levels, width and height of a binary PGM of 8 bits without comments, as the bench writes it."""
    kind, sides, _, levels = Path(path).read_bytes().split(b'\n', 3)
    assert kind == b'P5'
    width, height = map(int, sides.split())
    return levels, width, height


def blocks(levels, width, height, edge, nothing):
    """The block of each pixel, by a rule for places past the edge."""
    for y in range(height):
        for x in range(width):
            places = [(edge(x + across, width), edge(y + down, height)) for down in (-1, 0, 1) for across in (-1, 0, 1)]
            block = [nothing if None in place else levels[place[1] * width + place[0]] for place in places]
            yield [level for level in block if level is not None]


def candidates(levels, width, height):
    """Each rule that is known here by its name, with what it makes of the picture."""
    yield 'our rule', [halves / 2 for halves in rules.one_pass(levels, width, height)]
    dropped = list(blocks(levels, width, height, EDGES['drops'], None))
    yield 'drops, lower middle', [statistics.median_low(block) for block in dropped]
    yield 'drops, upper middle', [statistics.median_high(block) for block in dropped]
    yield 'drops, mean rounded down', [int(statistics.median(block)) for block in dropped]
    for name in ('repeats', 'mirrors'):
        yield f'{name} pixels', [statistics.median(block) for block in blocks(levels, width, height, EDGES[name], None)]
    yield 'zeros', [statistics.median(block) for block in blocks(levels, width, height, EDGES['drops'], 0)]


def rule(path, filtered):
    """The name of the rule by which the picture was filtered."""
    for name, made in candidates(*read_picture(path)):
        if made == filtered:
            return name
    return 'another rule'
