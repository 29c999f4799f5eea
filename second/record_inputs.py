"""New random inputs for `gongspindle`: good records of every kind, and damage."""
import struct

import inputs
from records import MOST, PIXEL, SIDES

KINDS = (*SIDES, PIXEL)


def album(rng):
    """Pictures to draw from, by kind: few large ones, since the second program takes its time for one."""
    def picture(side):
        if rng.random() < 0.7:
            return bytes(inputs.micrograph(rng, side, side))
        return bytes(inputs.picture(rng, rng.choice(inputs.KINDS), side, side))
    return {kind: [picture(side) for _ in range(60 // kind)] for kind, side in SIDES.items()}


def pixel(size):
    """A record of kind 3."""
    return bytes([PIXEL]) + struct.pack('<I', size)


def good(rng, pictures):
    """One whole record."""
    kind = rng.choice((1, 1, 1, 2, 3, 3, 3, 3))
    if kind == PIXEL:
        return pixel(rng.choice((inputs.wide(rng, 32), rng.getrandbits(32), 0, 2**32 - 1)))
    return bytes([kind]) + rng.choice(pictures[kind])


def unknown(rng, data):
    """A kind that there is not, after good records."""
    kind = rng.choice([b for b in range(256) if b not in KINDS])
    return data + bytes([kind]) + rng.randbytes(rng.choice((0, 1, 4, 300)))


def body_cut(rng, data):
    """A record whose body is short by a few bytes, after good records."""
    kind, size = rng.choice(((1, 256), (2, 4_096), (3, 4)))
    return data + bytes([kind]) + rng.randbytes(size - rng.choice((1, 2, size)))


def too_long(rng, data):
    """More bytes than the program takes, by one or by many, whatever they are."""
    size = MOST + rng.choice((1, 1, 2, rng.randint(1, 70_000)))
    filler = rng.choice((b'\3', b'\0', bytes([rng.randrange(256)])))
    return (data + filler * size)[:size]


def just_full(rng, data):
    """As many bytes as the program takes, or a few fewer: filled up with sizes of pixels, and then a good end or a bad one."""
    room = max(MOST - rng.choice((0, 0, 1, 2, 3, 4, 5)) - len(data), 0)
    return data + (pixel(rng.getrandbits(32)) * (room // 5 + 1))[:room]


DAMAGE = {name: inputs.DAMAGE[name] for name in ('none', 'cut', 'a bit flipped', 'bytes put in', 'bytes taken out', 'noise')}
DAMAGE |= {'an unknown kind': unknown, 'a body cut short': body_cut, 'too long': too_long, 'just full': just_full}


def random_input(rng, kind, pictures):
    """Some good records, damaged in the way named."""
    return DAMAGE[kind](rng, b''.join(good(rng, pictures) for _ in range(rng.randint(0, 7))))


def endings():
    """Ways to end, each once whatever the seed: no input, each kind alone, each body cut short, as much as is taken, and more."""
    yield b''
    small, large, size = b'\1' + bytes(range(256)), b'\2' + bytes(range(256)) * 16, pixel(800)
    yield from (bytes([kind]) for kind in range(256))  # a kind byte alone: 17 for the three that there are, else 16
    for whole in (small, large, size):
        yield from (whole[:cut] for cut in (*range(1, 6), len(whole) - 1, len(whole)))
        yield from (size + small + whole[:cut] for cut in (1, 4, len(whole) - 1, len(whole)))
        yield from (whole + bytes([kind]) for kind in (0, 4, 255))
    yield from (pixel(number) for number in (0, 1, 255, 256, 65_535, 65_536, 2**24 - 1, 2**24, 2**31, 2**32 - 1))
    yield from ((size * (MOST // 5 + 2))[:length] for length in range(MOST - 5, MOST + 6))
    yield from (small * 127 + size * rest for rest in (0, 25, 26))  # 32,639 bytes; 32,764; 32,769
    yield from (large * 7 + small * 15 + size * rest for rest in (0, 46, 47, 48))  # 32,534; 32,764; 32,769; 32,774
    yield from (b'\xff' * length for length in (MOST, MOST + 1, 2 * MOST))
