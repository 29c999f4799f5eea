"""New random inputs for `calls`: good requests for every call there is, and damage."""
import wire


def near(rng, *bounds):
    """A number at one of the bounds or next to it."""
    return rng.choice(bounds) + rng.choice((-1, 0, 1))


def wide(rng, bits):
    """A number of at most so many bits, small ones as likely as large ones."""
    return rng.getrandbits(rng.randint(0, bits))


def length_arguments(rng):
    """A factor and a pixel size: mostly in range, else at a bound, or anything that the types hold."""
    factor = rng.choice((
        lambda: rng.randint(1, 16_384),
        lambda: rng.randint(1, 16_384),
        lambda: 1 + wide(rng, 14) % 16_384,
        lambda: near(rng, 1, 16_384),
        lambda: wide(rng, 63) * rng.choice((1, -1)),
        lambda: rng.randint(-2**63, 2**63 - 1),
    ))()
    pixel = rng.choice((
        lambda: rng.randint(1, 100_000),
        lambda: rng.randint(1, 100_000),
        lambda: 1 + wide(rng, 17) % 100_000,
        lambda: near(rng, 1, 100_000),
        lambda: wide(rng, 64),
    ))()
    return factor, pixel


def picture(rng, kind, width, height):
    """The levels of a picture: one of KINDS."""
    low, high = sorted((wide(rng, 8), rng.randrange(256)))
    across, down = rng.randint(-9, 9), rng.randint(-9, 9)
    level = {
        'random': lambda x, y: rng.randrange(256),
        'constant': lambda x, y: high,
        'two levels': lambda x, y: rng.choice((low, high)),
        'sloped': lambda x, y: (low + across * x + down * y) % 256,
        'mostly dark': lambda x, y: high if rng.random() < 0.1 else 0,
    }[kind]
    return [level(x, y) for y in range(height) for x in range(width)]


KINDS = 'random', 'constant', 'two levels', 'sloped', 'mostly dark'


def sides(rng):
    """Width and height: small, thin, or neither; large ones cost the second program time."""
    return rng.choice((
        lambda: (rng.randint(1, 5), rng.randint(1, 5)),
        lambda: (rng.randint(1, 5), rng.randint(1, 5)),
        lambda: (rng.randint(1, 3), rng.randint(1, 30)),
        lambda: (rng.randint(1, 30), rng.randint(1, 3)),
        lambda: (rng.randint(5, 14), rng.randint(5, 14)),
    ))()


def fill(rng):
    """What a buffer holds before the call: only as many low bits count as an element has."""
    return wide(rng, rng.choice((16, 64)))


def filter_arguments(rng):
    """A picture and two buffers."""
    width, height = sides(rng)
    return lent(rng, picture(rng, rng.choice(KINDS), width, height), width, height)


def lent(rng, levels, width, height):
    """A picture with two buffers: mostly good, else a side out of range, a wrong number of levels, a short buffer."""
    output, work = len(levels) + rng.choice((0, 0, 0, 1, 5)), len(levels) + rng.choice((0, 0, 0, 1, 5))
    wrong = rng.choice(6 * ('nothing',) + ('side', 'sides', 'levels', 'output', 'work', 'buffers'))
    levels, width, height = shaped(rng, wrong, levels, width, height)
    if wrong in ('output', 'buffers'):
        output = rng.choice((len(levels) - 1, rng.randrange(len(levels)), 0))
    if wrong in ('work', 'buffers'):
        work = rng.choice((len(levels) - 1, rng.randrange(len(levels)), 0))
    return levels, width, height, (output, fill(rng)), (work, fill(rng))


def shaped(rng, wrong, levels, width, height):
    """A picture as it is lent: with what is said to be wrong, a side, both sides or the levels, or as it is."""
    def bad():
        return rng.choice((0, near(rng, 1_025), wide(rng, 64)))
    if wrong == 'side':
        width, height = rng.choice(((bad(), height), (width, bad())))
    if wrong == 'sides':
        width, height = bad(), bad()
    if wrong == 'levels':
        levels = rng.choice((levels[1:], levels + [7], [], levels * 2))
    return levels, width, height


def micrograph(rng, width, height, ground=None, noise=None):
    """Bright and dark stripes or squares, wide enough to outlast the filter, with more or less noise: of every verdict."""
    dark, bright = ground or rng.choice((
        lambda: (rng.randint(12, 78), rng.randint(172, 243)),
        lambda: (rng.randint(12, 78), rng.randint(172, 243)),
        lambda: (near(rng, 10, 80), near(rng, 170, 245)),
        lambda: (rng.randint(0, 120), rng.randint(130, 255)),
    ))()
    noise = rng.choice((0, 0, 1, 2, 5, 10, 20, 40, 80)) if noise is None else noise
    # the stripes run across the longer side, so that every tile has both; squares need tiles of 4×4
    across, down = (2, 10**9) if width > height else (10**9, 2)
    if min(width, height) >= 16:
        across, down = rng.choice(((2, 10**9), (10**9, 2), (2, 2), (3, 4), (4, 3)))

    def level(x, y):
        return min(max((bright if (x // across + y // down) % 2 else dark) + rng.randint(-noise, noise), 0), 255)
    return [level(x, y) for y in range(height) for x in range(width)]


def near_the_rim(rng, width, height):
    """A micrograph without noise but for one pixel, most often one that just counts for D or just does not."""
    levels = micrograph(rng, width, height, noise=0)
    x, y = (rng.choice((0, 2, 3, size - 4, size - 3, size - 1, rng.randrange(size))) for size in (width, height))
    levels[y * width + x] = min(levels[y * width + x] + rng.randint(1, 9), 255)
    return levels


def measure_arguments(rng):
    """A picture whose sides are multiples of 4, mostly from 8 on and a micrograph; or any picture of the filter's."""
    if rng.random() < 0.2:
        return filter_arguments(rng)
    width, height = rng.choice((
        lambda: (4 * rng.randint(1, 4), 4 * rng.randint(1, 4)),
        lambda: (4 * rng.randint(4, 6), 4 * rng.randint(4, 6)),
        lambda: (16, 16),
        lambda: (4 * rng.randint(7, 12), 4 * rng.randint(7, 12)),
        lambda: (4 * rng.randint(2, 3), 4 * rng.randint(4, 10)),
        lambda: (4 * rng.randint(4, 10), 4 * rng.randint(2, 3)),
    ))()
    kind = rng.random()
    if kind < 0.7:
        return lent(rng, micrograph(rng, width, height), width, height)
    if kind < 0.8 and min(width, height) >= 8:
        return lent(rng, near_the_rim(rng, width, height), width, height)
    return lent(rng, picture(rng, rng.choice(KINDS), width, height), width, height)


def judge_arguments(rng):
    """N, M, m and D: mostly in range, with ratios of all sizes and at the very edge of one; else one of them is not, or all."""
    count = rng.choice((rng.randint(1, 1_048_576), 1 + wide(rng, 20) % 1_048_576, 1, 256, 1_048_576))
    bright, dark = (rng.choice((rng.randint(low, high), rng.randint(low, high), low, high)) for low, high in ((21_760, 31_360), (1_280, 10_240)))
    spread = rng.choice((
        edge(rng, count, bright, dark, 1_000),
        edge(rng, count, bright, dark, rng.choice((1, 2, 999, 1_001, wide(rng, 37)))),
        wide(rng, 62),
        rng.choice((0, 1, 2, 2**62 - 1, 2**62)),
    ))
    wrong = rng.choice((None, None, None, None, None, 'count', 'bright', 'dark', 'spread', 'all'))
    if wrong in ('count', 'all'):
        count = rng.choice((near(rng, 1, 1_048_576), wide(rng, 64)))
    if wrong in ('bright', 'all'):
        bright = rng.choice((near(rng, 21_760, 31_360), near(rng, 32_640), wide(rng, 15), wide(rng, 64)))
    if wrong in ('dark', 'all'):
        dark = rng.choice((near(rng, 1_280, 10_240), near(rng, 32_640), wide(rng, 15), wide(rng, 64)))
    if wrong in ('spread', 'all'):
        spread = rng.choice((near(rng, 2**62), 0, wide(rng, 64)))
    return count, bright, dark, spread


def edge(rng, count, bright, dark, ratio):
    """A D at which the ratio is just that many hundredths, or just fewer; or the nearest that the judge takes."""
    most = 10_000 * (bright - dark) ** 2 * count ** 2 // (256 * (ratio + 138) ** 2)
    return min(max(most + rng.choice((-1, 0, 1)), 0), 2**62)


def count_arguments(rng):
    """Values and a histogram: mostly good; else a value above 2,040, no values, or a histogram of another length."""
    most = rng.choice((2_040, 2_040, wide(rng, 11) % 2_041))
    size = rng.choice((1, 2, 3, wide(rng, 8) + 1, rng.randint(1, 300)))
    values = rng.choice((
        lambda: [rng.randint(0, most) for _ in range(size)],
        lambda: [most] * size,
        lambda: [rng.choice((most, most // 2)) for _ in range(size)],
        lambda: [8 * rng.randint(0, most // 8) + rng.choice((0, 7)) for _ in range(size)],  # both ends of a level
    ))()
    values = [min(value, 2_040) for value in values]
    places = 256
    wrong = rng.choice(6 * ('nothing',) + ('value', 'values', 'places', 'all'))
    if wrong in ('value', 'all'):
        values[rng.randrange(size)] = rng.choice((2_041, 2_047, 2_048, 65_535, rng.randint(2_041, 65_535)))
    if wrong == 'values':
        values = []
    if wrong in ('places', 'all'):
        places = rng.choice((0, 1, 255, 257, 2_041, wire.MOST_COUNTS, wide(rng, 12)))
    return values, (places, wide(rng, rng.choice((32, 64))))


def histogram(rng, kind):
    """A histogram of 256 counts: one of HISTOGRAMS. Its total may be above what the two means take."""
    low, high = sorted((rng.randrange(256), rng.randrange(256)))
    most, ratio = 1 + wide(rng, 20), rng.uniform(0.5, 1)
    if kind == 'slow':
        counts = slow(rng.uniform(0.9, 0.9995), rng.uniform(5, 60), rng.uniform(0.05, 0.95))
        return rng.choice((counts, counts[::-1]))  # down from 128, or up
    if kind == 'mirrored':  # about 128, which then rests after no round, counted itself or not
        half = [1 + wide(rng, 12) if rng.random() < 0.06 else 0 for _ in range(128)]
        half[0] = rng.choice((0, 1 + wide(rng, 12)))
        return [0] + half[:0:-1] + half
    count = {
        'sparse': lambda v: 1 + wide(rng, 16) if rng.random() < 0.02 else 0,
        'dense': lambda v: rng.randint(0, 8_000),
        'few': lambda v: rng.randint(0, 2),
        'band': lambda v: min(most, 4_096) if low <= v <= high else 0,  # T falls on levels that are counted
        'geometric': lambda v: int(most * ratio ** (v - low)) if low <= v <= high else 0,
        'geometric down': lambda v: int(most * ratio ** (high - v)) if low <= v <= high else 0,
        'peaks': lambda v: int(900 / (1 + (v - low) ** 2 / 9) + 700 / (1 + (v - high) ** 2 / 25)),
        'one level': lambda v: most if v == low else 0,
        'two levels': lambda v: {low: most, high: 1 + wide(rng, 19)}.get(v, 0),
    }[kind]
    return [count(v) for v in range(256)]


def slow(low, mean, step):
    """Counts that let the threshold go down from 128 by one level a round, for up to a hundred rounds and more.

    A share `low` of all counts lies below 128, with the mean given, and the rest above. From 127 down, each level is
    counted as often as brings the midpoint of the two means, once it has changed sides, a `step` below the next level.
    """
    low_sum, high, counts = low * mean, 1 - low, [0.0] * 256
    high_sum = high * min(max(2 * (127 - step) - mean, 128), 255)
    counts[255] = (high_sum - 128 * high) / 127
    counts[128] = high - counts[255]
    for level in range(127, 0, -1):
        least, most = 0.0, low * 0.999
        for _ in range(50):  # halving
            share = (least + most) / 2
            middle = (low_sum - level * share) / (low - share) + (high_sum + level * share) / (high + share)
            least, most = (share, most) if middle > 2 * (level - 1 - step) else (least, share)
        if low_sum < level * most or low_sum - level * most > (level - 1) * (low - most):
            break
        counts[level], low, low_sum, high, high_sum = most, low - most, low_sum - level * most, high + most, high_sum + level * most
    counts[int(low_sum / low)] += low
    return [int(1_048_000 * share) for share in counts]


HISTOGRAMS = ('sparse', 'dense', 'few', 'band', 'geometric', 'geometric down', 'peaks', 'one level', 'two levels', 'mirrored',
              'slow')


def two_means_arguments(rng):
    """A histogram: mostly good; else empty, its total at the bound or above, counts of 2^32 − 1, or of another length."""
    counts = histogram(rng, rng.choice(HISTOGRAMS))
    place = rng.randrange(256)
    wrong = rng.choice(7 * ('nothing',) + ('bound', 'bound', 'wraps', 'wraps to a few', 'empty', 'length'))
    rest = sum(counts) - counts[place]
    if wrong == 'bound' and rest < 1_048_576:
        counts[place] = 1_048_576 - rest + rng.choice((-1, 0, 0, 1))
    if wrong == 'wraps':  # a total of about 2^32, 2^33 or 2^40
        for at in rng.sample(range(256), rng.choice((1, 2, 255, 256))):
            counts[at] = 2**32 - rng.choice((1, 1, 2))
    if wrong == 'wraps to a few':  # a total that 32 bits would take for one in range
        one, other = rng.sample(range(256), 2)
        counts = [0] * 256
        counts[one] = 2**32 - rng.randint(1, 2**20)
        counts[other] = 2**32 - counts[one] + wide(rng, 20)
    if wrong == 'empty':
        counts = [0] * 256
    if wrong == 'length':
        counts = rng.choice((counts[:255], counts + [0], counts + [1], [0] * 255, [0] * 257, [], [5], counts[:rng.randrange(256)],
                             counts * 8, counts * 16))
    return counts,


def sample_arguments(rng):
    """A picture and a place: inside, at one of the four borders, left or above, far away; or a picture that is wrong."""
    width, height = rng.choice((
        lambda: (rng.randint(4, 9), rng.randint(4, 9)),
        lambda: (rng.randint(4, 9), rng.randint(4, 9)),
        lambda: (4, rng.randint(4, 20)),
        lambda: (rng.randint(4, 20), 4),
        lambda: sides(rng),
    ))()
    levels = picture(rng, rng.choice(KINDS), width, height)
    inside = rng.random() < 0.5
    x, y = (rng.randint(16, max(16 * side - 33, 16)) if inside else coordinate(rng, side) for side in (width, height))
    wrong = rng.choice(8 * ('nothing',) + ('side', 'sides', 'levels', 'turned'))
    if wrong == 'turned':
        width, height = height, width
    return *shaped(rng, wrong, levels, width, height), x, y


def coordinate(rng, side):
    """One coordinate of a place, along a side: half of them have a sample, if the side is long enough for one."""
    last = 16 * side - 33  # the last that has one
    within = rng.randint(16, max(last, 16))
    return rng.choice(6 * (lambda: within,) + (
        lambda: near(rng, 16, last),
        lambda: 16 * rng.randint(0, side) + rng.choice((-1, 0)),
        lambda: rng.randint(-40, 16 * side + 40),
        lambda: wide(rng, 63) * rng.choice((1, -1)),
        lambda: within + rng.choice((1, -1)) * 2**rng.choice((8, 16, 32, 36, 48, 60, 62, rng.randint(8, 62))),  # inside, if high bits were lost
        lambda: rng.choice((-2**63, 2**63 - 1)),
    ))()


def start_arguments(rng):
    """The sides of a scan: mostly small, so that rows which know nothing of them are whole ones now and then."""
    wrong = rng.choice(8 * ('nothing',) + ('side', 'sides'))
    return shaped(rng, wrong, [], rng.randint(1, 3), rng.randint(1, 7))[1:]


def rows_arguments(rng):
    """Levels and an output, for whatever scan there is."""
    return [rng.randrange(256) for _ in range(rng.choice((0, 1, 2, 3, 4, 6, 6, 12)))], end_arguments(rng)[0]


def end_arguments(rng):
    """An output, for whatever scan there is."""
    return (rng.choice((0, 1, 2, 3, 9, 40)), fill(rng)),


# For each call, what makes good arguments for it.
ARGUMENTS = {
    b'f': filter_arguments,
    b'm': measure_arguments,
    b'j': judge_arguments,
    b'c': count_arguments,
    b't': two_means_arguments,
    b's': sample_arguments,
    b'l': length_arguments,
    b'b': start_arguments,
    b'r': rows_arguments,
    b'z': end_arguments,
}


def good(rng):
    """One whole request."""
    letter = rng.choice(sorted(ARGUMENTS))
    return wire.encoded(letter, *ARGUMENTS[letter](rng))


def cut(rng, data):
    return data[:rng.randrange(len(data))] if data else data


def flipped(rng, data):
    if not data:
        return data
    at = rng.randrange(len(data))
    return data[:at] + bytes([data[at] ^ 1 << rng.randrange(8)]) + data[at + 1:]


def put_in(rng, data):
    at = rng.randint(0, len(data))
    return data[:at] + rng.randbytes(rng.randint(1, 20)) + data[at:]


def taken_out(rng, data):
    at = rng.randint(0, len(data))
    return data[:at] + data[at + rng.randint(1, 20):]


def unknown(rng, data):
    """A letter that names no call, after good requests."""
    letters = [b for b in range(256) if bytes([b]) not in wire.CALLS]
    return data + bytes([rng.choice(letters)]) + rng.randbytes(rng.randint(0, 40))


def noise(rng, data):
    return rng.randbytes(rng.randint(0, 200))


DAMAGE = {'none': lambda rng, data: data, 'cut': cut, 'a bit flipped': flipped, 'bytes put in': put_in,
          'bytes taken out': taken_out, 'an unknown letter': unknown, 'noise': noise}


def random_input(rng, kind):
    """Some good requests, damaged in the way named."""
    return DAMAGE[kind](rng, b''.join(good(rng) for _ in range(rng.randint(0, 60))))


# For each call, one request that is sure to be good. Those of a scan make one, in the order of their letters.
EXAMPLES = {
    b'f': ([1, 2, 3, 4], 2, 2, (5, 9), (4, 8)),
    b'm': ([20] * 8 + [220] * 8, 4, 4, (17, 9), (16, 8)),
    b'j': (256, 25_600, 6_400, 419_430_400),
    b'c': ([0, 7, 8, 2_040], (256, 9)),
    b't': ([3, 0, 1] + [0] * 253,),
    b's': ([0, 0, 255, 255] * 4, 4, 4, 24, 24),
    b'l': (32, 800),
    b'b': (2, 5),
    b'r': ([0, 9, 1, 0, 7, 2, 5, 3, 8, 6], (5, 9)),
    b'z': ((7, 9),),
}


def endings():
    """Ways to end, each once whatever the seed: a request cut short, one that is a little too long, no input at all, no call."""
    for letter, example in sorted(EXAMPLES.items()):
        whole = wire.encoded(letter, *example)
        # after each of its bytes; of a long one, after the first sixty, the last, and some between
        yield from (whole + whole[:size] for size in range(len(whole) + 1) if size < 60 or size % 89 == 0 or size > len(whole) - 5)
    for whole in (wire.encoded(b't', [1] * (wire.MOST_COUNTS + 1)), wire.encoded(b'c', [8], (wire.MOST_COUNTS + 1, 0)),
                  wire.encoded(b'c', [8] * (wire.MOST + 1), (256, 0)), wire.encoded(b'r', [8] * (wire.MOST + 1), (0, 0)),
                  wire.encoded(b'r', [], (wire.MOST + 1, 0)), wire.encoded(b'z', (wire.MOST + 1, 0))):
        yield from (whole, whole[:9])  # one element too many, whether it follows or not
    yield from (b'', b'?', b'\0', b'\xff' * 100)


def small_sizes():
    """Every size to 6×6, every width to 27, and the sizes to 20×20 by fours, which can be measured from 8×8 on."""
    sizes = [(width, height) for width in range(1, 7) for height in range(1, 7)] + [(width, 3) for width in range(7, 28)]
    return sizes + [(4 * a, 4 * b) for a in range(1, 6) for b in range(1, 6) if a > 1 or b > 1]


def every_kind(rng, width, height):
    """One picture of each kind, of one size, filtered; one measured, and one micrograph."""
    made = b''
    asked = [(b'f', picture(rng, kind, width, height)) for kind in KINDS]
    asked += [(b'm', picture(rng, rng.choice(KINDS), width, height)), (b'm', micrograph(rng, width, height))]
    for letter, levels in asked:
        made += wire.encoded(letter, levels, width, height, (len(levels), fill(rng)), (len(levels), fill(rng)))
    return made


def every_place(rng, width, height):
    """Every place of a small picture, and those around it: all remainders, and all four borders."""
    levels = picture(rng, 'random', width, height)
    return b''.join(wire.encoded(b's', levels, width, height, x, y)
                    for y in range(-18, 16 * height + 3) for x in range(-18, 16 * width + 3))


def large(rng):
    """The largest picture, filtered, measured and sampled; the longest thin ones; the most values; slices and buffers as long as may be."""
    whole = picture(rng, 'random', 1_024, 1_024)
    made = wire.encoded(b'f', whole, 1_024, 1_024, (len(whole) + 1, fill(rng)), (len(whole), fill(rng)))
    seen = micrograph(rng, 1_024, 1_024, ground=(40, 200), noise=20)  # a ratio, whatever the seed
    made += wire.encoded(b'm', seen, 1_024, 1_024, (len(seen), fill(rng)), (len(seen) + 1, fill(rng)))
    for width, height in ((1_024, 1), (1, 1_024), (1_024, 2), (2, 1_024), (1_023, 3), (3, 1_023)):
        levels = picture(rng, rng.choice(KINDS), width, height)
        made += wire.encoded(b'f', levels, width, height, (len(levels), fill(rng)), (len(levels), fill(rng)))
    for width, height in ((1_024, 8), (8, 1_024), (1_020, 8), (8, 1_020), (1_024, 4), (100, 84)):
        levels = micrograph(rng, width, height)
        made += wire.encoded(b'm', levels, width, height, (len(levels), fill(rng)), (len(levels), fill(rng)))
    # the largest picture's four corners, and past two of them
    for x, y in ((16, 16), (16_351, 16), (16, 16_351), (16_351, 16_351), (16_352, 16), (16, 16_352)):
        made += wire.encoded(b's', whole, 1_024, 1_024, x, y)
    made += wire.encoded(b's', whole + [1], 1_024, 1_024, 16, 16)  # one level too many: 2
    for width, height in ((1_024, 4), (4, 1_024)):
        made += wire.encoded(b's', picture(rng, 'random', width, height), width, height, 16 * width - 33, 16 * height - 33)  # the last place
    for most in (2_040, 8, 2_041):  # as many values as may be counted: of every level, of two, and one that is too large
        values = [rng.randint(0, 2_040) % most for _ in range(1_048_575)] + [most]
        made += wire.encoded(b'c', values, (256, fill(rng)))
    made += wire.encoded(b'c', [320] * 1_048_576, (256, fill(rng))) + wire.encoded(b'c', [320] * 1_048_577, (256, fill(rng)))
    made += wire.encoded(b'c', [320] * 1_048_577, (255, fill(rng)))  # 10 comes before 15
    made += wire.encoded(b'f', whole + [1], 1_024, 1_024, (2, 3), (0, 0))  # one level too many: 2
    made += wire.encoded(b'f', whole, 1_024, 1_024, (2, 3), (wire.MOST, fill(rng)))  # 3
    return made + wire.encoded(b'f', [], 1, 1, (wire.MOST + 1, 0), (0, 0))  # a bad request
