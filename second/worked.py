"""What document 01 works out by hand, with the answers that the document itself prints.

These are typed from the document ("What a student can work by hand") and not computed: they hold
this second program to the paper, as the comparison holds the first program to this one. (Some are
worked out from a sentence: a sample on a pixel is the pixel's own level, a scan gives out the rows of
the same pictures, each when document 02 says, and one pixel that is changed is noise where it says.)
Each row: the call, its arguments, what comes back. The rows of RECORDS are whole inputs of the program
`gongspindle`, and the lines that the document and the project's decisions say.
"""
import rules
from scan_inputs import groupings


def filtered(width, height, levels):
    """The eighths of a picture, by way of the whole call."""
    output, work = [0] * len(levels), [0] * len(levels)
    return rules.filter(levels, width, height, output, work) + tuple(output)


def played(*calls):
    """What some calls to one scan give back. A call is its name and its arguments, the output told by its length: it is lent full
    of sevens, and what it holds afterwards stands behind the number and the rows."""
    scan, answers = rules.Scan(), []
    for name, *arguments in calls:
        if name == 'start':
            answers.append(scan.start(*arguments))
        else:
            *levels, room = arguments
            output = [7] * room
            answers.append(getattr(scan, name)(*levels, output) + tuple(output))
    return answers


def given_out(width, height, levels):
    """All that a scan of a picture can give out, over every way to part its rows into groups."""
    found = set()
    for groups in groupings(height):
        calls, at = [('start', width, height)], 0
        for rows in groups:
            calls.append(('rows', levels[at:at + rows * width], len(levels)))
            at += rows * width
        answers = played(*calls, ('end', len(levels)))
        found.add(tuple(value for _, rows, *output in answers[1:] for value in output[:rows * width]))
    return found


def first_pass(width, height, levels):
    return tuple(rules.one_pass(levels, width, height))


def measured(width, height, levels):
    """The number and q of a picture, by way of the whole call."""
    return rules.measure(levels, width, height, [0] * len(levels), [0] * len(levels))


def noise(width, height, levels):
    """N and D of a picture, by way of the filter."""
    output = [0] * len(levels)
    rules.filter(levels, width, height, output, [0] * len(levels))
    places = rules.inner(width, height)
    return len(places), rules.spread(levels, output, places)


def bands(width, height, x, y):
    """Two dark rows and two bright ones by turns, which the filter leaves alone, but one level more at x, y, which it takes back."""
    levels = [200 if k // width // 2 % 2 else 40 for k in range(width * height)]
    levels[y * width + x] += 1
    return levels


def judged_six(bright):
    return rules.judge(256, bright, 6_400, 419_430_400)[0] == 6


def judged_seven(dark):
    return rules.judge(256, 25_600, dark, 419_430_400)[0] == 7


def histogram(**counts):
    """A histogram of 256 places: v10=3 for three pixels at level 10."""
    return [counts.get(f'v{level}', 0) for level in range(256)]


def rests(counts, level):
    """Whether a level rests as a threshold: half the sum of the two means is the level again."""
    a, b, c, e = rules.sides(counts, level)
    return a * e + c * b == level * 2 * b * e


def counted_and_parted(width, height, levels):
    """The threshold of a picture, by way of the filter and the counting."""
    filtered, counts = [0] * len(levels), [7] * 256
    assert rules.filter(levels, width, height, filtered, [0] * len(levels)) == (0,)
    assert rules.count(filtered, counts) == (0,)
    return rules.two_means(counts)


# three columns and seven rows that no symmetry leaves alone
UNEVEN = [0, 9, 1, 0, 7, 2, 200, 3, 90, 14, 255, 8, 31, 60, 5, 77, 2, 140, 13, 6, 99]

WORKED = [
    # "1×1, level 7: 56 eighths. 1×2, 0 1: 4 4. 1×3, 0 0 9: 0 0 9. 2×2, 1 2 3 4: all 20."
    (filtered, (1, 1, [7]), (0, 56)),
    (filtered, (1, 2, [0, 1]), (0, 4, 4)),
    (filtered, (1, 3, [0, 0, 9]), (0, 0, 0, 9)),
    (filtered, (2, 2, [1, 2, 3, 4]), (0, 20, 20, 20, 20)),
    # The same by rows (document 02, P1): up to three rows all come "with the end". "Output past the rows given out never changes."
    (played, (('start', 1, 1), ('rows', [7], 1), ('end', 1)), [(0,), (0, 0, 7), (0, 1, 56)]),
    (played, (('start', 1, 3), ('rows', [0], 1), ('rows', [0], 0), ('rows', [9], 1), ('end', 4)),
     [(0,), (0, 0, 7), (0, 0), (0, 0, 7), (0, 3, 0, 0, 9, 7)]),
    (played, (('start', 2, 2), ('rows', [1, 2, 3, 4], 1), ('end', 5)), [(0,), (0, 0, 7), (0, 2, 20, 20, 20, 20, 7)]),
    # "A third-pass row comes out with the call that brings the third row below it": one level 5, which is 40 eighths everywhere
    (played, (('start', 1, 5), ('rows', [5] * 3, 2), ('rows', [5], 2), ('rows', [5], 2), ('end', 4)),
     [(0,), (0, 0, 7, 7), (0, 1, 40, 7), (0, 1, 40, 7), (0, 3, 40, 40, 40, 7)]),
    (played, (('start', 1, 5), ('rows', [5] * 5, 3), ('end', 3)), [(0,), (0, 2, 40, 40, 7), (0, 3, 40, 40, 40)]),
    # "However the rows are grouped, all rows given out together equal the whole filter's output."
    (given_out, (1, 1, [7]), {(56,)}),
    (given_out, (1, 2, [0, 1]), {(4, 4)}),
    (given_out, (1, 3, [0, 0, 9]), {(0, 0, 9)}),
    (given_out, (2, 2, [1, 2, 3, 4]), {(20, 20, 20, 20)}),
    (given_out, (3, 7, UNEVEN), {filtered(3, 7, UNEVEN)[1:]}),
    # "1, also before a good start", whatever else is wrong
    (played, (('start', 0, 1), ('rows', [], 0), ('rows', [5], 1), ('end', 0)), [(1,), (1, 0), (1, 0, 7), (1, 0)]),
    (played, (('start', 1_024, 1_024), ('start', 1_025, 1), ('start', 1, 1_025)), [(0,), (1,), (1,)]),
    # "20 for a number of levels that is no whole number of rows", "21 for rows beyond the height", "22 for an end before the last
    # row or a second end", "then 3 where the output is shorter than the rows due"
    (played, (('start', 2, 5), ('rows', [5] * 3, 0), ('rows', [5] * 13, 0)), [(0,), (20, 0), (20, 0)]),
    (played, (('start', 2, 5), ('rows', [5] * 12, 0)), [(0,), (21, 0)]),
    (played, (('start', 2, 5), ('rows', [5] * 8, 1), ('end', 0)), [(0,), (3, 0, 7), (22, 0)]),
    (played, (('start', 1, 1), ('end', 0), ('rows', [5], 0), ('end', 0), ('end', 1), ('end', 1)),
     [(0,), (22, 0), (0, 0), (3, 0), (0, 1, 40), (22, 0, 7)]),
    # "A refused call changes nothing held", a start too. "A call with no rows is allowed and gives none", after the end as well.
    (played, (('start', 1, 1), ('rows', [5], 0), ('rows', [5], 1), ('start', 0, 1), ('rows', [], 0), ('end', 1), ('rows', [], 0)),
     [(0,), (0, 0), (21, 0, 7), (1,), (0, 0), (0, 1, 40), (0, 0)]),
    # "A good start drops what is held and begins anew."
    (played, (('start', 1, 4), ('rows', [200] * 3, 0), ('start', 1, 2), ('rows', [0, 1], 0), ('end', 2)),
     [(0,), (0, 0), (0,), (0, 0), (0, 2, 4, 4)]),
    # "3×3, 1 to 9, first pass in halves: 6 7 8, 9 10 11, 12 13 14."
    (first_pass, (3, 3, [1, 2, 3, 4, 5, 6, 7, 8, 9]), (6, 7, 8, 9, 10, 11, 12, 13, 14)),
    # "Judge with N = 256, M = 25,600: m = 6,400, D = 419,430,400 gives 0 and 1,362; D = 943,718,400 gives 9 and 862;
    # m = 7,392, D = 655,360,000 gives 0 and 1,000; D one more gives 9 and 999."
    (rules.judge, (256, 25_600, 6_400, 419_430_400), (0, 1_362)),
    (rules.judge, (256, 25_600, 6_400, 943_718_400), (9, 862)),
    (rules.judge, (256, 25_600, 7_392, 655_360_000), (0, 1_000)),
    (rules.judge, (256, 25_600, 7_392, 655_360_001), (9, 999)),
    # "M = 21,759 or 31,361 is 6; 21,760 and 31,360 are not. m = 1,279 or 10,241 is 7; 1,280 and 10,240 are not."
    (judged_six, (21_759,), True),
    (judged_six, (31_361,), True),
    (judged_six, (21_760,), False),
    (judged_six, (31_360,), False),
    (judged_seven, (1_279,), True),
    (judged_seven, (10_241,), True),
    (judged_seven, (1_280,), False),
    (judged_seven, (10_240,), False),
    # "For one kind-1 record whose levels are all 40": "16 16 6 0"
    (measured, (16, 16, [40] * 256), (6, 0)),
    # "the sum for D leaves out the three outermost rows and columns on each side, and N .. is (w−6)·(h−6)" (document 02, P3): N pixels of
    # which one has d = 8 have D = N·64 − 64, and where it is one of those that are left out D = 0
    *[(noise, (12, 20, bands(12, 20, x, y)), (84, 5_312)) for x, y in ((3, 3), (8, 3), (3, 16), (8, 16))],
    *[(noise, (12, 20, bands(12, 20, x, y)), (84, 0)) for x, y in ((2, 3), (3, 2), (9, 16), (8, 17), (0, 9), (11, 9), (5, 0), (5, 19))],
    (noise, (20, 12, bands(20, 12, 16, 8)), (84, 5_312)),
    (noise, (20, 12, bands(20, 12, 8, 9)), (84, 0)),
    # "a plain slope in the picture counts as noise there": no more
    (noise, (12, 12, [20 * (k % 12) for k in range(144)]), (36, 0)),
    (noise, (8, 8, [8 * (k // 8) for k in range(64)]), (4, 0)),
    # "5 is also given when a side is below 8"
    (measured, (4, 4, [40] * 16), (5, 0)),
    (measured, (4, 8, [40] * 32), (5, 0)),
    (measured, (8, 4, [40] * 32), (5, 0)),
    (measured, (8, 8, [40] * 64), (6, 0)),
    # "Threshold: one pixel each at 0 and 255: 255/2, 1 round. three at 10, one at 20: 90/6, 2 rounds. one each at 100, 128,
    # 156: 1024/8, 0 rounds, though 121 and 135 rest too."
    (rules.two_means, (histogram(v0=1, v255=1),), (0, 1, 255, 2)),
    (rules.two_means, (histogram(v10=3, v20=1),), (0, 2, 90, 6)),
    (rules.two_means, (histogram(v100=1, v128=1, v156=1),), (0, 0, 1_024, 8)),
    (rests, (histogram(v100=1, v128=1, v156=1), 121), True),
    (rests, (histogram(v100=1, v128=1, v156=1), 135), True),
    # the same record's "0 5242880/131072": its rounds and its threshold
    (counted_and_parted, (16, 16, [40] * 256), (0, 0, 5_242_880, 131_072)),
    # "Four columns 0 0 255 255, four rows, both remainders 8: 8,556,380,160 (127.5 levels) at i = j = 1."
    (rules.sample, ([0, 0, 255, 255] * 4, 4, 4, 16 + 8, 16 + 8), (0, 8_556_380_160)),
    # "At k = 0 both ways it is the pixel's own level, exactly": in 1/67,108,864, at column 2 and row 1 of 6×5
    (rules.sample, (list(range(30)), 6, 5, 2 * 16, 1 * 16), (0, 8 * 67_108_864)),
    # "s = 32, p = 800: 1,131."
    (rules.length, (32, 800), (0, 1_131)),
]


def pixel(size):
    """A record of kind 3."""
    return b'\3' + size.to_bytes(4, 'little')


# A 16×16 picture whose levels are all 40, and its line
FORTY, FORTY_LINE = b'\1' + bytes([40] * 256), '16 16 6 0 0 5242880/131072'
# As many records of kind 3 as 32,768 bytes hold, which are 6,553 and three bytes more
PIXELS = pixel(800) * 6_553

RECORDS = [
    # "For one kind-1 record whose levels are all 40 the whole output is"
    (FORTY, [FORTY_LINE, 'records 1']),
    # no input; "for kind 3 `pixel` and the size"
    (b'', ['records 0']),
    (pixel(0) + pixel(4_294_967_295), ['pixel 0', 'pixel 4294967295', 'records 2']),
    # "A faulty record gives `bad`, number, `at`, offset of its kind byte as the last line, after the good records' lines."
    (b'\0', ['bad 16 at 0']),
    (b'\4' + bytes(5_000), ['bad 16 at 0']),
    (b'\1' + bytes(255), ['bad 17 at 0']),
    (b'\2' + bytes(4_095), ['bad 17 at 0']),
    (b'\3' + bytes(3), ['bad 17 at 0']),
    (b'\3', ['bad 17 at 0']),
    (FORTY + pixel(800) + b'\7', [FORTY_LINE, 'pixel 800', 'bad 16 at 262']),
    (pixel(800) + FORTY + b'\2', ['pixel 800', FORTY_LINE, 'bad 17 at 262']),
    # 32,768 bytes are taken, whole records or not; "Input too long gives only `bad 18 at 32768`."
    (FORTY * 126 + pixel(1) * 77 + b'\0', [FORTY_LINE] * 126 + ['pixel 1'] * 77 + ['bad 16 at 32767']),
    (FORTY * 3 + pixel(1) * 6_399 + b'\3\0', [FORTY_LINE] * 3 + ['pixel 1'] * 6_399 + ['bad 17 at 32766']),
    (PIXELS + b'\3\0\0', ['pixel 800'] * 6_553 + ['bad 17 at 32765']),
    (FORTY * 4 + pixel(1) * 6_348, [FORTY_LINE] * 4 + ['pixel 1'] * 6_348 + ['records 6352']),
    (PIXELS + b'\3\0\0\0', ['bad 18 at 32768']),
    (bytes(32_769), ['bad 18 at 32768']),
    (FORTY * 200, ['bad 18 at 32768']),
]
