"""What docs/for-students.md says about measuring, held to the second program: each function is a test with a name, which
`.ci/pages` runs. It gives back what is wrong."""
from fractions import Fraction
from math import isqrt

import rules  # of the second program, which .ci/pages has put on the path
from reading import TOP, apart, drawn, listed, mixed, page, row, rows, unsaid

SMALL, LARGE = 4, 8  # the sides of the two pictures: the one that is refused, the one that is measured
DARK, BRIGHT = 70, 250  # the levels of the larger one, but for its noise
LESS, FINE, FULL = 138, 16, 100  # the numbers of the ratio's inequality: the second and the third stand squared in it
STEEP = 0, 3  # column and row of the pixel at which the page shows what the rim does
PLAIN = [20 * column for column in range(12)]  # the columns of the two slopes
FOLDED = [20, 125, 230, 230, 125, 20, 20, 125, 230, 230, 125, 20]
WORDS = 'no', 'one', 'two', 'three', 'four', 'five', 'six', 'seven', 'eight'


def verdict(levels, side, places):
    """Of a square picture the filtered eighths, D over these pixels, and the judge's number and q by it."""
    eighths = [0] * side**2
    assert rules.filter(levels, side, side, eighths, [0] * side**2) == (0,)
    spread = rules.spread(levels, eighths, places)
    return eighths, spread, rules.judge(len(places), *rules.extremes(eighths, side, side), spread)


def hundredths(q):
    return f'{q // 100}.{q % 100:02}'


class Larger:
    """What the second program says of the larger picture."""

    def __init__(self):
        self.text = page('for-students.md')
        self.levels = drawn(self.text, 'The larger picture, in levels')
        self.eighths = [0] * LARGE**2
        self.number, self.ratio = rules.measure(self.levels, LARGE, LARGE, self.eighths, [0] * LARGE**2)
        self.bright, self.dark = rules.extremes(self.eighths, LARGE, LARGE)
        self.places = rules.inner(LARGE, LARGE)
        self.count, self.out = len(self.places), self.places[0] % LARGE  # N, and how many columns are left out on a side
        self.d = [8 * self.levels[k] - self.eighths[k] for k in self.places]
        self.spread = rules.spread(self.levels, self.eighths, self.places)
        self.with_rim = verdict(self.levels, LARGE, range(LARGE**2))[1:]
        assert self.count * sum(d * d for d in self.d) - sum(self.d)**2 == self.spread, 'the differences are not those of the rules'

    def tiles(self):
        """The sixteen tiles, row by row."""
        side = LARGE // 4
        return [[self.eighths[(top + j) * LARGE + left + i] for j in range(side) for i in range(side)]
                for top in range(0, LARGE, side) for left in range(0, LARGE, side)]

    def roots(self):
        """The roots of both sides of the ratio's inequality: of the left one without (q + 138)², of the right one."""
        root = isqrt(self.spread)
        left, right = FINE * root, FULL * (self.bright - self.dark) * self.count
        assert root**2 == self.spread, 'D is no square'
        assert (self.ratio + LESS) * left <= right < (self.ratio + LESS + 1) * left, 'q is not the greatest'
        assert isqrt(right**2 // left**2) - LESS == self.ratio, 'q is not the root of the quotient'
        return left, right


def black(side):
    """The number of a black square picture when it is measured."""
    return rules.measure([0] * side**2, side, side, [0] * side**2, [0] * side**2)[0]


def refused():
    """for-students.md: the 4×4 picture is refused when it is measured, and nothing is written"""
    text, lent = page('for-students.md'), [9_999] * SMALL**2
    output, work = list(lent), list(lent)
    levels = drawn(text, 'The picture, in levels')
    number, ratio = rules.measure(levels, SMALL, SMALL, output, work)
    sides = [side for side in range(1, 33) if black(side) != number]
    by = sides[1] - sides[0]
    sentences = [f'have to be multiples of {by}, and {sides[0]} or more. The picture above has sides of {SMALL}, so it is refused '
                 f'by {number}: nothing is written, and the ratio that comes back is {ratio}.',
                 f'without the {WORDS[Larger().out]} outermost rows and columns on each side',
                 f'All {len(levels)} pixels of this picture lie in those: none would be left.', f'and {number} is [Measure.antt](']
    return (unsaid(text, *sentences) + ['something is written'] * (output + work != lent + lent)
            + [f'the sides that are taken: {sides}'] * (sides != list(range(sides[0], 33, by)))
            + ['there are pixels left'] * bool(rules.inner(SMALL, SMALL)))


def larger():
    """for-students.md: the larger picture, filtered, and its tiles' maxima and minima are the second program's"""
    now = Larger()
    bright = [column for column in range(LARGE) if now.levels[column] > (DARK + BRIGHT) // 2]
    off = [abs(level - (BRIGHT if k % LARGE in bright else DARK)) for k, level in enumerate(now.levels)]
    right = {'The larger picture, filtered, in eighths': now.eighths,
             'The tile maxima': [max(tile) for tile in now.tiles()],
             'The tile minima': [min(tile) for tile in now.tiles()]}
    return [head for head, numbers in right.items() if drawn(now.text, head) != numbers] + unsaid(
        now.text,
        f'Columns {listed(bright)} are bright and the others dark, each level within {max(off)} of {BRIGHT} or of {DARK}.',
        f'here is a larger one, of {WORDS[LARGE]} columns and {WORDS[LARGE]} rows.', f'to redo all {len(now.levels)} pixels')


def taken(judge, number):
    """The least and the greatest of the sums that are not out of range, by the number that says so: as sums and as averages."""
    sums = [value for value in range(32_641) if judge(value)[0] != number]
    return f'from {sums[0]:,} to {sums[-1]:,} ({mixed(Fraction(sums[0], 128))} to {mixed(Fraction(sums[-1], 128))} levels)'


def extremes():
    """for-students.md: M, m and their ranges are the second program's, and so is the first tile"""
    now = Larger()
    sentences = [f'cut into sixteen tiles of w/4 by h/4 pixels, here {LARGE // 4} by {LARGE // 4}.']
    for name, words, pick, total, between in (
            ('M', 'maxima', max, now.bright, taken(lambda value: rules.judge(now.count, value, now.dark, now.spread), 6)),
            ('m', 'minima', min, now.dark, taken(lambda value: rules.judge(now.count, now.bright, value, now.spread), 7))):
        picked = [pick(tile) for tile in now.tiles()]
        sums = ' + '.join(str(sum(picked[start:start + 4])) for start in range(0, 16, 4))
        assert sum(picked) == total, 'the tiles are not those of the rules'
        sentences.append(f'{name} is the sum of the {words}, row by row {sums} = {total} eighths. As an average of levels that is '
                         f'{total}/128 = {mixed(Fraction(total, 128))}. {name} has to be {between}, and is.')
    a, b, c, d = first = now.tiles()[0]
    sentences.append(f'The first tile has {a} and {b}, and below them {c} and {d}: its maximum is {max(first)}, '
                     f'its minimum {min(first)}.')
    return unsaid(now.text, *sentences)


def noise():
    """for-students.md: the pixels that count, their differences, N and D are the second program's"""
    now = Larger()
    side = f'({LARGE} − {2 * now.out})'
    lines = [row(k % LARGE, k // LARGE, level, eighths, f'{8 * level} − {eighths} = {d}'.replace('-', '−'))
             for k, d, level, eighths in ((k, d, now.levels[k], now.eighths[k]) for k, d in zip(now.places, now.d))]
    columns, heights = sorted({k % LARGE for k in now.places}), sorted({k // LARGE for k in now.places})
    squares = sum(d * d for d in now.d)
    assert now.count == (LARGE - 2 * now.out)**2, 'N is another'
    return apart(lines, rows(now.text, '| column | row | level | eighths | d |')) + unsaid(
        now.text,
        f'{WORDS[now.out].capitalize()} rows and columns are left out on each side. Of the {LARGE**2} pixels N = {side} · {side} = '
        f'{now.count} count, those in columns {listed(columns)} of rows {listed(heights)}. For each of them d is 8 times the level',
        f'its {WORDS[now.count]} inner pixels shaded;', f'of which the inner {WORDS[now.count]} count](drawings/rim.svg)',
        f'The sum of d is {sum(now.d)}, the sum of d² is {squares}, and D = {now.count} · {squares} − {sum(now.d)}² = {now.spread}.')


def ratio():
    """for-students.md: q comes out as the page has it, is the second program's, and is enough"""
    now = Larger()
    (left, right), span, plus = now.roots(), now.bright - now.dark, now.ratio + LESS
    enough = min(q for number, q in (rules.judge(now.count, now.bright, now.dark, d) for d in range(1, 100_000)) if number == 0)
    six, seven, eight, nine = (rules.judge(now.count, *numbers)[0] for numbers in (
        (0, now.dark, now.spread), (now.bright, 0, now.spread), (now.bright, now.dark, 0), (now.bright, now.dark, 2**62)))
    return unsaid(
        now.text,
        f'the greatest whole number with (q + {LESS})² · {FINE**2} · D ≤ {FULL**2:,} · (M − m)² · N².',
        f'On the right M − m = {now.bright} − {now.dark} = {span} and N = {now.count}. All three factors are squares: it is the '
        f'square of {FULL} · {span} · {now.count} = {right}.',
        f'On the left {FINE**2} is the square of {FINE}, and D is the square of {isqrt(now.spread)}, as it happens. It is the square '
        f'of (q + {LESS}) · {left}.',
        f'So (q + {LESS}) · {left} is to be at most {right}. {right}/{left} = {mixed(Fraction(right, left))}, so q + {LESS} is '
        f'{plus}, and q = {now.ratio}.',
        f'To see it again: {plus} · {left} = {plus * left} is not above {right}, and with q + 1 = {now.ratio + 1}, '
        f'{plus + 1} · {left} = {(plus + 1) * left} is.',
        f'divide the right side by {FINE**2} · D, round down, and take the root, rounded down: that is q + {LESS}.',
        f'The ratio is {hundredths(now.ratio)}. It has to be {mixed(Fraction(enough, 100))} or more, that is q ≥ {enough:,}, and is: '
        f'the number is {now.number}, and the picture may be measured.',
        f'{six} where M is out of its range, {seven} where m is, {eight} where D is 0, {nine} where q is too low.')


def whole_blocks(levels, passes):
    """The filtered eighths of the pixels that a square picture has when each pass drops those whose block is cut short."""
    side = isqrt(len(levels))
    for _ in range(passes):
        side -= 2
        starts = [y * (side + 2) + x for y in range(side) for x in range(side)]
        levels = [rules.twice_median([levels[k + j * (side + 2) + i] for j in range(3) for i in range(3)]) for k in starts]
    return levels


def rim():
    """for-students.md: what the noise would be with the rim, and what the rim does, is what the second program computes"""
    now, (column, height) = Larger(), STEEP
    spread, (number, q) = now.with_rim
    level, eighths = (values[height * LARGE + column] for values in (now.levels, now.eighths))
    whole = whole_blocks(now.levels, 3)
    return ['a pixel that counts has had a block cut short'] * (whole != [now.eighths[k] for k in now.places]) + unsaid(
        now.text,
        f'Of the same picture N is then {LARGE**2}, D = {spread} and q = {q}: the number is {number}, and the picture is discarded '
        f'with a ratio of {hundredths(q)}.',
        f'In column {column} a block has no column on its left. Where the levels rise or fall from column {column} to column '
        f'{column + 1},',
        f'The pixel in column {column}, row {height} has the level {level}, and like its neighbours above and below it is bright; its '
        f'filtered value is {eighths} eighths, {mixed(Fraction(eighths, 8))} levels, and d = {8 * level - eighths}.',
        f'after three passes it is {WORDS[now.out]} rows and columns on each side')


def slopes():
    """for-students.md: both slopes come out as the page says, without the rim and with it"""
    side = len(PLAIN)
    inner, every = rules.inner(side, side), range(side**2)
    eighths, spread, _ = verdict(PLAIN * side, side, inner)
    changed = sorted({k % side for k in every if eighths[k] != 8 * PLAIN[k % side]})
    _, _, (number, _) = verdict(FOLDED * side, side, inner)
    _, _, (another, q) = verdict(FOLDED * side, side, every)
    return unsaid(
        page('for-students.md'),
        f'two pictures of {side}×{side} without any noise. The first is a plain slope, each level {PLAIN[1]} times its column. '
        f'The filter changes columns {listed(changed)} of it and no others, so D = {spread}; over all pixels D would be '
        f'{verdict(PLAIN * side, side, every)[1]}.',
        f'with columns of {" ".join(map(str, FOLDED))}. Its extremes are in range. By this rule it gets an {number}, for it has no '
        f'noise at all; with the rim it would get a {another} and a ratio of {hundredths(q)}.')


def compared():
    """for-technicians.md: what it says of small pictures that are measured, and of the slope, is the second program's"""
    width, height = LARGE, len(FOLDED)
    places, out = rules.inner(width, height), WORDS[Larger().out]
    columns, heights = {k % width for k in places}, {k // width for k in places}
    number, another = (verdict(FOLDED * height, height, counted)[2][0]
                       for counted in (rules.inner(height, height), range(height**2)))
    return unsaid(
        page('for-technicians.md'),
        f'{SMALL} gives a {black(SMALL)}, though it is a multiple of 4, and '
        f'{next(side for side in range(1, 33) if black(side) != black(SMALL))} is the least that does not.',
        f'{width} columns and {height} rows leave {len(columns)} columns and {len(heights)} rows for the noise, N = {len(places)},',
        f'N and D leave out the {out} outermost rows and columns on each side (document 02, P3)',
        f'has one that gets an {number}, and a {another} where the rim counts.')


def proved():
    """crates/cases/proofs/Measured.antt has the larger picture of for-students.md, its eighths and its ratio"""
    now, source = Larger(), ' '.join((TOP / 'crates/cases/proofs/Measured.antt').read_text(encoding='utf-8').split())
    return unsaid(source, f'larger = {" ∷ ".join(map(str, now.levels))} ∷ []', f'larger_eighths = {" ∷ ".join(map(str, now.eighths))} ∷ []',
                  f'larger_measured : Measures {LARGE} {LARGE} larger (verdict {now.number} {now.ratio})')


TESTS = refused, larger, extremes, noise, ratio, rim, slopes, compared, proved
