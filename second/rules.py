"""The rules of documents 01 and 02, written a second time, in plain Python whole numbers.

Each call is one function; those of a scan are methods of `Scan`. It takes every input and gives back
what comes back: the number of the table first, then the rest, 0 where the call was refused. A lent
buffer is a list, which the function changes where the rule says so. Nothing here was taken from the
Rattle source; read it beside the documents.
"""
from fractions import Fraction
from math import isqrt


def filter(levels, width, height, output, work):
    """"The median, three times": the number. Output and work are changed where it is 0."""
    number = refused(len(levels), width, height, len(output), len(work))
    if number == 0:
        halves = one_pass(levels, width, height)
        quarters = one_pass(halves, width, height)
        # "Afterwards the output holds pass three and the work buffer pass two." "Elements past w·h
        # never change."
        work[:width * height] = quarters
        output[:width * height] = one_pass(quarters, width, height)
    return number,


def misshapen(levels, width, height):
    """The numbers 1 and 2, from a picture's sides and how many levels are lent; 0 where neither applies."""
    if not 1 <= width <= 1_024 or not 1 <= height <= 1_024:
        return 1
    if levels != width * height:
        return 2
    return 0


def refused(levels, width, height, output, work):
    """The numbers 1 to 4, from the sizes of what is lent; 0 where none of them applies."""
    if number := misshapen(levels, width, height):
        return number
    if output < width * height:
        return 3
    if work < width * height:
        return 4
    return 0


def one_pass(picture, width, height):
    """A pass, twice as fine as the picture that it is made from: so nothing is ever rounded."""
    rows = [picture[start:start + width] for start in range(0, width * height, width)]
    made = []
    for y in range(height):
        # "the levels of its 3×3 block that lie inside the picture; those outside are dropped"
        near = rows[max(y - 1, 0):y + 2]
        for x in range(width):
            left = max(x - 1, 0)
            made.append(twice_median([level for row in near for level in row[left:x + 2]]))
    return made


def twice_median(block):
    """"the middle one for an odd number, the mean of the two middle ones for an even number", twice."""
    block.sort()
    middle = len(block) // 2
    return 2 * block[middle] if len(block) % 2 else block[middle - 1] + block[middle]


class Scan:
    """"Rows while the beam runs" (document 02, P1): one scan. The library may hold "only the rows still needed"; here every level
    that has come is kept, and is filtered anew, as a picture, with each call that has rows to give out.
    """

    def __init__(self):
        self.width = self.height = 0  # there was no good start yet
        self.levels, self.ended = [], False

    def start(self, width, height):
        """"Width and height are told first": the number."""
        number = misshapen(width * height, width, height)
        if number == 0:
            # "A good start drops what is held and begins anew."
            self.width, self.height, self.levels, self.ended = width, height, [], False
        return number,

    def rows(self, levels, output):
        """Then "one row or several at a time": the number, and how many third-pass rows the output received."""
        if self.width == 0:
            return 1, 0  # "1, also before a good start"
        if len(levels) % self.width:
            return 20, 0  # "a number of levels that is no whole number of rows"
        if len(self.levels) + len(levels) > self.width * self.height:
            return 21, 0  # "rows beyond the height"
        return self.give_out(self.levels + levels, self.ended, output)

    def end(self, output):
        """Then "the end": the number, and how many third-pass rows the output received."""
        if self.width == 0:
            return 1, 0
        if len(self.levels) < self.width * self.height or self.ended:
            return 22, 0  # "an end before the last row or a second end"
        return self.give_out(self.levels, True, output)

    def give_out(self, levels, ended, output):
        """What is left to do once it is settled which levels have come, and whether the end has."""
        first, past = self.out(len(self.levels), self.ended), self.out(len(levels), ended)
        if len(output) < (past - first) * self.width:
            return 3, 0  # "where the output is shorter than the rows due from this call"
        if first < past:
            # Row j of pass three is made from the rows up to j + 3, so the rows due are those of the whole picture.
            eighths = [0] * len(levels)
            filter(levels, self.width, len(levels) // self.width, eighths, [0] * len(levels))
            output[:(past - first) * self.width] = eighths[first * self.width:past * self.width]
        self.levels, self.ended = levels, ended
        return 0, past - first

    def out(self, levels, ended):
        """How many rows are out by then: each "with the call that brings the third row below it, the rest with the end"."""
        return self.height if ended else max(levels // self.width - 3, 0)


def measure(levels, width, height, output, work):
    """Measuring: the number and q. Output and work are filtered where the number is 0 or 6 to 9."""
    number = refused(len(levels), width, height, len(output), len(work))
    if number == 0 and (width % 4 or height % 4 or width < 8 or height < 8):
        number = 5  # "measuring, a side no multiple of 4"; "5 is also given when a side is below 8" (document 02, P3)
    if number:
        return number, 0
    filter(levels, width, height, output, work)
    filtered = output[:width * height]
    bright, dark = extremes(filtered, width, height)
    places = inner(width, height)
    return judge(len(places), bright, dark, spread(levels, filtered, places))


def extremes(filtered, width, height):
    """M and m: "the sum of the sixteen tile maxima", and "that of the tile minima", in eighths."""
    wide, high = width // 4, height // 4  # "4×4 tiles of w/4 by h/4 pixels"
    bright = dark = 0
    for top in range(0, height, high):
        for left in range(0, width, wide):
            tile = [filtered[y * width + x] for y in range(top, top + high) for x in range(left, left + wide)]
            bright += max(tile)
            dark += min(tile)
    return bright, dark


def inner(width, height):
    """Which pixels count for N and D (document 02, P3): "the sum for D leaves out the three outermost rows and columns on each side"."""
    return [y * width + x for y in range(3, height - 3) for x in range(3, width - 3)]


def spread(levels, filtered, places):
    """"D = N·(sum of d²) − (sum of d)²", with "d = 8·(original level) − (filtered eighths)" at each of these pixels."""
    differences = [8 * levels[k] - filtered[k] for k in places]
    return len(differences) * sum(d * d for d in differences) - sum(differences) ** 2


def judge(count, bright, dark, spread):
    """The judge, from N, M, m and D: the number and q, the ratio in hundredths."""
    # "15 is tested before 6 to 9 in the judge"
    if not 1 <= count <= 1_048_576 or bright > 32_640 or dark > 32_640 or spread > 2**62:
        return 15, 0
    if not 21_760 <= bright <= 31_360:
        return 6, 0
    if not 1_280 <= dark <= 10_240:
        return 7, 0
    if spread == 0:
        return 8, 0
    # "the greatest whole number from 0 with (q+138)²·256·D ≤ 10,000·(M−m)²·N², and 0 where there is
    # none": x = q + 138 is a whole number whose square is at most the quotient, rounded down.
    ratio = isqrt(10_000 * (bright - dark) ** 2 * count ** 2 // (256 * spread)) - 138
    if ratio < 1_000:
        return 9, max(ratio, 0)
    return 0, ratio


def count(values, histogram):
    """Counting filtered values, which are eighths: the number. The histogram is changed where it is 0."""
    if len(histogram) != 256:
        return 10,
    # "It takes 1 to 1,048,576 values, each at most 2,040."
    if not 1 <= len(values) <= 1_048_576 or max(values) > 2_040:
        return 15,
    histogram[:] = [0] * 256  # "starts with a zero in each of its 256 places"
    for eighths in values:
        histogram[eighths // 8] += 1
    return 0,


def two_means(histogram):
    """"Two means": the number, the rounds, and the resting threshold's numerator and denominator."""
    total = sum(histogram)
    if len(histogram) != 256:
        return 10, 0, 0, 0
    if total == 0:
        return 11, 0, 0, 0
    if total > 1_048_576:
        return 12, 0, 0, 0
    present = [level for level, times in enumerate(histogram) if times]
    lowest, highest = present[0], present[-1]
    # "The start is 128, or g if 128 < g, or G if 128 > G"
    threshold = Fraction(lowest if 128 < lowest else highest if 128 > highest else 128)
    rounds = 0
    while True:
        a, b, c, e = sides(histogram, threshold)
        after = (Fraction(a, b) + Fraction(c, e)) / 2
        if after == threshold:
            return 0, rounds, a * e + c * b, 2 * b * e
        threshold, rounds = after, rounds + 1


def sides(histogram, threshold):
    """"A, B the sum and number of levels ≤ the resting T, and C, E those ≥ T"; "a level equal to T is in both"."""
    a = b = c = e = 0
    for level, times in enumerate(histogram):
        if level <= threshold:
            a, b = a + level * times, b + times
        if level >= threshold:
            c, e = c + level * times, e + times
    return a, b, c, e


def sample(levels, width, height, x, y):
    """"Cubic samples": x and y in sixteenths of a pixel. The number, and the sample in 1/67,108,864 levels."""
    if number := misshapen(len(levels), width, height):
        return number, 0
    # "A place is x, y in sixteenths of a pixel: column i, row j and remainders k." Python divides down.
    (i, across), (j, down) = divmod(x, 16), divmod(y, 16)
    if not 1 <= i <= width - 3 or not 1 <= j <= height - 3:
        return 13, 0
    # "the sum over 4×4 original levels of row weight times column weight"
    return 0, sum(
        row_weight * column_weight * levels[row * width + column]
        for row, row_weight in zip(range(j - 1, j + 3), weights(down), strict=True)
        for column, column_weight in zip(range(i - 1, i + 3), weights(across), strict=True))


def weights(k):
    """"For remainder k the weights on pixels i−1, i, i+1, i+2, in 1/8,192"."""
    return (-256 * k + 32 * k**2 - k**3,
            8_192 - 80 * k**2 + 3 * k**3,
            256 * k + 64 * k**2 - 3 * k**3,
            -16 * k**2 + k**3)


def length(factor, pixel):
    """"Length": factor in sixteenths of a pixel, pixel in picometres. Number, length in picometres."""
    # 14: "s or p out of range"
    if not 1 <= factor <= 16_384 or not 1 <= pixel <= 100_000:
        return 14, 0
    # "the greatest whole q with 512·q² ≤ (p·s)²": 512·q² ≤ t says q² ≤ t/512, and so, q² being
    # whole, that q² is at most t/512 rounded down. Python's isqrt is the greatest such q.
    return 0, isqrt((pixel * factor) ** 2 // 512)
