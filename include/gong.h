/* gong.h: Gongspindle for C, and for whatever else can call C.
 *
 * Gongspindle says, exactly and provably, whether a scanning electron microscope's picture may be
 * measured, by the rules of ISO/TS 24597:2011 and, where these leave something open, by rules of its
 * own; this header says all of them that a caller meets. Every function declared here takes every input,
 * ends, and is proved to give back what is said of it.
 *
 * BUILDING      cc yours.c libgong.a             (x86-64 code)
 *               The library needs memcpy and memset, which every C library has, and 8 KB of stack, and
 *               nothing else: no start-up call, no memory of its own, no locale.
 *
 * VERSION       GONG_VERSION_MAJOR, _MINOR and _PATCH are numbers, GONG_VERSION is one number that grows
 *               with them, GONG_VERSION_TEXT a text. Each change of this header raises the version. From
 *               1.0.0 on a number never changes its meaning and no function its parameters; new numbers
 *               and new functions may come. Before that both may still change with the minor version.
 *
 * NUMBERS       Every function returns a number of the table below, GONG_DONE (0) for done. Where several
 *               apply the lowest comes back, unless a function says otherwise. GONG_TEXTS has a short text
 *               for each:
 *
 *                   static const char *const texts[GONG_NUMBERS] = GONG_TEXTS;
 *
 * ANSWERS       What else comes back is written through a pointer, always: where the call was
 *               refused, a 0 is written (but a ratio that is too low, GONG_LOW_RATIO, is given back). So
 *               an answer never holds what stood there before.
 *
 * OWNERSHIP     Everything is lent for the length of the call and no longer. The library keeps no
 *               pointer, allocates nothing and holds no state of its own: what a scan holds from one
 *               call to the next is in memory that the caller lends to each of them. So any number
 *               of threads may call it at the same time on memory of their own. A slice is a pointer
 *               and then its length in elements, not bytes; a null pointer with length 0 is an empty
 *               slice. What one call may write must not overlap anything else that is lent to that
 *               call. A pointer for an answer is never null.
 *
 * UNITS         The unit stands at each parameter. Sixteenths of a pixel, picometres and eighths of
 *               a level are kept apart inside the library; C cannot, so mind which you pass.
 *
 * N, M, m, D    A picture is judged by four numbers. The filtered picture is cut into sixteen tiles, four
 *               across and four down: M (bright) is the sum of the tiles' maxima and m (dark) the sum of
 *               their minima, in eighths of a level; so an average of a levels is a sum of 128 a. D
 *               (spread) says how noisy it is. For the noise the three outermost rows and columns on each
 *               side are left out, since a block of the filter is lopsided there: N is the number of the
 *               other pixels, (width - 6) (height - 6). With d being 8 times the level of such a pixel less
 *               its filtered eighths, D = N (sum of d^2) - (sum of d)^2, and the deviation of the noise,
 *               in levels, is the square root of D, divided by 8 N.
 *
 * EXAMPLE       (with <stdio.h> and <inttypes.h>)
 *               static const char *const texts[GONG_NUMBERS] = GONG_TEXTS;
 *               uint64_t length;
 *               uint8_t number = gong_length(32, 800, &length);
 *               if (number == GONG_DONE)
 *                   printf("%" PRIu64 " pm\n", length);             // 1131 pm
 *               else
 *                   fprintf(stderr, "refused: %s\n", texts[number]); // and length is 0
 */
#ifndef GONG_H
#define GONG_H

#include <stddef.h>
#include <stdint.h>

#ifdef __cplusplus
extern "C" {
#endif

#define GONG_VERSION_MAJOR 0
#define GONG_VERSION_MINOR 2
#define GONG_VERSION_PATCH 0
#define GONG_VERSION (10000 * GONG_VERSION_MAJOR + 100 * GONG_VERSION_MINOR + GONG_VERSION_PATCH)
#define GONG_VERSION_TEXT "0.2.0"

/* Bounds and units that a caller would otherwise have to type. */
#define GONG_MOST_SIDE 1024        /* the longest side of a picture, in pixels                  */
#define GONG_MOST_PIXELS 1048576   /* the most pixels that a picture has                        */
#define GONG_HISTOGRAM 256         /* the places of a histogram: one for each whole level       */
#define GONG_SAMPLE_LEVEL 67108864 /* what one level is in the value of a sample                */
#define GONG_SCAN 6147             /* the 16-bit numbers of memory that a scan holds            */

/* The numbers that come back: when each is given, exactly, and what the call leaves in lent
 * buffers. 16 to 18 are of the program gongspindle alone, and 20 to 22 of the scan. 19 is not given. */
enum gong_number {
    GONG_DONE = 0,                /* done; buffers as the call says                                       */
    GONG_SIDE_OUT_OF_RANGE = 1,   /* width or height outside 1..1,024, or no scan begun; nothing written  */
    GONG_WRONG_LEVELS = 2,        /* levels lent are not width times height; nothing written              */
    GONG_SHORT_OUTPUT = 3,        /* output shorter than width times height, or a scan's rows due;
                                     nothing written                                                      */
    GONG_SHORT_WORK = 4,          /* work buffer shorter than width times height; nothing written         */
    GONG_SIDE_NOT_BY_FOUR = 5,    /* measuring, a side no multiple of 4, or below 8; nothing written      */
    GONG_BRIGHT_OUT_OF_RANGE = 6, /* M outside 21,760..31,360; buffers filtered                           */
    GONG_DARK_OUT_OF_RANGE = 7,   /* m outside 1,280..10,240; buffers filtered                            */
    GONG_NO_NOISE = 8,            /* D is 0; buffers filtered                                             */
    GONG_LOW_RATIO = 9,           /* ratio below 1,000 hundredths (it is given back); buffers filtered    */
    GONG_WRONG_HISTOGRAM = 10,    /* histogram not 256 long; nothing written                              */
    GONG_EMPTY_HISTOGRAM = 11,    /* threshold asked of an empty histogram; nothing written               */
    GONG_LARGE_TOTAL = 12,        /* threshold asked of a total above 1,048,576; nothing written          */
    GONG_PLACE_OUTSIDE = 13,      /* sample place outside its bounds; nothing written                     */
    GONG_FACTOR_OR_PIXEL_OUT_OF_RANGE = 14, /* factor or pixel size out of range; nothing written         */
    GONG_INPUT_OUT_OF_RANGE = 15, /* judge's input, or values to be counted, out of range; nothing written */
    GONG_UNKNOWN_KIND = 16,       /* the program only: unknown record kind                                */
    GONG_SHORT_BODY = 17,         /* the program only: record body cut short                              */
    GONG_LONG_INPUT = 18,         /* the program only: input above 32,768 bytes                           */
    GONG_PART_OF_A_ROW = 20,      /* a number of levels that is no whole number of rows; nothing written  */
    GONG_ROWS_BEYOND = 21,        /* rows beyond the height; nothing written                              */
    GONG_NOT_THE_END = 22         /* an end before the last row or a second end; nothing written          */
};

/* One more than the last number, and a short text for each from 0 on, for an array of so many. */
#define GONG_NUMBERS 23
#define GONG_TEXTS                                                                                        \
    {                                                                                                     \
        "done",                                                                                           \
        "width or height outside 1 to 1,024, or no scan begun",                                           \
        "levels lent are not width times height",                                                         \
        "output too short",                                                                               \
        "work buffer too short",                                                                          \
        "a side is no multiple of 4, or below 8",                                                         \
        "bright parts out of range",                                                                      \
        "dark parts out of range",                                                                        \
        "no noise",                                                                                       \
        "ratio of contrast to noise below 10",                                                            \
        "histogram does not have 256 places",                                                             \
        "histogram is empty",                                                                             \
        "total of the histogram above 1,048,576",                                                         \
        "sample place outside its bounds",                                                                \
        "factor or pixel size out of range",                                                              \
        "input out of range",                                                                             \
        "unknown record kind",                                                                            \
        "record body cut short",                                                                          \
        "program input above 32,768 bytes",                                                               \
        "not given",                                                                                      \
        "levels are no whole number of rows",                                                             \
        "rows beyond the height",                                                                         \
        "an end before the last row, or a second end"                                                     \
    }

/* The median, three times: the picture that the judge and the threshold look at.
 *   levels   the picture, width times height levels of 8 bits, row by row
 *   width, height   each 1 to GONG_MOST_SIDE
 *   output   receives pass three, in eighths of a level: 0 to 2,040
 *   work     receives pass two, in quarters of a level: 0 to 1,020
 * A pass replaces each pixel by the median of its 3 by 3 block: of the levels of the block that lie
 * inside the picture, sorted, the middle one, or the mean of the two middle ones where their number
 * is even. Levels outside the picture are dropped, so a corner has 4, an edge 6 and the rest 9.
 * Nothing is rounded, and each pass reads only the finished pass before it.
 * Both buffers need width times height elements; what they have beyond that stays as it was. levels,
 * output and work must not overlap.
 * Returns GONG_DONE; or GONG_SIDE_OUT_OF_RANGE, GONG_WRONG_LEVELS, GONG_SHORT_OUTPUT or
 * GONG_SHORT_WORK, and then nothing is written. */
uint8_t gong_filter(const uint8_t *levels, size_t levels_len, size_t width, size_t height, uint16_t *output,
                    size_t output_len, uint16_t *work, size_t work_len);

/* The median, three times, while the beam runs: the same picture as gong_filter's, row by row. A scan is
 * started with its sides, is given one row or several at a time, and is ended. A filtered row comes out
 * with the call that brings the third row below it, and the last three (or all, where the height is
 * below three) with the end. However the rows are grouped, all that is given out, in order, is what
 * gong_filter writes to its output.
 *
 * GONG_SCAN is how many 16-bit numbers a scan holds: the rows still needed, never the picture. The
 * caller lends them, as `held`, to every call of the scan, and writes nothing to them between the calls.
 * One such memory is one scan. Any number of scans may run at the same time; one may be copied, and goes
 * on in the copy. What is in it: width, height, how many rows have come (height + 3 after the end, and
 * any number above the height stands for that), and then, one behind the other, six rows of `width`
 * numbers: two of levels (at most 255), two of pass one (at most 510), two of pass two (at most 1,020).
 * A good start and a good end leave zeros for them. Nothing past them is looked at.
 * All zeros is a scan that has not begun; and so is, to rows and to the end, memory shorter than
 * GONG_SCAN, or with a side outside 1..1,024, or with a number above its range in one of the six rows.
 * Elements of held past GONG_SCAN never change.
 *
 * gong_scan_start starts a scan. What the memory held before is dropped.
 *   held     the memory of the scan, GONG_SCAN numbers, whatever is in them
 *   width, height   each 1 to GONG_MOST_SIDE
 * Returns GONG_DONE; or GONG_SIDE_OUT_OF_RANGE where a side is out of range or held is too short, and
 * then nothing is written: a scan that was running goes on. */
uint8_t gong_scan_start(uint16_t *held, size_t held_len, size_t width, size_t height);

/* The next rows of a scan: any number of whole ones, none included.
 *   held     the memory of the scan
 *   levels   the rows, each of `width` levels of 8 bits, the topmost first
 *   output   receives the rows of pass three that are due, in eighths of a level, the topmost first:
 *            after k rows in all, the first k - 3 have come out. So one row given brings out one at
 *            most, and n rows at most n. It needs as many elements as the rows due have; what it has
 *            beyond them stays as it was
 *   rows     receives how many rows came out
 * No rows at all are taken at any time, the end given or not, and bring out none. held, levels and output
 * must not overlap.
 * Returns GONG_DONE; or, tested in this order, GONG_SIDE_OUT_OF_RANGE where no scan has begun,
 * GONG_PART_OF_A_ROW where the levels are no whole number of rows, GONG_ROWS_BEYOND where there are more
 * rows than are left of the height, GONG_SHORT_OUTPUT where the output is shorter than the rows due; and
 * then rows is 0, nothing else is written, and the scan goes on as if the call had not been made. */
uint8_t gong_scan_rows(uint16_t *held, size_t held_len, const uint8_t *levels, size_t levels_len, uint16_t *output,
                       size_t output_len, uint64_t *rows);

/* The end of a scan, once its last row has come.
 *   held, output, rows   as for gong_scan_rows: the last three rows come out, or all where the height is
 *            below three
 * held and output must not overlap. Afterwards only a start begins anew.
 * Returns GONG_DONE; or, tested in this order, GONG_SIDE_OUT_OF_RANGE where no scan has begun,
 * GONG_NOT_THE_END before the last row and where the end was given already, GONG_SHORT_OUTPUT where the
 * output is shorter than the rows due; and then rows is 0, nothing else is written, and the scan goes on
 * as if the call had not been made. */
uint8_t gong_scan_end(uint16_t *held, size_t held_len, uint16_t *output, size_t output_len, uint64_t *rows);

/* Whether a picture may be measured: it is filtered, and judged by what came of it.
 *   levels, width, height, output, work   as for gong_filter; width and height are multiples of 4, from
 *            8 on
 *   ratio    receives the ratio of contrast to noise in hundredths, rounded down (0 where it is below 0),
 *            where the number is GONG_DONE or GONG_LOW_RATIO; else 0
 * A picture is discarded by GONG_BRIGHT_OUT_OF_RANGE unless the average of its tiles' maxima is 170 to
 * 245 levels, by GONG_DARK_OUT_OF_RANGE unless that of their minima is 10 to 80, by GONG_NO_NOISE where
 * the filter changed the level of every pixel that counts by the same, and by GONG_LOW_RATIO where the
 * first average less the second, less 1.38 deviations of the noise, is below 10 deviations. What counts
 * for the noise is all but the three outermost rows and columns on each side.
 * Returns GONG_DONE, or one of these four, and then the buffers are as gong_filter leaves them; or what
 * gong_filter refuses a picture for, or GONG_SIDE_NOT_BY_FOUR, and then nothing is written to them. */
uint8_t gong_measure(const uint8_t *levels, size_t levels_len, size_t width, size_t height, uint16_t *output,
                     size_t output_len, uint16_t *work, size_t work_len, uint64_t *ratio);

/* The judge alone, on a picture's numbers.
 *   count    N, how many pixels count for the noise: 1 to GONG_MOST_PIXELS
 *   bright   M, the sum of the sixteen tiles' maxima, in eighths of a level: at most 32,640
 *   dark     m, the sum of their minima, likewise
 *   spread   D: at most 2^62
 *   ratio    receives the greatest whole q from 0 with (q + 138)^2 256 D <= 10,000 (M - m)^2 N^2, or
 *            0 if there is none, where the number is GONG_DONE or GONG_LOW_RATIO; else 0
 * Returns GONG_DONE; or GONG_INPUT_OUT_OF_RANGE where one of the four is out of range, which is tested
 * first; or, for a picture that is discarded, GONG_BRIGHT_OUT_OF_RANGE, GONG_DARK_OUT_OF_RANGE,
 * GONG_NO_NOISE or GONG_LOW_RATIO. */
uint8_t gong_judge(uint64_t count, uint64_t bright, uint64_t dark, uint64_t spread, uint64_t *ratio);

/* The histogram of a filtered picture.
 *   values      what gong_filter wrote to its output, in eighths of a level: 1 to GONG_MOST_PIXELS
 *               values, each at most 2,040. values_len is width times height, even where the output buffer
 *               is longer
 *   histogram   GONG_HISTOGRAM places: place v receives how many values have the whole level v, that is from
 *               8 v to 8 v + 7 eighths; what stood there before is overwritten
 * values and histogram must not overlap.
 * Returns GONG_DONE; or GONG_WRONG_HISTOGRAM unless the histogram has GONG_HISTOGRAM places, or
 * GONG_INPUT_OUT_OF_RANGE where the values are out of range, and then nothing is written. */
uint8_t gong_count(const uint16_t *values, size_t values_len, uint32_t *histogram, size_t histogram_len);

/* The threshold between a histogram's dark and bright levels, by two means.
 *   histogram   GONG_HISTOGRAM counts, that of level 0 first, with a total of 1 to GONG_MOST_PIXELS
 *   rounds      receives the rounds until the threshold rests: at most 511
 *   numerator, denominator   receive the threshold in levels, numerator over denominator, not reduced:
 *               below 2^49, and at most 2^41
 * The threshold starts at 128, or at the lowest level counted where that is above 128, or at the
 * highest where that is below. A round replaces it by half the sum of two means: that of all levels up
 * to it, and that of all levels from it on, each level as often as it was counted, and a level equal to
 * it in both. It rests where a round gives it back, exactly. It always comes to rest, at the first
 * resting threshold on its way from the start.
 * rounds, numerator and denominator must be three different objects outside the histogram.
 * Returns GONG_DONE; or GONG_WRONG_HISTOGRAM unless the histogram has GONG_HISTOGRAM places,
 * GONG_EMPTY_HISTOGRAM where all its counts are 0, GONG_LARGE_TOTAL where its total is above
 * GONG_MOST_PIXELS, and then all three are 0, the denominator too: test the number before you divide. */
uint8_t gong_two_means(const uint32_t *histogram, size_t histogram_len, uint64_t *rounds, uint64_t *numerator,
                       uint64_t *denominator);

/* A picture's level at a place between its pixels, by cubic interpolation.
 *   levels, width, height   the picture, as for gong_filter: the original levels, not the filtered ones
 *   x, y     the place, in sixteenths of a pixel: x = 16 i + k is column i, counted from 0, and k
 *            sixteenths, 0 to 15, towards the next; y likewise, with row j and a remainder of its own
 *   value    receives the sample, in 1/GONG_SAMPLE_LEVEL (that is 2^-26) of a level: from
 *            -4,812,963,840 to 21,925,724,160, that is from about -71.7 to 326.7 levels, for a cubic
 *            overshoots beside a step from dark to bright. (double)value / GONG_SAMPLE_LEVEL is the
 *            sample in levels, exactly
 * The sample is the sum, over the columns i-1 to i+2 of the rows j-1 to j+2, of level times row weight
 * times column weight. The four weights of a remainder k are, in 1/8,192,
 *   -256 k + 32 k^2 - k^3;  8,192 - 80 k^2 + 3 k^3;  256 k + 64 k^2 - 3 k^3;  -16 k^2 + k^3.
 * So column i must have one before it and two after it, and row j likewise, also where k is 0:
 * 1 <= i <= width - 3 and 1 <= j <= height - 3, that is x from 16 to 16 width - 33 and y from 16 to
 * 16 height - 33. A negative x or y is outside, whatever its size.
 * On a pixel (k = 0 both ways) the sample is the pixel's own level, and in a picture of one level it
 * is that level everywhere, exactly.
 * value must lie outside the levels.
 * Returns GONG_DONE; or GONG_SIDE_OUT_OF_RANGE, GONG_WRONG_LEVELS, or GONG_PLACE_OUTSIDE where the place
 * is outside, and then the value is 0. */
uint8_t gong_sample(const uint8_t *levels, size_t levels_len, size_t width, size_t height, int64_t x, int64_t y,
                    int64_t *value);

/* The length of a sharpness.
 *   factor   the sharpness factor, in sixteenths of a pixel: 1 to 16,384
 *   pixel    the size of a pixel, in picometres: 1 to 100,000
 *   length   receives the length in picometres: the factor over the square root of 2, rounded down,
 *            that is the greatest whole q with 512 q^2 <= (pixel factor)^2
 * Returns GONG_DONE; or GONG_FACTOR_OR_PIXEL_OUT_OF_RANGE, and a length of 0, where one of the two is
 * out of range. */
uint8_t gong_length(int64_t factor, uint64_t pixel, uint64_t *length);

#ifdef __cplusplus
}
#endif

#endif
