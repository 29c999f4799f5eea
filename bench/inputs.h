/* What is compared and timed: pictures and numbers that look random and are the same in every run. */
#ifndef INPUTS_H
#define INPUTS_H

#include <stddef.h>
#include <stdint.h>

enum {
    SIDE = 1024,        /* of the pictures that are timed */
    FULL = SIDE * SIDE, /* their pixels */
    MANY = 1024,        /* inputs of a call on numbers */
    HISTOGRAMS = 64,    /* inputs of the two means: few, for each takes a kilobyte */
    SMALL_WIDTH = 9,    /* of the picture that shows a peer's rule at the edge */
    SMALL_HEIGHT = 7
};

struct judged {
    uint64_t count, bright, dark, spread;
};
struct place {
    int64_t x, y;
};
struct sharpness {
    int64_t factor;
    uint64_t pixel;
};

/* random: each level by itself. smooth: a slope, brighter to the right and downwards. discs: bright discs on
 * a dark ground with a little noise, which may be measured. */
extern uint8_t random_picture[FULL], smooth_picture[FULL], discs_picture[FULL];
extern uint16_t discs_filtered[FULL]; /* by plain C */
extern struct judged judged[MANY];
extern struct place places[MANY]; /* in a picture of 1,024 by 1,024 */
extern struct sharpness sharpnesses[MANY];
extern uint32_t histograms[HISTOGRAMS][256];

void make_inputs(void);

/* The next number, from 0 to below this one. */
uint32_t below(uint32_t bound);

/* random.pgm, smooth.pgm and small.pgm, for the peers. 0 where a file cannot be written. */
int write_pictures(const char *folder);

#endif
