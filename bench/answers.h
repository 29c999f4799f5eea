#ifndef ANSWERS_H
#define ANSWERS_H

#include <stddef.h>
#include <stdint.h>

enum { GUARDS = 8 }; /* elements behind a buffer that no call may touch */

/* Holds every call of gong to plain C, on the inputs that are timed, on small ones and on ones that are refused.
 * Prints a line for each call; gives back how many of the ten differ anywhere. */
int compare_answers(void);

/* Counts an answer of the call that is being compared; true where it is a difference that is to be told. */
int differs(int same);

/* Levels of one of four kinds: random; few, so that many are equal; two; and a slope. Up to 65,536, until the next are made. */
const uint8_t *some_levels(size_t width, size_t height, uint32_t kind);

/* Of scans.c: all scans, with the answers of one call counted. */
void compare_scan_start(void);
void compare_scan_rows(void);
void compare_scan_end(void);

#endif
