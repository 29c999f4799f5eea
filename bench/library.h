/* The ten calls as a table of functions, so that whatever compares or times one library can be handed
 * either: gong, or the same rules in plain C. */
#ifndef LIBRARY_H
#define LIBRARY_H

#include "gong.h"

/* The types are gong.h's own, by name: where a call changes there, plain.c no longer compiles. */
struct library {
    const char *name;
    __typeof__(gong_filter) *filter;
    __typeof__(gong_measure) *measure;
    __typeof__(gong_judge) *judge;
    __typeof__(gong_count) *count;
    __typeof__(gong_two_means) *two_means;
    __typeof__(gong_sample) *sample;
    __typeof__(gong_length) *length;
    __typeof__(gong_scan_start) *scan_start;
    __typeof__(gong_scan_rows) *scan_rows;
    __typeof__(gong_scan_end) *scan_end;
};

extern const struct library gong, plain; /* main.c, plain.c */

#endif
