/* One pass and the preview as one would write them at once, to compare the library with. */
#ifndef BASELINE_H
#define BASELINE_H

#include "mask_cleaner.h"

enum { MAX_SIDE = 256, MAX_PIXELS = MAX_SIDE * MAX_SIDE };

typedef struct { size_t passes, added, removed; } pass_counts;

/* One pass of an accepted table from image to next (width x height bytes of value 0 and 1 each, at most 256 x 256).
   Adds to the counts; passes rises by one if a pixel changed. */
void plain_pass(const mask_table *table, size_t width, size_t height, const uint8_t *image, uint8_t *next, pass_counts *counts);

/* The 3 x 3 median of an image. */
void plain_preview(size_t width, size_t height, const uint8_t *image, uint8_t *out);

#endif
