/* The practical limit of a pass and of a run: see limit.c. */
#ifndef LIMIT_H
#define LIMIT_H

#include "baseline.h"

typedef struct limit_filter limit_filter;

/* A filter for an accepted table and images of one size; NULL without memory. */
limit_filter *limit_make(const mask_table *table, size_t width, size_t height);
void limit_free(limit_filter *filter);

/* Bytes to words and back. */
void limit_load(limit_filter *filter, const uint8_t *image);
void limit_store(const limit_filter *filter, uint8_t *image);

/* One pass: whether a pixel changed. A pass after others looks only at rows near what the last one changed. */
int limit_pass(limit_filter *filter);

/* Passes until one changes nothing: how many changed pixels. */
size_t limit_run(limit_filter *filter);

#endif
