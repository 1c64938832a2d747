/* The library, the practical limit and plain C as versions. */
#include "baseline.h"
#include "limit.h"
#include "version.h"

#include <string.h>

static mask_table table;
static size_t width, height;

static void keep(const mask_table *new_table, size_t new_width, size_t new_height) {
    table = *new_table, width = new_width, height = new_height;
}

/* ---- the library; its time includes its check of the record: table, sizes and every pixel */

static mask_job job;
static uint8_t first[MAX_PIXELS], second[MAX_PIXELS];

static void library_load(const uint8_t *image) {
    static uint8_t file[MASK_MAX_IMAGE_FILE];
    size_t pixels = width * height, length = mask_image_write(width, height, image, pixels, file, sizeof file).length;
    memset(&job, 0, sizeof job);
    demand(!mask_load(&job, table, file, length, first, pixels, second, pixels).number, "the load is refused");
}

static size_t library_pass(void) {
    demand(!mask_pass(&job, first, width * height, second, width * height).number, "the pass is refused");
    return job.passes;
}

static size_t library_run(void) {
    demand(!mask_run(&job, first, width * height, second, width * height).number, "the run is refused");
    return job.passes;
}

static void library_store(uint8_t *image) { memcpy(image, job.passes % 2 ? second : first, width * height); }

static void library_counts(size_t *added, size_t *removed) { *added = job.added, *removed = job.removed; }

const version library_version = {"library", keep, library_load, library_pass, library_run, library_store, library_counts};

/* ---- the practical limit; its time includes neither the table's compilation nor bytes to words and back */

static limit_filter *filter;

static void limit_remake(const mask_table *new_table, size_t new_width, size_t new_height) {
    limit_free(filter);
    filter = limit_make(new_table, new_width, new_height);
    demand(filter != NULL, "no memory for the limit");
}

static void limit_load_image(const uint8_t *image) { limit_load(filter, image); }
static size_t limit_one_pass(void) { return limit_pass(filter); }
static size_t limit_whole_run(void) { return limit_run(filter); }
static void limit_store_image(uint8_t *image) { limit_store(filter, image); }

const version limit_version = {"limit", limit_remake, limit_load_image, limit_one_pass, limit_whole_run, limit_store_image, NULL};

/* ---- plain C; the two areas are used as the library's are */

static pass_counts counts;

static void plain_load(const uint8_t *image) {
    counts = (pass_counts){0, 0, 0};
    memcpy(first, image, width * height);
}

static size_t plain_one_pass(void) {
    size_t before = counts.passes;
    plain_pass(&table, width, height, before % 2 ? second : first, before % 2 ? first : second, &counts);
    return counts.passes - before;
}

static size_t plain_run(void) {
    while (plain_one_pass());
    return counts.passes;
}

static void plain_store(uint8_t *image) { memcpy(image, counts.passes % 2 ? second : first, width * height); }

static void plain_counts(size_t *added, size_t *removed) { *added = counts.added, *removed = counts.removed; }

const version plain_version = {"plain C", keep, plain_load, plain_one_pass, plain_run, plain_store, plain_counts};
