/* One pass and the preview as one would write them at once. The pass: the opening map, each translate judged once and
   spread, then the pixels that are not opened, each element with an early exit. A pixel that is opened never changes, since
   the persistent elements are persistent. */
#include "baseline.h"

#include <string.h>

typedef struct { int dx, dy; } offset;
typedef struct { int count; offset at[25]; } offsets;

/* The opening map: 0 not opened, else 1 + the value opened for. */
static uint8_t opened[MAX_PIXELS];

static offsets offsets_of(uint32_t mask) {
    offsets list = {0};
    for (int n = 0; n < 25; n++)
        if (mask >> n & 1) list.at[list.count++] = (offset){n % 5 - 2, n / 5 - 2};
    return list;
}

static int clamp(int value, int limit) {
    return value < 0 ? 0 : value >= limit ? limit - 1 : value;
}

/* Adds to the map what a persistent element opens. */
static void open_for(const offsets *persistent, int width, int height, const uint8_t *image) {
    int left = 2, right = -2, top = 2, bottom = -2, step[25];
    for (int i = 0; i < persistent->count; i++) {
        offset o = persistent->at[i];
        if (o.dx < left) left = o.dx;
        if (o.dx > right) right = o.dx;
        if (o.dy < top) top = o.dy;
        if (o.dy > bottom) bottom = o.dy;
        step[i] = o.dy * width + o.dx;
    }
    for (int y = -top; y < height - bottom; y++)
        for (int x = -left; x < width - right; x++) {
            int p = y * width + x, i = 1;
            uint8_t value = image[p + step[0]];
            while (i < persistent->count && image[p + step[i]] == value) i++;
            if (i < persistent->count) continue;
            for (i = 0; i < persistent->count; i++) opened[p + step[i]] = 1 + value;
        }
}

/* Whether all pixels of an element at (x, y) have the code. */
static int all_opened(const offsets *element, int width, int height, int x, int y, uint8_t code) {
    int inner = x >= 2 && y >= 2 && x < width - 2 && y < height - 2;
    for (int i = 0; i < element->count; i++) {
        int column = x + element->at[i].dx, row = y + element->at[i].dy;
        if (!inner) column = clamp(column, width), row = clamp(row, height);
        if (opened[row * width + column] != code) return 0;
    }
    return 1;
}

void plain_pass(const mask_table *table, size_t width, size_t height, const uint8_t *image, uint8_t *next, pass_counts *counts) {
    offsets elements[64];
    for (size_t e = 0; e < table->count; e++) elements[e] = offsets_of(table->elements[e]);
    memset(opened, 0, width * height);
    for (size_t r = 0; r < table->ranks; r++) {
        offsets persistent = offsets_of(table->persistents[r]);
        open_for(&persistent, width, height, image);
    }
    size_t changed[2] = {0, 0};
    for (size_t y = 0; y < height; y++)
        for (size_t x = 0; x < width; x++) {
            size_t p = y * width + x;
            uint8_t value = image[p];
            next[p] = value;
            if (opened[p]) continue;
            for (size_t e = 0; e < table->count; e++)
                if (all_opened(&elements[e], width, height, x, y, 2 - value)) {
                    next[p] = 1 - value;
                    changed[value]++;
                    break;
                }
        }
    counts->passes += changed[0] + changed[1] > 0;
    counts->added += changed[0];
    counts->removed += changed[1];
}

void plain_preview(size_t width, size_t height, const uint8_t *image, uint8_t *out) {
    for (size_t y = 0; y < height; y++)
        for (size_t x = 0; x < width; x++) {
            int black = 0;
            for (int dy = -1; dy <= 1; dy++)
                for (int dx = -1; dx <= 1; dx++) black += image[clamp((int)y + dy, height) * width + clamp((int)x + dx, width)];
            out[y * width + x] = black >= 5;
        }
}
