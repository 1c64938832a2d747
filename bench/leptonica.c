/* The pass by Leptonica: a bit a pixel, in words of 32.

   Leptonica's erosion sees white outside the image, as a translate must that is not all inside. As in the limit, one plane
   `opened` serves both colours and the elements are one program. */
#include "elements.h"
#include "version.h"

#include <leptonica/allheaders.h>
#include <stdlib.h>

static struct {
    int width, height, ranks;
    SEL *persistents[MASK_MAX_RANKS];
    element_program elements;
    PIX *image, *negative, *black, *white, *spread, *opened, *both, *facing[25], *slots[MAX_NODES];
} filter;

/* The origin is one of its own positions: a translate in the image may have its centre outside, where a PIX has no room. */
static SEL *sel_of(uint32_t mask) {
    SEL *sel = selCreate(5, 5, "persistent");
    int origin = __builtin_ctz(mask);
    selSetOrigin(sel, origin / 5, origin % 5);
    for (int n = 0; n < 25; n++) selSetElement(sel, n / 5, n % 5, mask >> n & 1 ? SEL_HIT : SEL_DONT_CARE);
    return sel;
}

static PIX *blank(void) { return pixCreate(filter.width, filter.height, 1); }

static void release(void) {
    PIX **planes[] = {&filter.image, &filter.negative, &filter.black, &filter.white, &filter.spread, &filter.opened, &filter.both};
    for (size_t i = 0; i < sizeof planes / sizeof *planes; i++) pixDestroy(planes[i]);
    for (int r = 0; r < filter.ranks; r++) selDestroy(&filter.persistents[r]);
    for (int n = 0; n < 25; n++) pixDestroy(&filter.facing[n]);
    for (int i = 0; i < filter.elements.slots; i++) pixDestroy(&filter.slots[i]);
}

static void make(const mask_table *table, size_t width, size_t height) {
    release();
    filter.width = width, filter.height = height, filter.ranks = table->ranks;
    PIX **planes[] = {&filter.image, &filter.negative, &filter.black, &filter.white, &filter.spread, &filter.opened, &filter.both};
    for (size_t i = 0; i < sizeof planes / sizeof *planes; i++) *planes[i] = blank();
    for (int r = 0; r < filter.ranks; r++) filter.persistents[r] = sel_of(table->persistents[r]);
    compile_elements(table, &filter.elements);
    for (int n = 0; n < 25; n++) filter.facing[n] = blank();
    for (int i = 0; i < filter.elements.slots; i++) filter.slots[i] = blank();
}

static void load(const uint8_t *image) {
    for (int y = 0; y < filter.height; y++)
        for (int x = 0; x < filter.width; x++) pixSetPixel(filter.image, x, y, image[y * filter.width + x]);
}

static void store(uint8_t *image) {
    for (int y = 0; y < filter.height; y++)
        for (int x = 0; x < filter.width; x++) {
            l_uint32 value;
            pixGetPixel(filter.image, x, y, &value);
            image[y * filter.width + x] = value;
        }
}

static void open_image(void) {
    pixInvert(filter.negative, filter.image);
    for (int r = 0; r < filter.ranks; r++) {
        PIX *spread = r ? filter.spread : filter.opened;
        pixErode(filter.black, filter.image, filter.persistents[r]);
        pixErode(filter.white, filter.negative, filter.persistents[r]);
        pixOr(filter.black, filter.black, filter.white);
        pixDilate(spread, filter.black, filter.persistents[r]);
        if (r) pixOr(filter.opened, filter.opened, spread);
    }
}

/* out = out OPERATION the part of `from` that begins at (x, y) */
static void combine(PIX *out, int operation, PIX *from, int x, int y) {
    pixRasterop(out, 0, 0, filter.width, filter.height, operation, from, x, y);
}

/* Where the pixel faces an opened one of the other colour, for every position in use. */
static void face(void) {
    PIX *wide_image = pixAddContinuedBorder(filter.image, 2, 2, 2, 2), *wide_opened = pixAddContinuedBorder(filter.opened, 2, 2, 2, 2);
    uint32_t done = 0;
    for (int n = 0; n < filter.elements.count; n++) {
        int position = filter.elements.nodes[n].position, x = position % 5, y = position / 5;
        PIX *out = filter.facing[position];
        if (done >> position & 1) continue;
        done |= 1u << position;
        combine(out, PIX_SRC, filter.image, 0, 0);
        combine(out, PIX_SRC ^ PIX_DST, wide_image, x, y);
        combine(out, PIX_SRC & PIX_DST, wide_opened, x, y);
    }
    pixDestroy(&wide_image);
    pixDestroy(&wide_opened);
}

static PIX *value(int n) {
    const element_node *node = &filter.elements.nodes[n];
    return node->slot == NO_SLOT ? filter.facing[node->position] : filter.slots[node->slot];
}

/* No slot is one of its node's inputs, so it may be filled in steps. */
static PIX *judge(void) {
    for (int n = 0; n < filter.elements.count; n++) {
        const element_node *node = &filter.elements.nodes[n];
        if (node->slot == NO_SLOT) continue;
        PIX *out = filter.slots[node->slot];
        combine(out, PIX_SRC, filter.facing[node->position], 0, 0);
        if (node->with != ALWAYS) combine(out, PIX_SRC & PIX_DST, value(node->with), 0, 0);
        if (node->without != NEVER) combine(out, PIX_SRC | PIX_DST, value(node->without), 0, 0);
    }
    return value(filter.elements.count - 1);
}

static size_t pass(void) {
    l_int32 none;
    open_image();
    face();
    PIX *changes = judge();
    pixXor(filter.image, filter.image, changes);
    pixZero(changes, &none);
    return !none;
}

static size_t run(void) {
    size_t passes = 0;
    while (pass()) passes++;
    return passes;
}

const version leptonica_version = {"Leptonica", make, load, pass, run, store, NULL};
