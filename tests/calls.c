/* Calls every function of the library with values that tell its fields apart, and compares answers and lent memory, the
   untouched bytes too. Prints nothing and exits 0 where all is as it should be. */
#include <stdio.h>
#include <string.h>

#include "mask_cleaner.h"

#define RING 469440u
#define RING_PERSISTENT 405504u
#define CROSS 141440u
#define FILL 0xA5

static int failures = 0;

#define EXPECT(x)                                             \
    do {                                                      \
        if (!(x)) {                                           \
            fprintf(stderr, "line %d: %s\n", __LINE__, #x);   \
            failures++;                                       \
        }                                                     \
    } while (0)

/* These ask their answer four times: a call that alters something is made before, once. */
#define WITNESSED(answer, n, p, w, q) \
    ((answer).number == (n) && (answer).place == (p) && (answer).witness == (w) && (answer).position == (q))
#define REFUSED(answer, n, p) WITNESSED(answer, n, p, 0, 0)
#define ACCEPTED(answer) REFUSED(answer, 0, 0)

static const uint8_t ring_file[] = {0x01, 0xC0, 0xD3, 0x1C, 0x80, 0xE0, 0x18};
static const uint8_t cobbles_file[] = {0x00, 0x01, 0x80, 0xD1, 0x08, 0x02, 0x80, 0x60, 0x80, 0xA0, 0x08};
static const uint8_t dot_file[] = {'P', '4', '\n', '5', ' ', '5', '\n', 0x00, 0x00, 0x20, 0x00, 0x00};
static const uint8_t blank_file[] = {'P', '4', '\n', '5', ' ', '5', '\n', 0x00, 0x00, 0x00, 0x00, 0x00};
static const uint8_t low_file[] = {'P', '4', '\n', '5', ' ', '4', '\n', 0x00, 0x00, 0x20, 0x00};
static const uint8_t narrow_file[] = {'P', '4', '\n', '4', ' ', '5', '\n', 0x00, 0x00, 0x20, 0x00, 0x00};
static const uint8_t wide_file[] = {'P', '4', '\n', '3', '0', '0', ' ', '1', '\n'};
static const uint8_t bad_file[] = {'x'};

static mask_table ring(void) {
    mask_table t = {0};
    t.count = 1;
    t.elements[0] = RING;
    t.ranks = 1;
    t.persistents[0] = RING_PERSISTENT;
    return t;
}

/* The cross with its first persistent elements, one to four. */
static mask_table cross(size_t ranks) {
    static const uint32_t persistents[MASK_MAX_RANKS] = {12288, 135168, 143360, 405504};
    mask_table t = {0};
    t.count = 1;
    t.elements[0] = CROSS;
    t.ranks = ranks;
    memcpy(t.persistents, persistents, ranks * sizeof *persistents);
    return t;
}

/* Parts of one width. */
static mask_strip strip_of(size_t width, size_t parts, const size_t *heights) {
    mask_strip s = {0};
    s.parts = parts;
    for (size_t i = 0; i < parts; i++) {
        s.widths[i] = width;
        s.heights[i] = heights[i];
    }
    return s;
}

/* Gives a record by hand its only part. */
static void one_part(mask_job *j) {
    j->strip = strip_of(j->width, 1, &j->height);
    j->counts.added[0] = j->added;
    j->counts.removed[0] = j->removed;
}

/* A record by hand: 5 x 3, stable, an odd number of passes, all counts different. */
static mask_job by_hand(void) {
    mask_job j = {0};
    j.stage = MASK_STAGE_STABLE;
    j.width = 5;
    j.height = 3;
    j.passes = 7;
    j.added = 2;
    j.removed = 11;
    j.table = ring();
    one_part(&j);
    return j;
}

static int all(const uint8_t *bytes, size_t length, uint8_t value) {
    for (size_t i = 0; i < length; i++) {
        if (bytes[i] != value) {
            return 0;
        }
    }
    return 1;
}

static int same_table(mask_table a, mask_table b) {
    return a.count == b.count && memcmp(a.elements, b.elements, sizeof a.elements) == 0 && a.ranks == b.ranks
        && memcmp(a.persistents, b.persistents, sizeof a.persistents) == 0;
}

static int same_strip(mask_strip a, mask_strip b) {
    return a.parts == b.parts && memcmp(a.widths, b.widths, sizeof a.widths) == 0
        && memcmp(a.heights, b.heights, sizeof a.heights) == 0;
}

static int same_counts(mask_part_counts a, mask_part_counts b) {
    return memcmp(a.added, b.added, sizeof a.added) == 0 && memcmp(a.removed, b.removed, sizeof a.removed) == 0;
}

static int same_job(mask_job a, mask_job b) {
    return a.stage == b.stage && a.width == b.width && a.height == b.height && a.passes == b.passes && a.added == b.added
        && a.removed == b.removed && same_table(a.table, b.table) && same_strip(a.strip, b.strip)
        && same_counts(a.counts, b.counts);
}

static mask_quota quota_of(size_t channels, size_t allowance, size_t one, size_t two, size_t three, size_t four) {
    mask_quota q = {channels, allowance, {one, two, three, four}, {0}, 0};
    return q;
}

static int same_quota(mask_quota a, mask_quota b) {
    return a.channels == b.channels && a.allowance == b.allowance && memcmp(a.reserves, b.reserves, sizeof a.reserves) == 0
        && memcmp(a.left, b.left, sizeof a.left) == 0 && a.pool == b.pool;
}

/* What every answer starts with is in the same place. */
#define STARTS(answer)                                                                \
    EXPECT(offsetof(answer, number) == 0 && offsetof(answer, place) == 8              \
        && offsetof(answer, witness) == 16 && offsetof(answer, position) == 24)

static void layout(void) {
    EXPECT(sizeof(size_t) == 8);
    EXPECT(sizeof(mask_table) == 288 && offsetof(mask_table, count) == 0 && offsetof(mask_table, elements) == 8);
    EXPECT(offsetof(mask_table, ranks) == 264 && offsetof(mask_table, persistents) == 272);
    EXPECT(sizeof(mask_strip) == 264 && offsetof(mask_strip, parts) == 0 && offsetof(mask_strip, widths) == 8);
    EXPECT(offsetof(mask_strip, heights) == 136);
    EXPECT(sizeof(mask_part_counts) == 256 && offsetof(mask_part_counts, added) == 0);
    EXPECT(offsetof(mask_part_counts, removed) == 128);
    EXPECT(sizeof(mask_job) == 856 && offsetof(mask_job, width) == 8 && offsetof(mask_job, removed) == 40);
    EXPECT(offsetof(mask_job, table) == 48 && offsetof(mask_job, strip) == 336 && offsetof(mask_job, counts) == 600);
    EXPECT(sizeof(mask_checked) == 32 && sizeof(mask_table_answer) == 320 && sizeof(mask_image_size) == 48);
    EXPECT(sizeof(mask_file_length) == 40 && sizeof(mask_progress) == 40 && sizeof(mask_part) == 48);
    EXPECT(sizeof(mask_figures_answer) == 48);
    EXPECT(sizeof(mask_quota) == 88 && offsetof(mask_quota, channels) == 0 && offsetof(mask_quota, allowance) == 8);
    EXPECT(offsetof(mask_quota, reserves) == 16 && offsetof(mask_quota, left) == 48 && offsetof(mask_quota, pool) == 80);
    EXPECT(sizeof(mask_quota_answer) == 120 && offsetof(mask_quota_answer, quota) == 32);
    EXPECT(sizeof(mask_channel_progress) == 128 && offsetof(mask_channel_progress, stable) == 32);
    EXPECT(offsetof(mask_channel_progress, quota) == 40);
    STARTS(mask_checked);
    STARTS(mask_table_answer);
    STARTS(mask_image_size);
    STARTS(mask_file_length);
    STARTS(mask_progress);
    STARTS(mask_part);
    STARTS(mask_figures_answer);
    STARTS(mask_quota_answer);
    STARTS(mask_channel_progress);
}

/* Each place of the elements is seen by value. */
static void table_check(void) {
    EXPECT(ACCEPTED(mask_table_check(ring())));
    for (size_t k = 1; k < MASK_MAX_ELEMENTS; k++) {
        mask_table t = ring();
        t.elements[k] = 1;
        EXPECT(REFUSED(mask_table_check(t), MASK_ELEMENT_RANGE, k + 1));
    }
    mask_table t = ring();
    t.count = 65;
    EXPECT(REFUSED(mask_table_check(t), MASK_ELEMENT_COUNT, 0));
    t = ring();
    t.persistents[0] = 4096;
    EXPECT(WITNESSED(mask_table_check(t), MASK_NOT_PERSISTENT, 1, 1, 12));
    t = ring();
    t.count = 2;
    t.elements[0] = 2048;
    t.elements[1] = 8192;
    EXPECT(WITNESSED(mask_table_check(t), MASK_ELEMENTS_DISJOINT, 2, 1, 0));
}

/* The ranks, and each place of the persistent elements, are seen by value. */
static void persistents_check(void) {
    for (size_t ranks = 1; ranks <= MASK_MAX_RANKS; ranks++) {
        EXPECT(ACCEPTED(mask_table_check(cross(ranks))));
        for (size_t i = 0; i < MASK_MAX_RANKS; i++) {
            mask_table t = cross(ranks);
            t.persistents[i] = i < ranks ? 0 : 33554431;
            EXPECT(REFUSED(mask_table_check(t), MASK_PERSISTENT_RANGE, ranks == 1 && i == 0 ? 2 : 3 + i));
        }
    }
    mask_table t = cross(2);
    t.persistents[1] = t.persistents[0];
    EXPECT(REFUSED(mask_table_check(t), MASK_PERSISTENT_RANGE, 4));
    t.persistents[1] = 266240; /* positions 12 and 18 */
    EXPECT(WITNESSED(mask_table_check(t), MASK_NOT_PERSISTENT, 1, 2, 12));
    t.ranks = 0;
    EXPECT(REFUSED(mask_table_check(t), MASK_RANK_COUNT, 2));
    t.ranks = MASK_MAX_RANKS + 1;
    EXPECT(REFUSED(mask_table_check(t), MASK_RANK_COUNT, 2));
}

static void table_files(void) {
    mask_table zero = {0};
    mask_table_answer r = mask_table_read(ring_file, sizeof ring_file);
    EXPECT(ACCEPTED(r) && same_table(r.table, ring()));
    r = mask_table_read(ring_file, 0);
    EXPECT(REFUSED(r, MASK_NUMBER_ENDS, 0) && same_table(r.table, zero));
    r = mask_table_read(ring_file, sizeof ring_file - 1);
    EXPECT(REFUSED(r, MASK_NUMBER_ENDS, 2) && same_table(r.table, zero));
    r = mask_table_read(cobbles_file, sizeof cobbles_file);
    EXPECT(ACCEPTED(r) && same_table(r.table, cross(2)));
    r = mask_table_read(cobbles_file, sizeof cobbles_file - 1);
    EXPECT(REFUSED(r, MASK_NUMBER_ENDS, 4) && same_table(r.table, zero));

    uint8_t out[16];
    memset(out, FILL, sizeof out);
    mask_file_length w = mask_table_write(ring(), out, 6);
    EXPECT(REFUSED(w, MASK_AREA_SHORT, 0) && w.length == 0 && all(out, sizeof out, FILL));
    w = mask_table_write(zero, out, sizeof out);
    EXPECT(REFUSED(w, MASK_ELEMENT_COUNT, 0) && w.length == 0 && all(out, sizeof out, FILL));
    w = mask_table_write(ring(), out, sizeof out);
    EXPECT(ACCEPTED(w) && w.length == sizeof ring_file && memcmp(out, ring_file, sizeof ring_file) == 0);
    EXPECT(all(out + sizeof ring_file, sizeof out - sizeof ring_file, FILL));
    memset(out, FILL, sizeof out);
    w = mask_table_write(cross(2), out, 10);
    EXPECT(REFUSED(w, MASK_AREA_SHORT, 0) && w.length == 0 && all(out, sizeof out, FILL));
    w = mask_table_write(cross(2), out, sizeof out);
    EXPECT(ACCEPTED(w) && w.length == sizeof cobbles_file && memcmp(out, cobbles_file, sizeof cobbles_file) == 0);
    EXPECT(all(out + sizeof cobbles_file, sizeof out - sizeof cobbles_file, FILL));
}

/* Three image files, each with its length. */
typedef struct {
    const uint8_t *one;
    size_t one_length;
    const uint8_t *two;
    size_t two_length;
    const uint8_t *three;
    size_t three_length;
} three_files;

static const three_files dots = {dot_file, 12, dot_file, 12, dot_file, 12}; /* the same memory three times */
static const three_files two_dots = {dot_file, 12, blank_file, 12, dot_file, 12};
static const three_files bad_files = {dot_file, 12, low_file, 11, bad_file, 1};

static mask_checked load_three(mask_job *j, mask_table t, three_files f, uint8_t *first, size_t first_length,
                               const uint8_t *second, size_t second_length) {
    return mask_load_three(j, t, f.one, f.one_length, f.two, f.two_length, f.three, f.three_length, first, first_length,
                           second, second_length);
}

/* A strip of 5 x 5 pixels in two parts, the dot in the last row of the first. */
static const size_t two_heights[] = {3, 2};
static const uint8_t dot_pixels[25] = {[12] = 1};

static mask_checked load_dot(mask_job *j, mask_table t, uint8_t *first, size_t first_length, const uint8_t *second,
                             size_t second_length) {
    return mask_load_strip(j, t, strip_of(5, 2, two_heights), dot_pixels, sizeof dot_pixels, first, first_length, second,
                           second_length);
}

/* A strip and areas of which nothing is as it should be. */
static mask_checked load_bad_strip(mask_job *j, mask_table t, uint8_t *first, const uint8_t *second) {
    mask_strip bad = {0};
    return mask_load_strip(j, t, bad, bad_file, sizeof bad_file, first, 1, second, 1);
}

/* Tables that are refused by 5 or 7, as files and records. */
typedef struct {
    uint8_t file[16];
    size_t length;
    mask_table table;
    uint32_t number;
    size_t place, witness, position;
} refused_table;

#define REFUSED_AS(answer, t) WITNESSED(answer, (t)->number, (t)->place, (t)->witness, (t)->position)

/* Check, read, write and all loads give witness and position. */
static void witnessed_calls(const refused_table *t) {
    uint8_t out[16];
    uint8_t first[32];
    uint8_t second[32];
    mask_table zero = {0};
    mask_job j = {0};
    mask_job empty = {0};
    memset(out, FILL, sizeof out);
    memset(first, FILL, sizeof first);
    memset(second, FILL, sizeof second);
    EXPECT(REFUSED_AS(mask_table_check(t->table), t));
    mask_table_answer r = mask_table_read(t->file, t->length);
    EXPECT(REFUSED_AS(r, t) && same_table(r.table, zero));
    mask_file_length w = mask_table_write(t->table, out, sizeof out);
    EXPECT(REFUSED_AS(w, t) && w.length == 0 && all(out, sizeof out, FILL));
    mask_checked l = mask_load(&j, t->table, dot_file, sizeof dot_file, first, 32, second, 32);
    EXPECT(REFUSED_AS(l, t) && same_job(j, empty) && all(first, 32, FILL) && all(second, 32, FILL));
    l = load_three(&j, t->table, bad_files, first, 32, second, 32);
    EXPECT(REFUSED_AS(l, t) && same_job(j, empty) && all(first, 32, FILL) && all(second, 32, FILL));
    l = load_bad_strip(&j, t->table, first, second);
    EXPECT(REFUSED_AS(l, t) && same_job(j, empty) && all(first, 32, FILL) && all(second, 32, FILL));
}

/* In the record of a job such a table is unsound, without a witness. */
static void unsound_table(const refused_table *t) {
    uint8_t first[16] = {0};
    uint8_t second[16] = {0};
    uint8_t out[16];
    mask_job j = by_hand();
    EXPECT(ACCEPTED(mask_view(j, first, 16, second, 16)));
    j.table = t->table;
    mask_job before = j;
    EXPECT(REFUSED(mask_view(j, first, 16, second, 16), MASK_UNSOUND, 0));
    EXPECT(REFUSED(mask_figures(j, first, 16, second, 16), MASK_UNSOUND, 0));
    EXPECT(REFUSED(mask_pass(&j, first, 16, second, 16), MASK_UNSOUND, 0));
    EXPECT(REFUSED(mask_run(&j, first, 16, second, 16), MASK_UNSOUND, 0));
    EXPECT(REFUSED(mask_collect(&j, first, 16, second, 16, out, 16), MASK_UNSOUND, 0));
    EXPECT(REFUSED(mask_load(&j, ring(), dot_file, sizeof dot_file, first, 16, second, 16), MASK_UNSOUND, 0));
    EXPECT(REFUSED(load_three(&j, ring(), bad_files, first, 16, second, 16), MASK_UNSOUND, 0));
    EXPECT(REFUSED(load_bad_strip(&j, ring(), first, second), MASK_UNSOUND, 0));
    EXPECT(same_job(j, before));
}

static void witnesses(void) {
    static const refused_table tables[] = {
        {{0x04, 0x41, 0x81, 0x01, 0xC0, 0x01, 0x81, 0x80, 0x80, 0x08, 0x80, 0x60}, 12,
         {4, {65, 129, 192, 16777217}, 1, {12288}}, MASK_ELEMENTS_DISJOINT, 4, 3, 0},
        /* the fourth shares nothing with any */
        {{0x04, 0xC0, 0x01, 0xC0, 0x02, 0x80, 0x03, 0x80, 0x14, 0x80, 0x60}, 11,
         {4, {192, 320, 384, 2560}, 1, {12288}}, MASK_ELEMENTS_DISJOINT, 4, 1, 0},
        {{0x01, 0xC0, 0xD3, 0x1C, 0x01}, 5,
         {1, {RING}, 1, {1}}, MASK_NOT_PERSISTENT, 1, 1, 0},
        /* both miss */
        {{0x00, 0x01, 0xC0, 0xD3, 0x1C, 0x02, 0x01, 0x02}, 8,
         {1, {RING}, 2, {1, 2}}, MASK_NOT_PERSISTENT, 1, 1, 0},
        {{0x02, 0x80, 0xD0, 0x80, 0x08, 0x80, 0x81, 0x88, 0x08, 0x80, 0x60}, 11,
         {2, {16787456, 16908416}, 1, {12288}}, MASK_NOT_PERSISTENT, 2, 1, 12},
        {{0x00, 0x01, 0x80, 0xD1, 0x08, 0x02, 0x80, 0x60, 0x80, 0xA0, 0x10}, 11,
         {1, {CROSS}, 2, {12288, 266240}}, MASK_NOT_PERSISTENT, 1, 2, 12},
        /* the first misses the second element, the second the first */
        {{0x00, 0x02, 0x84, 0x50, 0x84, 0x81, 0x08, 0x02, 0x80, 0x60, 0x80, 0xA0, 0x08}, 13,
         {2, {10244, 131204}, 2, {12288, 135168}}, MASK_NOT_PERSISTENT, 1, 2, 12},
    };
    for (size_t i = 0; i < sizeof tables / sizeof *tables; i++) {
        witnessed_calls(&tables[i]);
        unsound_table(&tables[i]);
    }
}

static void image_files(void) {
    /* 10 x 2: rows of two bytes with six unused bits */
    uint8_t file[] = {'P', '4', '\n', '1', '0', ' ', '2', '\n', 0x80, 0x40, 0x01, 0x80};
    uint8_t area[24];
    uint8_t out[16];
    memset(area, FILL, sizeof area);
    memset(out, FILL, sizeof out);
    mask_image_size r = mask_image_read(file, sizeof file, area, 19);
    EXPECT(REFUSED(r, MASK_AREA_SHORT, 0) && r.width == 0 && r.height == 0 && all(area, sizeof area, FILL));
    /* with zeros, a one and all ones in the unused bits: the same pixels */
    for (size_t i = 0; i < 3; i++) {
        static const uint8_t unused[] = {0x00, 0x01, 0x3F};
        file[9] = 0x40 | unused[i];
        file[11] = 0x80 | unused[i];
        memset(area, FILL, sizeof area);
        r = mask_image_read(file, sizeof file, area, sizeof area);
        EXPECT(ACCEPTED(r) && r.width == 10 && r.height == 2);
        EXPECT(area[0] == 1 && area[9] == 1 && area[17] == 1 && area[18] == 1 && all(area + 1, 8, 0) && all(area + 10, 7, 0));
        EXPECT(area[19] == 0 && all(area + 20, 4, FILL));
    }
    file[9] = 0x40;
    file[11] = 0x80;

    mask_file_length w = mask_image_write(10, 2, area, 20, out, 11);
    EXPECT(REFUSED(w, MASK_AREA_SHORT, 0) && w.length == 0 && all(out, sizeof out, FILL));
    w = mask_image_write(10, 2, area, 21, out, sizeof out);
    EXPECT(REFUSED(w, MASK_RASTER_LENGTH, 0) && w.length == 0 && all(out, sizeof out, FILL));
    w = mask_image_write(257, 2, area, 20, out, sizeof out);
    EXPECT(REFUSED(w, MASK_SIZE_RANGE, 0) && w.length == 0);
    w = mask_image_write(10, 2, area, 20, out, sizeof out);
    EXPECT(ACCEPTED(w) && w.length == sizeof file && memcmp(out, file, sizeof file) == 0 && all(out + 12, 4, FILL));
    area[15] = 2;
    w = mask_image_write(10, 2, area, 20, out, sizeof out);
    EXPECT(REFUSED(w, MASK_PIXEL_VALUE, 1) && w.length == 0);
}

static void preview(void) {
    uint8_t pixels[12] = {0, 0, 1, 0, 0, 1, 1, 1, 0, 0, 1, 0}; /* 4 x 3 */
    uint8_t area[16];
    memset(area, FILL, sizeof area);
    EXPECT(REFUSED(mask_preview(4, 3, pixels, 12, area, 11), MASK_AREA_SHORT, 0) && all(area, sizeof area, FILL));
    EXPECT(REFUSED(mask_preview(3, 3, pixels, 12, area, 16), MASK_RASTER_LENGTH, 0) && all(area, sizeof area, FILL));
    EXPECT(ACCEPTED(mask_preview(4, 3, pixels, 12, area, sizeof area)));
    for (size_t i = 0; i < 12; i++) {
        /* the median by counting, with offsets cut to the image */
        size_t row = i / 4, col = i % 4, black = 0;
        for (size_t dy = 0; dy < 3; dy++) {
            for (size_t dx = 0; dx < 3; dx++) {
                size_t y = row + dy < 1 ? 0 : row + dy - 1 > 2 ? 2 : row + dy - 1;
                size_t x = col + dx < 1 ? 0 : col + dx - 1 > 3 ? 3 : col + dx - 1;
                black += pixels[y * 4 + x];
            }
        }
        EXPECT(area[i] == (black >= 5));
    }
    EXPECT(all(area + 12, 4, FILL));
    pixels[9] = 2;
    EXPECT(REFUSED(mask_preview(4, 3, pixels, 12, area, sizeof area), MASK_PIXEL_VALUE, 2));
}

/* The fields of a record that have a place for each part, one place after another. */
static size_t *part_field(mask_job *j, size_t n) {
    size_t part = n % MASK_MAX_PARTS;
    switch (n / MASK_MAX_PARTS) {
    case 0: return &j->strip.widths[part];
    case 1: return &j->strip.heights[part];
    case 2: return &j->counts.added[part];
    default: return &j->counts.removed[part];
    }
}

/* A field of an empty record that is not zero is seen wherever it stands, by value and behind the pointer. */
static void fields(void) {
    uint8_t first[32] = {0};
    uint8_t second[32] = {0};
    mask_job j = {0};
    for (int field = 0; field < 9 + MASK_MAX_RANKS + MASK_MAX_ELEMENTS + 4 * MASK_MAX_PARTS; field++) {
        memset(&j, 0, sizeof j);
        switch (field) {
        case 0: j.stage = 3; break;
        case 1: j.width = 1; break;
        case 2: j.height = 1; break;
        case 3: j.passes = 1; break;
        case 4: j.added = 1; break;
        case 5: j.removed = 1; break;
        case 6: j.table.count = 1; break;
        case 7: j.table.ranks = 1; break;
        case 8: j.strip.parts = 1; break;
        default:
            if (field < 9 + MASK_MAX_RANKS) {
                j.table.persistents[field - 9] = 1;
            } else if (field < 9 + MASK_MAX_RANKS + MASK_MAX_ELEMENTS) {
                j.table.elements[field - 9 - MASK_MAX_RANKS] = 1;
            } else {
                *part_field(&j, field - 9 - MASK_MAX_RANKS - MASK_MAX_ELEMENTS) = 1;
            }
        }
        mask_job before = j;
        EXPECT(REFUSED(mask_view(j, first, 32, second, 32), MASK_UNSOUND, 0));
        EXPECT(REFUSED(mask_figures(j, first, 32, second, 32), MASK_UNSOUND, 0));
        EXPECT(REFUSED(mask_pass(&j, first, 32, second, 32), MASK_UNSOUND, 0) && same_job(j, before));
        EXPECT(REFUSED(mask_load(&j, ring(), dot_file, sizeof dot_file, first, 32, second, 32), MASK_UNSOUND, 0));
        EXPECT(REFUSED(load_three(&j, ring(), bad_files, first, 32, second, 32), MASK_UNSOUND, 0));
        EXPECT(REFUSED(load_bad_strip(&j, ring(), first, second), MASK_UNSOUND, 0));
        EXPECT(same_job(j, before));
    }
}

static void empty(void) {
    uint8_t first[32];
    uint8_t second[32];
    uint8_t out[16];
    mask_job j = {0};
    mask_job zero = {0};
    memset(first, FILL, sizeof first);
    memset(second, FILL, sizeof second);
    memset(out, FILL, sizeof out);
    mask_part v = mask_view(j, first, 32, second, 32);
    EXPECT(REFUSED(v, MASK_NOTHING_LOADED, 0) && v.area == 0 && v.length == 0);
    mask_figures_answer f = mask_figures(j, first, 32, second, 32);
    EXPECT(REFUSED(f, MASK_NOTHING_LOADED, 0) && f.balance == 0 && f.cover == 0);
    mask_progress p = mask_pass(&j, first, 32, second, 32);
    EXPECT(REFUSED(p, MASK_NOTHING_LOADED, 0) && p.stable == 0);
    p = mask_run(&j, first, 32, second, 32);
    EXPECT(REFUSED(p, MASK_NOTHING_LOADED, 0) && p.stable == 0);
    mask_file_length c = mask_collect(&j, first, 32, second, 32, out, 16);
    EXPECT(REFUSED(c, MASK_NOTHING_LOADED, 0) && c.length == 0);
    mask_table bad = ring();
    bad.elements[5] = 1;
    EXPECT(REFUSED(mask_load(&j, bad, dot_file, sizeof dot_file, first, 32, second, 32), MASK_ELEMENT_RANGE, 6));
    EXPECT(REFUSED(load_three(&j, bad, bad_files, first, 32, second, 32), MASK_ELEMENT_RANGE, 6));
    bad = cross(3);
    bad.persistents[3] = 1;
    EXPECT(REFUSED(mask_load(&j, bad, dot_file, sizeof dot_file, first, 32, second, 32), MASK_PERSISTENT_RANGE, 6));
    EXPECT(REFUSED(load_three(&j, bad, bad_files, first, 32, second, 32), MASK_PERSISTENT_RANGE, 6));
    bad.ranks = 5;
    EXPECT(REFUSED(mask_load(&j, bad, dot_file, sizeof dot_file, first, 32, second, 32), MASK_RANK_COUNT, 2));
    EXPECT(REFUSED(load_three(&j, bad, bad_files, first, 32, second, 32), MASK_RANK_COUNT, 2));
    EXPECT(REFUSED(load_bad_strip(&j, bad, first, second), MASK_RANK_COUNT, 2));
    EXPECT(REFUSED(mask_load(&j, ring(), dot_file, 11, first, 32, second, 32), MASK_RASTER_LENGTH, 0));
    EXPECT(REFUSED(mask_load(&j, ring(), dot_file, 12, first, 24, second, 32), MASK_AREA_SHORT, 0));
    EXPECT(REFUSED(mask_load(&j, ring(), dot_file, 12, first, 32, second, 24), MASK_AREA_SHORT, 0));
    EXPECT(same_job(j, zero) && all(first, 32, FILL) && all(second, 32, FILL) && all(out, 16, FILL));
}

/* View and figures of a record by hand, by value. */
static void by_value(void) {
    uint8_t first[16];
    uint8_t second[16];
    memset(first, 1, sizeof first);
    memset(second, 0, sizeof second);
    second[0] = second[3] = second[8] = second[14] = 1;
    mask_part v = mask_view(by_hand(), first, 16, second, 15);
    EXPECT(ACCEPTED(v) && v.area == 2 && v.length == 15);
    mask_figures_answer f = mask_figures(by_hand(), first, 16, second, 15);
    EXPECT(ACCEPTED(f) && f.balance == -9 && f.cover == 267); /* 4 of 15: 266.67 */
    mask_job j = by_hand();
    j.passes = 8;
    v = mask_view(j, first, 15, second, 16);
    EXPECT(ACCEPTED(v) && v.area == 1 && v.length == 15);
    f = mask_figures(j, first, 15, second, 16);
    EXPECT(ACCEPTED(f) && f.balance == -9 && f.cover == 1000);
    v = mask_view(j, first, 14, second, 16);
    EXPECT(REFUSED(v, MASK_UNSOUND, 0) && v.area == 0 && v.length == 0);
    f = mask_figures(j, first, 15, second, 14);
    EXPECT(REFUSED(f, MASK_UNSOUND, 0) && f.balance == 0 && f.cover == 0);
    first[7] = 2;
    EXPECT(REFUSED(mask_view(j, first, 15, second, 16), MASK_UNSOUND, 0));
    first[7] = 1;
    j.table.elements[63] = 1;
    EXPECT(REFUSED(mask_view(j, first, 15, second, 16), MASK_UNSOUND, 0));
    for (size_t i = 0; i < MASK_MAX_RANKS; i++) {
        j.table = cross(MASK_MAX_RANKS);
        EXPECT(ACCEPTED(mask_view(j, first, 15, second, 16)));
        j.table.persistents[i] = 0;
        EXPECT(REFUSED(mask_view(j, first, 15, second, 16), MASK_UNSOUND, 0));
    }
    j.table = cross(2);
    j.table.ranks = 1;
    EXPECT(REFUSED(mask_view(j, first, 15, second, 16), MASK_UNSOUND, 0));
}

/* A record by hand with two parts is sound; then each of its places, and each place past the parts, tells by value. */
static void parts_by_value(void) {
    uint8_t first[32] = {0};
    uint8_t second[32] = {0};
    mask_job j = by_hand();
    j.height = 5;
    j.strip = strip_of(5, 2, two_heights);
    j.counts.added[1] = 2;
    j.counts.added[0] = 0;
    j.counts.removed[0] = 4;
    j.counts.removed[1] = 7;
    mask_part v = mask_view(j, first, 25, second, 25);
    EXPECT(ACCEPTED(v) && v.area == 2 && v.length == 25);
    mask_figures_answer f = mask_figures(j, first, 25, second, 25);
    EXPECT(ACCEPTED(f) && f.balance == -9 && f.cover == 0);
    for (size_t n = 0; n < 4 * MASK_MAX_PARTS; n++) {
        mask_job bad = j;
        ++*part_field(&bad, n);
        mask_job before = bad;
        EXPECT(REFUSED(mask_view(bad, first, 32, second, 32), MASK_UNSOUND, 0));
        EXPECT(REFUSED(mask_figures(bad, first, 32, second, 32), MASK_UNSOUND, 0));
        EXPECT(REFUSED(mask_run(&bad, first, 32, second, 32), MASK_UNSOUND, 0) && same_job(bad, before));
    }
    for (size_t n = 0; n < 4; n++) {
        static const size_t numbers[] = {0, 1, 3, MASK_MAX_PARTS + 1};
        mask_job bad = j;
        bad.strip.parts = numbers[n];
        EXPECT(REFUSED(mask_view(bad, first, 32, second, 32), MASK_UNSOUND, 0));
    }
    /* the sum of the parts is right only where it wraps */
    j.counts.added[0] = (size_t)-1;
    j.counts.added[1] = 3;
    EXPECT(REFUSED(mask_view(j, first, 32, second, 32), MASK_UNSOUND, 0));
}

/* Cover is to the nearest thousandth, and an exact half goes to the even one. The largest image, and the largest strip. */
static void covers(void) {
    static const struct {
        size_t width, height, black, cover;
    } cases[] = {
        {4, 4, 1, 62},           {4, 4, 3, 188},           {4, 4, 15, 938},         {20, 20, 1, 2},
        {1, 3, 1, 333},          {1, 3, 2, 667},           {7, 1, 0, 0},            {7, 1, 7, 1000},
        {256, 256, 32, 0},       {256, 256, 33, 1},        {256, 256, 4096, 62},    {256, 256, 12288, 188},
        {256, 256, 65535, 1000}, {256, 256, 65536, 1000},  {256, 4096, 524, 0},     {256, 4096, 525, 1},
        {256, 4096, 65536, 62},  {256, 4096, 196608, 188}, {256, 4096, 1048576, 1000},
    };
    static uint8_t first[MASK_MAX_STRIP_PIXELS];
    static uint8_t second[MASK_MAX_STRIP_PIXELS];
    size_t heights[MASK_MAX_PARTS];
    for (size_t i = 0; i < MASK_MAX_PARTS; i++) {
        heights[i] = MASK_MAX_SIDE;
    }
    for (size_t i = 0; i < sizeof cases / sizeof *cases; i++) {
        mask_job j = {0};
        j.stage = MASK_STAGE_LOADED;
        j.width = cases[i].width;
        j.height = cases[i].height;
        j.table = ring();
        one_part(&j);
        if (j.height == MASK_MAX_ROWS) {
            j.strip = strip_of(MASK_MAX_SIDE, MASK_MAX_PARTS, heights);
        }
        memset(first, 0, sizeof first);
        memset(first, 1, cases[i].black);
        mask_figures_answer f = mask_figures(j, first, sizeof first, second, sizeof second);
        EXPECT(ACCEPTED(f) && f.balance == 0 && f.cover == cases[i].cover);
    }
}

/* The ring on 5 x 5 with one black pixel: one pass removes it. Loaded from the files, or where there are none from one. */
static void whole_job(const three_files *files, int by_run) {
    uint8_t first[32];
    uint8_t second[32];
    uint8_t out[16];
    mask_job j = {0};
    mask_job zero = {0};
    const size_t height = 5;
    mask_strip whole = strip_of(5, 1, &height); /* a single image is one part */
    mask_part_counts counts = {0};
    memset(first, FILL, sizeof first);
    memset(second, FILL, sizeof second);
    memset(out, FILL, sizeof out);
    mask_checked l = files ? load_three(&j, ring(), *files, first, 30, second, 31)
                           : mask_load(&j, ring(), dot_file, sizeof dot_file, first, 30, second, 31);
    EXPECT(ACCEPTED(l));
    EXPECT(j.stage == 1 && j.width == 5 && j.height == 5 && j.passes == 0 && j.added == 0 && j.removed == 0);
    EXPECT(same_table(j.table, ring()) && all(second, 32, FILL) && all(first + 25, 7, FILL));
    EXPECT(same_strip(j.strip, whole) && same_counts(j.counts, counts));
    EXPECT(all(first, 12, 0) && first[12] == 1 && all(first + 13, 12, 0));
    mask_part v = mask_view(j, first, 30, second, 31);
    EXPECT(ACCEPTED(v) && v.area == 1 && v.length == 25);
    EXPECT(REFUSED(mask_load(&j, ring(), dot_file, sizeof dot_file, first, 30, second, 31), MASK_NOT_COLLECTED, 0));
    EXPECT(REFUSED(load_three(&j, ring(), bad_files, first, 30, second, 31), MASK_NOT_COLLECTED, 0));
    EXPECT(REFUSED(load_dot(&j, ring(), first, 30, second, 31), MASK_NOT_COLLECTED, 0));
    counts.removed[0] = 1;
    mask_file_length c = mask_collect(&j, first, 30, second, 31, out, 16);
    EXPECT(REFUSED(c, MASK_NOT_STABLE, 0) && c.length == 0 && j.stage == 1);
    if (by_run) {
        mask_progress p = mask_run(&j, first, 30, second, 31);
        EXPECT(ACCEPTED(p) && p.stable == 1);
    } else {
        mask_progress p = mask_pass(&j, first, 30, second, 31);
        EXPECT(ACCEPTED(p) && p.stable == 0 && j.stage == 1 && j.passes == 1 && j.added == 0 && j.removed == 1);
        EXPECT(all(second, 25, 0) && first[12] == 1);
        p = mask_pass(&j, first, 30, second, 31);
        EXPECT(ACCEPTED(p) && p.stable == 1);
        p = mask_pass(&j, first, 30, second, 31);
        EXPECT(ACCEPTED(p) && p.stable == 1);
    }
    EXPECT(j.stage == 2 && j.width == 5 && j.height == 5 && j.passes == 1 && j.added == 0 && j.removed == 1);
    EXPECT(same_strip(j.strip, whole) && same_counts(j.counts, counts));
    EXPECT(same_table(j.table, ring()) && all(first, 25, 0) && all(first + 25, 7, FILL));
    EXPECT(all(second, 25, 0) && all(second + 25, 7, FILL));
    v = mask_view(j, first, 30, second, 31);
    EXPECT(ACCEPTED(v) && v.area == 2 && v.length == 25);
    mask_figures_answer f = mask_figures(j, first, 30, second, 31);
    EXPECT(ACCEPTED(f) && f.balance == -1 && f.cover == 0);
    mask_job before = j;
    c = mask_collect(&j, first, 30, second, 31, out, 11);
    EXPECT(REFUSED(c, MASK_AREA_SHORT, 0) && c.length == 0 && same_job(j, before) && all(out, 16, FILL));
    c = mask_collect(&j, first, 30, second, 31, out, 16);
    EXPECT(ACCEPTED(c) && c.length == 12 && memcmp(out, blank_file, 12) == 0 && all(out + 12, 4, FILL));
    EXPECT(same_job(j, zero) && all(second, 25, 0) && all(second + 25, 7, FILL));
}

/* The strip of two parts: one pass removes the dot, though it is at the edge of its part, and the first part says so. */
static void strip_job(int by_run) {
    static const uint8_t files[] = {'P', '4', '\n', '5', ' ', '3', '\n', 0, 0, 0, 'P', '4', '\n', '5', ' ', '2', '\n', 0, 0};
    uint8_t first[32];
    uint8_t second[32];
    uint8_t out[24];
    mask_job j = {0};
    mask_job zero = {0};
    mask_part_counts counts = {0};
    mask_strip parts = strip_of(5, 2, two_heights);
    memset(first, FILL, sizeof first);
    memset(second, FILL, sizeof second);
    memset(out, FILL, sizeof out);
    mask_checked l = load_dot(&j, ring(), first, 30, second, 31);
    EXPECT(ACCEPTED(l));
    EXPECT(j.stage == 1 && j.width == 5 && j.height == 5 && j.passes == 0 && j.added == 0 && j.removed == 0);
    EXPECT(same_table(j.table, ring()) && same_strip(j.strip, parts) && same_counts(j.counts, counts));
    EXPECT(memcmp(first, dot_pixels, 25) == 0 && all(first + 25, 7, FILL) && all(second, 32, FILL));
    EXPECT(REFUSED(load_dot(&j, ring(), first, 30, second, 31), MASK_NOT_COLLECTED, 0));
    counts.removed[0] = 1;
    if (!by_run) {
        mask_progress p = mask_pass(&j, first, 30, second, 31);
        EXPECT(ACCEPTED(p) && p.stable == 0 && j.stage == 1 && j.passes == 1 && j.added == 0 && j.removed == 1);
        EXPECT(same_counts(j.counts, counts) && all(second, 25, 0) && first[12] == 1);
    }
    mask_progress p = by_run ? mask_run(&j, first, 30, second, 31) : mask_pass(&j, first, 30, second, 31);
    EXPECT(ACCEPTED(p) && p.stable == 1);
    EXPECT(j.stage == 2 && j.width == 5 && j.height == 5 && j.passes == 1 && j.added == 0 && j.removed == 1);
    EXPECT(same_table(j.table, ring()) && same_strip(j.strip, parts) && same_counts(j.counts, counts));
    EXPECT(all(first, 25, 0) && all(first + 25, 7, FILL) && all(second, 25, 0) && all(second + 25, 7, FILL));
    mask_part v = mask_view(j, first, 30, second, 31);
    EXPECT(ACCEPTED(v) && v.area == 2 && v.length == 25);
    mask_figures_answer f = mask_figures(j, first, 30, second, 31);
    EXPECT(ACCEPTED(f) && f.balance == -1 && f.cover == 0);
    mask_job before = j;
    mask_file_length c = mask_collect(&j, first, 30, second, 31, out, 18);
    EXPECT(REFUSED(c, MASK_AREA_SHORT, 0) && c.length == 0 && same_job(j, before) && all(out, 24, FILL));
    c = mask_collect(&j, first, 30, second, 31, out, 24);
    EXPECT(ACCEPTED(c) && c.length == 19 && memcmp(out, files, sizeof files) == 0 && all(out + 19, 5, FILL));
    EXPECT(same_job(j, zero) && all(second, 25, 0) && all(second + 25, 7, FILL));
}

/* The number of parts, then the sizes, the widths, the bytes and the areas. What is past the parts is not looked at. */
static void strip_refused(void) {
    static const struct {
        mask_strip strip;
        size_t bytes;
        uint8_t byte_20;
        size_t first_length, second_length;
        uint32_t number;
        size_t place;
    } cases[] = {
        {{0, {5}, {5}}, 25, 0, 32, 32, MASK_PARTS, 0},
        {{17, {5, 0}, {3, 2}}, 24, 2, 1, 1, MASK_PARTS, 0},
        {{3, {5, 0, 5}, {1, 2, 300}}, 24, 2, 1, 1, MASK_SIZE_RANGE, 2},
        {{3, {5, 4, 5}, {1, 2, 257}}, 25, 0, 32, 32, MASK_SIZE_RANGE, 3},
        {{3, {5, 4, 6}, {1, 2, 2}}, 24, 2, 1, 1, MASK_PARTS, 2},
        {{1, {257}, {5}}, 25, 0, 32, 32, MASK_SIZE_RANGE, 1},
        {{2, {5, 5}, {3, 2}}, 24, 2, 1, 1, MASK_RASTER_LENGTH, 0},
        {{2, {5, 5, 4}, {3, 2, 300}}, 25, 2, 1, 1, MASK_PIXEL_VALUE, 4},
        {{2, {5, 5}, {3, 2}}, 25, 0, 24, 32, MASK_AREA_SHORT, 0},
        {{2, {5, 5}, {3, 2}}, 25, 0, 32, 24, MASK_AREA_SHORT, 0},
    };
    uint8_t pixels[25] = {0};
    uint8_t first[32];
    uint8_t second[32];
    mask_job j = {0};
    mask_job zero = {0};
    memset(first, FILL, sizeof first);
    memset(second, FILL, sizeof second);
    for (size_t i = 0; i < sizeof cases / sizeof *cases; i++) {
        pixels[20] = cases[i].byte_20;
        mask_checked l = mask_load_strip(&j, ring(), cases[i].strip, pixels, cases[i].bytes, first, cases[i].first_length,
                                         second, cases[i].second_length);
        EXPECT(REFUSED(l, cases[i].number, cases[i].place));
        EXPECT(same_job(j, zero) && all(first, 32, FILL) && all(second, 32, FILL));
    }
}

/* Sixteen parts of one row: each place of the argument is seen, and past a number of parts none is. */
static void strip_places(void) {
    static const uint8_t pixels[32] = {0};
    uint8_t first[32];
    uint8_t second[32];
    size_t heights[MASK_MAX_PARTS];
    for (size_t i = 0; i < MASK_MAX_PARTS; i++) {
        heights[i] = 1;
    }
    mask_strip whole = strip_of(2, MASK_MAX_PARTS, heights);
    for (size_t i = 0; i < MASK_MAX_PARTS; i++) {
        mask_job j = {0};
        mask_strip s = whole;
        s.heights[i] = 0;
        EXPECT(REFUSED(mask_load_strip(&j, ring(), s, pixels, 32, first, 32, second, 32), MASK_SIZE_RANGE, i + 1));
        s.heights[i] = 1;
        s.widths[i] = 1;
        EXPECT(REFUSED(mask_load_strip(&j, ring(), s, pixels, 32, first, 32, second, 32), MASK_PARTS, i == 0 ? 2 : i + 1));
        s.heights[i] = 257;
        s.parts = i;
        mask_checked l = mask_load_strip(&j, ring(), s, pixels, 2 * i, first, 32, second, 32);
        EXPECT(i == 0 ? REFUSED(l, MASK_PARTS, 0) : ACCEPTED(l) && same_strip(j.strip, strip_of(2, i, heights)));
    }
    mask_job j = {0};
    mask_checked l = mask_load_strip(&j, ring(), whole, pixels, 32, first, 32, second, 32);
    EXPECT(ACCEPTED(l) && j.width == 2 && j.height == 16 && same_strip(j.strip, whole));
}

/* The first file that is bad speaks, then the first whose size differs, then a short area. Nothing is written. */
static void three_refused(void) {
    static const struct {
        three_files files;
        size_t first_length, second_length;
        uint32_t number;
        size_t place;
    } cases[] = {
        {{bad_file, 1, wide_file, 9, dot_file, 11}, 32, 32, MASK_HEADER_FORM, 0},
        {{bad_file, 1, dot_file, 11, wide_file, 9}, 32, 32, MASK_HEADER_FORM, 0},
        {{wide_file, 9, bad_file, 1, dot_file, 11}, 32, 32, MASK_SIZE_RANGE, 0},
        {{wide_file, 9, dot_file, 11, bad_file, 1}, 32, 32, MASK_SIZE_RANGE, 0},
        {{dot_file, 11, bad_file, 1, wide_file, 9}, 32, 32, MASK_RASTER_LENGTH, 0},
        {{dot_file, 11, wide_file, 9, bad_file, 1}, 32, 32, MASK_RASTER_LENGTH, 0},
        {{dot_file, 12, wide_file, 9, bad_file, 1}, 32, 32, MASK_SIZE_RANGE, 0},
        {{dot_file, 12, low_file, 11, bad_file, 1}, 32, 32, MASK_HEADER_FORM, 0},
        {{dot_file, 12, low_file, 11, blank_file, 12}, 32, 32, MASK_SIZES_DIFFER, 2},
        {{dot_file, 12, blank_file, 12, low_file, 11}, 32, 32, MASK_SIZES_DIFFER, 3},
        {{dot_file, 12, low_file, 11, low_file, 11}, 32, 32, MASK_SIZES_DIFFER, 2},
        {{low_file, 11, dot_file, 12, dot_file, 12}, 32, 32, MASK_SIZES_DIFFER, 2},
        {{low_file, 11, narrow_file, 12, low_file, 11}, 32, 32, MASK_SIZES_DIFFER, 2},
        {{dot_file, 12, dot_file, 12, narrow_file, 12}, 32, 32, MASK_SIZES_DIFFER, 3},
        {{low_file, 11, low_file, 11, dot_file, 12}, 32, 32, MASK_SIZES_DIFFER, 3},
        {{dot_file, 12, low_file, 11, dot_file, 12}, 1, 1, MASK_SIZES_DIFFER, 2},
        {{dot_file, 12, dot_file, 12, dot_file, 12}, 24, 32, MASK_AREA_SHORT, 0},
        {{dot_file, 12, dot_file, 12, dot_file, 12}, 32, 24, MASK_AREA_SHORT, 0},
    };
    uint8_t first[32];
    uint8_t second[32];
    mask_job j = {0};
    mask_job zero = {0};
    memset(first, FILL, sizeof first);
    memset(second, FILL, sizeof second);
    for (size_t i = 0; i < sizeof cases / sizeof *cases; i++) {
        mask_checked l = load_three(&j, ring(), cases[i].files, first, cases[i].first_length, second, cases[i].second_length);
        EXPECT(REFUSED(l, cases[i].number, cases[i].place));
        EXPECT(same_job(j, zero) && all(first, 32, FILL) && all(second, 32, FILL));
    }
}

/* Each of the eight columns of row 0 is black in another set of the three files; row 1 has the colours exchanged. */
static void three_accepted(void) {
    static const uint8_t one[] = {'P', '4', '\n', '8', ' ', '2', '\n', 0x0F, 0xF0};
    static const uint8_t two[] = {'P', '4', '\n', '8', ' ', '2', '\n', 0x33, 0xCC};
    static const uint8_t three[] = {'P', '4', '\n', '8', ' ', '2', '\n', 0x55, 0xAA};
    static const uint8_t pixels[16] = {0, 0, 0, 1, 0, 1, 1, 1, 1, 1, 1, 0, 1, 0, 0, 0};
    const three_files files = {one, sizeof one, two, sizeof two, three, sizeof three};
    uint8_t first[32];
    uint8_t second[32];
    mask_job j = {0};
    memset(first, FILL, sizeof first);
    memset(second, FILL, sizeof second);
    mask_checked l = load_three(&j, cross(2), files, first, 17, second, 16);
    EXPECT(ACCEPTED(l));
    EXPECT(j.stage == 1 && j.width == 8 && j.height == 2 && j.passes == 0 && j.added == 0 && j.removed == 0);
    EXPECT(same_table(j.table, cross(2)) && memcmp(first, pixels, 16) == 0);
    EXPECT(all(first + 16, 16, FILL) && all(second, 32, FILL));
}

/* A record by hand, of an image or of a strip, whose next pass would take its counts above the pixels: refused, and nothing
   is written. */
static void pass_clause(int strip) {
    uint8_t first[32];
    uint8_t second[32];
    mask_job j = {0};
    memset(first, FILL, sizeof first);
    memset(second, FILL, sizeof second);
    mask_checked l = strip ? load_dot(&j, ring(), first, 32, second, 32)
                           : mask_load(&j, ring(), dot_file, sizeof dot_file, first, 32, second, 32);
    EXPECT(ACCEPTED(l));
    j.added = j.counts.added[0] = 20;
    j.removed = j.counts.removed[strip] = 5;
    EXPECT(ACCEPTED(mask_view(j, first, 32, second, 32)));
    mask_job before = j;
    mask_progress p = mask_pass(&j, first, 32, second, 32);
    EXPECT(REFUSED(p, MASK_UNSOUND, 0) && p.stable == 0 && same_job(j, before) && all(second, 32, FILL));
    p = mask_run(&j, first, 32, second, 32);
    EXPECT(REFUSED(p, MASK_UNSOUND, 0) && p.stable == 0 && same_job(j, before) && all(second, 32, FILL));
}

/* What is read and what is not; 25; a refused quota comes back as it was, whatever stands in it. */
static void quotas(void) {
    static const size_t half = (size_t)1 << 63;
    static const size_t most = (size_t)-1;
    const mask_quota bad[] = {
        quota_of(0, 9, 0, 0, 0, 0),          quota_of(5, 9, 0, 0, 0, 0),       quota_of(most, 9, 1, 1, 1, 1),
        quota_of(2, 5, 3, 3, 0, 0),          quota_of(1, 0, 1, 0, 0, 0),       quota_of(2, most, half, half, 0, 0),
        quota_of(2, 0, most, 1, 0, 0),       quota_of(4, 0, half, 0, half, 0), quota_of(4, 9, 0, 0, 0, 10),
    };
    for (size_t i = 0; i < sizeof bad / sizeof *bad; i++) {
        mask_quota q = bad[i];
        for (size_t k = 0; k < MASK_MAX_CHANNELS; k++) {
            q.left[k] = 70 + k;
        }
        q.pool = 80;
        mask_quota_answer r = mask_quota_open(q);
        EXPECT(REFUSED(r, MASK_QUOTA_RANGE, 0) && same_quota(r.quota, q));
    }
    mask_quota_answer r = mask_quota_open(quota_of(2, 5, 2, 1, 9, 9));
    mask_quota opened = {2, 5, {2, 1, 0, 0}, {2, 1, 0, 0}, 2};
    EXPECT(ACCEPTED(r) && same_quota(r.quota, opened));
    opened.left[0] = opened.left[1] = opened.pool = 0;
    opened.left[3] = most;
    EXPECT(ACCEPTED(mask_quota_open(opened)) && same_quota(mask_quota_open(opened).quota, r.quota));
    r = mask_quota_open(quota_of(4, most, half, half - 4, 1, 2));
    EXPECT(ACCEPTED(r) && r.quota.left[1] == half - 4 && r.quota.left[2] == 1 && r.quota.left[3] == 2 && r.quota.pool == 0);
}

/* The ring's dot in channel 3, an image or a strip: each call takes the quota by value and hands it back, from the reserve
   first. One pass removes the dot, and the quiet one needs a pass too. */
static void channel_job(int strip, int by_run) {
    uint8_t first[32];
    uint8_t second[32];
    mask_job j = {0};
    mask_quota q = {3, 11, {1, 2, 3, 0}, {4, 5, 1, 6}, 0};
    memset(first, FILL, sizeof first);
    memset(second, FILL, sizeof second);
    mask_checked l = strip ? load_dot(&j, ring(), first, 30, second, 31)
                           : mask_load(&j, ring(), dot_file, sizeof dot_file, first, 30, second, 31);
    EXPECT(ACCEPTED(l));
    mask_quota after = q;
    after.left[2] = 0;
    mask_channel_progress p = by_run ? mask_channel_run(&j, q, 3, first, 30, second, 31)
                                     : mask_channel_pass(&j, q, 3, first, 30, second, 31);
    EXPECT(by_run ? REFUSED(p, MASK_ALLOWANCE_SPENT, 3) : ACCEPTED(p));
    EXPECT(p.stable == 0 && same_quota(p.quota, after));
    EXPECT(j.stage == 1 && j.passes == 1 && j.added == 0 && j.removed == 1 && j.counts.removed[0] == 1);
    EXPECT(all(second, 25, 0) && all(second + 25, 7, FILL) && first[12] == 1 && all(first + 25, 7, FILL));
    mask_job before = j;
    p = mask_channel_pass(&j, p.quota, 3, first, 30, second, 31);
    EXPECT(REFUSED(p, MASK_ALLOWANCE_SPENT, 3) && p.stable == 0 && same_quota(p.quota, after) && same_job(j, before));
    p = mask_channel_run(&j, p.quota, 3, first, 30, second, 31);
    EXPECT(REFUSED(p, MASK_ALLOWANCE_SPENT, 3) && p.stable == 0 && same_quota(p.quota, after) && same_job(j, before));
    EXPECT(first[12] == 1);
    q = p.quota;
    q.pool = 7;
    for (int calls = 0; calls < 3; calls++) { /* the first is paid for, the others are at rest */
        p = by_run ? mask_channel_run(&j, q, 3, first, 30, second, 31) : mask_channel_pass(&j, q, 3, first, 30, second, 31);
        after.pool = 6;
        EXPECT(ACCEPTED(p) && p.stable == 1 && same_quota(p.quota, after));
        EXPECT(j.stage == 2 && j.passes == 1 && all(first, 25, 0) && all(first + 25, 7, FILL));
        q = p.quota;
    }
}

/* 25 comes before 14, this before 16, then 24, and then 14's pass clause. Nothing is altered. */
static void channel_refused(void) {
    static const struct {
        size_t channels, left, pool, channel;
        int loaded, full;
        size_t width;
        uint32_t number;
        size_t place;
    } cases[] = {
        {5, 0, 0, 1, 1, 1, 6, MASK_QUOTA_RANGE, 0},         {0, 1, 1, 0, 0, 0, 0, MASK_QUOTA_RANGE, 0},
        {2, 0, 0, 3, 0, 0, 1, MASK_QUOTA_RANGE, 0},         {2, 1, 1, 0, 1, 0, 5, MASK_QUOTA_RANGE, 0},
        {(size_t)-1, 1, 1, 4, 1, 0, 5, MASK_QUOTA_RANGE, 0}, {4, 1, 1, (size_t)-1, 1, 0, 5, MASK_QUOTA_RANGE, 0},
        {2, 0, 0, 2, 0, 0, 1, MASK_UNSOUND, 0},             {2, 0, 0, 2, 1, 1, 6, MASK_UNSOUND, 0},
        {2, 0, 0, 2, 0, 0, 0, MASK_NOTHING_LOADED, 0},      {2, 0, 0, 2, 1, 1, 5, MASK_ALLOWANCE_SPENT, 2},
        {4, 0, 0, 4, 1, 0, 5, MASK_ALLOWANCE_SPENT, 4},     {2, 1, 0, 2, 1, 1, 5, MASK_UNSOUND, 0},
        {4, 0, 1, 4, 1, 1, 5, MASK_UNSOUND, 0},
    };
    for (size_t i = 0; i < sizeof cases / sizeof *cases; i++) {
        uint8_t first[32];
        uint8_t second[32];
        mask_job j = {0};
        mask_quota q = quota_of(cases[i].channels, 3, 9, 8, 7, 6);
        memset(first, FILL, sizeof first);
        memset(second, FILL, sizeof second);
        if (cases[i].loaded) {
            EXPECT(ACCEPTED(mask_load(&j, ring(), dot_file, sizeof dot_file, first, 32, second, 32)));
        }
        if (cases[i].full) {
            j.added = j.counts.added[0] = 25;
        }
        j.width = cases[i].width;
        for (size_t k = 0; k < MASK_MAX_CHANNELS; k++) {
            q.left[k] = k + 1 == cases[i].channel ? cases[i].left : 5; /* others' passes do not help */
        }
        q.pool = cases[i].pool;
        mask_job before = j;
        mask_channel_progress p = mask_channel_pass(&j, q, cases[i].channel, first, 32, second, 32);
        EXPECT(REFUSED(p, cases[i].number, cases[i].place) && p.stable == 0 && same_quota(p.quota, q) && same_job(j, before));
        p = mask_channel_run(&j, q, cases[i].channel, first, 32, second, 32);
        EXPECT(REFUSED(p, cases[i].number, cases[i].place) && p.stable == 0 && same_quota(p.quota, q) && same_job(j, before));
        EXPECT(all(second, 32, FILL) && (cases[i].loaded ? first[12] == 1 : all(first, 32, FILL)));
    }
}

/* In a quota by hand, reserve and pool together may be above all numbers: a pass is left. */
static void channel_numbers(void) {
    static const size_t half = (size_t)1 << 63;
    for (size_t channel = 1; channel <= MASK_MAX_CHANNELS; channel++) {
        uint8_t first[32];
        uint8_t second[32];
        mask_job j = {0};
        mask_quota q = {4, 0, {0}, {0}, half};
        q.left[channel - 1] = half;
        EXPECT(ACCEPTED(mask_load(&j, ring(), dot_file, sizeof dot_file, first, 32, second, 32)));
        mask_channel_progress p = mask_channel_run(&j, q, channel, first, 32, second, 32);
        q.left[channel - 1] = half - 2;
        EXPECT(ACCEPTED(p) && p.stable == 1 && same_quota(p.quota, q) && j.stage == 2 && j.removed == 1);
    }
}

int main(void) {
    layout();
    table_check();
    persistents_check();
    table_files();
    witnesses();
    image_files();
    preview();
    fields();
    empty();
    by_value();
    parts_by_value();
    covers();
    strip_refused();
    strip_places();
    three_refused();
    three_accepted();
    for (int by_run = 0; by_run < 2; by_run++) {
        whole_job(NULL, by_run);
        whole_job(&dots, by_run);
        whole_job(&two_dots, by_run);
        strip_job(by_run);
        channel_job(0, by_run);
        channel_job(1, by_run);
    }
    pass_clause(0);
    pass_clause(1);
    quotas();
    channel_refused();
    channel_numbers();
    return failures != 0;
}
