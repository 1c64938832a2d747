/* The practical limit: 64 pixels a word, the table compiled beforehand, nothing checked, and in a run only rows near the last
   changes. Plain C; -O3 turns its loops over rows into vector instructions, and -funroll-loops helps it a little.

   The image is cut into upright strips of 52 columns. A word holds one row of a strip, and six columns on either side: no
   pixel depends on more in a pass, so nothing is carried from word to word, and every operation is one loop over the rows.

   A translate of a persistent element is of one colour where no two of its pixels differ that are linked, the links making
   it one piece. It opens pixels of its own colour only, so one plane `opened` and one dilation serve both colours. A pixel
   *faces* an opened one of the other colour: opened & (colour there ^ colour here). It changes where it faces a whole
   element. The persistent elements being persistent, it does not when it is opened. */
#include "limit.h"

#include "elements.h"

#include <stdlib.h>
#include <string.h>

typedef uint64_t word;

/* A pass works on at most TALL rows of a strip at a time, in groups of eight: its planes stay in the first cache. */
enum { OWN = 52, MARGIN = 6, STRIPS = (MAX_SIDE + OWN - 1) / OWN, GROUP = 8, TALL = 128, ABOVE = 8, BELOW = 24 };

/* ---- a table as a program on planes */

/* Index i of a plane is row i - MARGIN of the rows at work. An input is a plane, looked at so many rows below and so many
   columns beside the pixel. */
enum { IMAGE, OPENED, FIRST_FREE, MAX_PLANES = MAX_NODES + 64, MAX_INPUTS = 9, MAX_SOME = 8 };
typedef struct { int plane, row, column; } input;

/* DIFFER  the first input differs from the second, which alone may be in another column
   SOME    some input, all in the pixel's column
   RIGHT   some input; columns count to the right
   LEFT    some input; columns count to the left
   ALIKE   no input, where a translate of persistent element `rank` fits into the image
   FACING  for each pair of inputs, image and opened: opened, and other than the pixel here; and the odd last input, if any
   CHOOSE  the first input, or the second and the third; the first or the third may be missing (NEVER, ALWAYS) */
enum operation { DIFFER, SOME, RIGHT, LEFT, ALIKE, FACING, CHOOSE };
typedef word plane[TALL + 2 * MARGIN + 4];
typedef struct step step;
typedef void loop(const step *s, int rows, word mask);
struct step { loop *loop; int more, rank, columns[MAX_INPUTS]; const word *in[MAX_INPUTS], *here; word *out; };
typedef struct { plane *planes; int count, used; step steps[MAX_PLANES]; } plane_program;

typedef struct { int width, height, rows[5]; } shape;

struct limit_filter {
    int width, height, strips, groups, ranks;
    shape persistents[MASK_MAX_RANKS];
    plane planes[MAX_PLANES];
    plane_program opening, judging;
    int changes;                            /* the plane that judging ends with */
    word own[STRIPS];                       /* its columns that are in the image */
    word fits[STRIPS][MASK_MAX_RANKS];      /* leftmost columns of translates that lie in the image */
    int last[STRIPS];                       /* the bit of the image's last column; 63 or more: nothing lies beyond */
    word image[STRIPS][ABOVE + MAX_SIDE + BELOW], flips[STRIPS][MAX_SIDE];
    uint32_t awake[STRIPS];                 /* the groups of rows to look at */
};

/* ---- the loops over rows, one for each operation and number of inputs */

#define INLINE static inline __attribute__((always_inline))

/* Numbers of rows are multiples of four, which the mask tells the compiler. `count`, `unmoved` (how many inputs are in the
   pixel's column, at the front) and the other parameters after `rows` and `mask` are constants where these are called. */
INLINE void some(word *restrict out, const step *s, int rows, word mask, int count, int unmoved, enum operation operation) {
    const word *const *in = s->in;
    for (int i = 0; i < (rows & ~3); i++) {
        word any = 0;
        for (int k = 0; k < count; k++) {
            word here = in[k][i];
            any |= k < unmoved ? here : operation == LEFT ? here << s->columns[k] : here >> s->columns[k];
        }
        out[i] = operation == ALIKE ? ~any & mask : any;
    }
}

INLINE void face(word *restrict out, const step *s, int rows, int count) {
    for (int i = 0; i < (rows & ~3); i++) {
        word all = count % 2 ? s->in[count - 1][i] : ~(word)0;
        for (int k = 0; k + 1 < count; k += 2) all &= (s->in[k][i] ^ s->here[i]) & s->in[k + 1][i];
        out[i] = all;
    }
}

INLINE void choose(word *restrict out, const step *s, int rows, int without, int with) {
    for (int i = 0; i < (rows & ~3); i++) {
        word both = with ? s->in[1][i] & s->in[2][i] : s->in[1][i];
        out[i] = without ? s->in[0][i] | both : both;
    }
}

INLINE void differ(word *restrict out, const step *s, int rows, int moved) {
    for (int i = 0; i < (rows & ~3); i++) out[i] = s->in[0][i] ^ (moved ? s->in[1][i] >> s->columns[1] : s->in[1][i]);
}

#define LOOP(name, function, ...) \
    static void name(const step *s, int rows, word mask) { (void)mask, function(s->out, s, rows, __VA_ARGS__); }
#define SOME_LOOPS(name, unmoved, operation) \
    LOOP(name##1, some, mask, 1, unmoved, operation) LOOP(name##2, some, mask, 2, unmoved, operation) \
    LOOP(name##3, some, mask, 3, unmoved, operation) LOOP(name##4, some, mask, 4, unmoved, operation) \
    LOOP(name##5, some, mask, 5, unmoved, operation) LOOP(name##6, some, mask, 6, unmoved, operation) \
    LOOP(name##7, some, mask, 7, unmoved, operation) LOOP(name##8, some, mask, 8, unmoved, operation) \
    static loop *const name[] = {NULL, name##1, name##2, name##3, name##4, name##5, name##6, name##7, name##8};

SOME_LOOPS(some_loops, MAX_SOME, SOME)
SOME_LOOPS(alike_loops, MAX_SOME, ALIKE)
SOME_LOOPS(right_loops, 1, RIGHT)
SOME_LOOPS(left_loops, 1, LEFT)
SOME_LOOPS(all_right_loops, 0, RIGHT)
SOME_LOOPS(all_left_loops, 0, LEFT)

LOOP(face2, face, 2) LOOP(face3, face, 3) LOOP(face4, face, 4) LOOP(face5, face, 5)
LOOP(face6, face, 6) LOOP(face7, face, 7) LOOP(face8, face, 8) LOOP(face9, face, 9)
static loop *const face_loops[] = {NULL, NULL, face2, face3, face4, face5, face6, face7, face8, face9};

LOOP(choose_with, choose, 0, 1) LOOP(choose_without, choose, 1, 0) LOOP(choose_both, choose, 1, 1)
LOOP(differ_here, differ, 0) LOOP(differ_beside, differ, 1)

/* Of inputs in rising columns only the first can be in the pixel's own. */
static loop *loop_for(enum operation operation, const input *in, int count) {
    switch (operation) {
        case DIFFER: return in[1].column ? differ_beside : differ_here;
        case SOME: return some_loops[count];
        case RIGHT: return (in[0].column ? all_right_loops : right_loops)[count];
        case LEFT: return (in[0].column ? all_left_loops : left_loops)[count];
        case ALIKE: return alike_loops[count];
        case FACING: return face_loops[count];
        default: return in[0].plane < 0 ? choose_with : in[2].plane < 0 ? choose_without : choose_both;
    }
}

/* ---- writing a program */

static input at(int plane, int row, int column) { return (input){plane, row, column}; }

/* The two programs share planes: of the opening's only OPENED is needed later. */
static void start(plane_program *program, limit_filter *filter) {
    program->planes = filter->planes, program->count = 0, program->used = FIRST_FREE;
}

/* Adds a step that fills a plane from index `begin` on, `more` rows than are at work. */
static void add_to(plane_program *program, int out, enum operation operation, int begin, int more, const input *in, int count) {
    step *s = &program->steps[program->count++];
    *s = (step){.loop = loop_for(operation, in, count), .more = more, .rank = -1};
    s->out = program->planes[out] + begin;
    s->here = program->planes[IMAGE] + begin;
    for (int k = 0; k < count; k++) {
        s->columns[k] = in[k].column;
        s->in[k] = in[k].plane < 0 ? NULL : program->planes[in[k].plane] + begin + in[k].row;
    }
}

static int add(plane_program *program, enum operation operation, int begin, int more, const input *in, int count) {
    add_to(program, program->used, operation, begin, more, in, count);
    return program->used++;
}

/* Leaves at most MAX_SOME inputs: some of them are collected beforehand. How many are left. */
static int collect(plane_program *program, int begin, int more, input *in, int count) {
    while (count > MAX_SOME) {
        int rest = count - MAX_SOME + 1 < MAX_SOME ? count - MAX_SOME + 1 : MAX_SOME;
        count -= rest - 1;
        in[count - 1] = at(add(program, SOME, begin, more, in + count - 1, rest), 0, 0);
    }
    return count;
}

/* ---- the opening */

/* Where its centre is does not matter to what it opens: the shape has its left and upper edge at 0. */
static shape shape_of(uint32_t mask) {
    shape s = {0, 0, {0}};
    while (!(mask & 31)) mask >>= 5;
    while (!(mask & 0x108421)) mask >>= 1;
    for (int y = 0; y < 5; y++) {
        s.rows[y] = mask >> 5 * y & 31;
        if (!s.rows[y]) continue;
        s.height = y + 1;
        int width = 32 - __builtin_clz(s.rows[y]);
        if (width > s.width) s.width = width;
    }
    return s;
}

/* Planes made so far: differences by rows, columns and place, and rows by their five bits. */
typedef struct { int differences[5][9][5], rows[32]; } known;

/* Where a pixel and the one `right` columns (perhaps less than 0) and `down` rows on differ, `column` columns to the right. */
static int difference(plane_program *program, known *made, int right, int down, int column) {
    int *plane = &made->differences[down][right + 4][column];
    input here = at(IMAGE, right < 0 ? down : 0, 0), there = at(IMAGE, right < 0 ? 0 : down, right < 0 ? -right : right);
    input moved = at(0, 0, column), ends[2] = {here, there};
    if (*plane) return *plane;
    if (column) moved.plane = difference(program, made, right, down, 0);
    return *plane = column ? add(program, RIGHT, 0, 12, &moved, 1) : add(program, DIFFER, 0, 12, ends, 2);
}

/* Where two neighbours in a row of a shape differ; 0 if it has only one pixel. */
static int row_links(plane_program *program, known *made, int row) {
    input links[4];
    int count = 0;
    if (made->rows[row]) return made->rows[row];
    for (int left = __builtin_ctz(row), right; row >> left > 1; left = right) {
        for (right = left + 1; !(row >> right & 1);) right++;
        links[count++] = at(difference(program, made, right - left, 0, 0), 0, left);
    }
    if (count == 1 && !links[0].column) return links[0].plane;
    return count ? made->rows[row] = add(program, RIGHT, 0, 12, links, count) : 0;
}

/* Where two linked pixels of consecutive rows of a shape differ: in one column if they have one in common. */
static int column_link(plane_program *program, known *made, int upper, int lower, int down) {
    int common = upper & lower, from = __builtin_ctz(common ? common : upper), to = __builtin_ctz(common ? common : lower);
    return difference(program, made, to - from, down, from < to ? from : to);
}

/* The translates of a shape that are of one colour, at the left upper corner. */
static int translates(plane_program *program, known *made, const shape *s, int rank) {
    input links[9];
    int count = 0;
    for (int y = 0, above = 0; y < s->height; y++) {
        if (!s->rows[y]) continue;
        int in_row = row_links(program, made, s->rows[y]);
        if (in_row) links[count++] = at(in_row, y, 0);
        if (y > 0) links[count++] = at(column_link(program, made, s->rows[above], s->rows[y], y - above), above, 0);
        above = y;
    }
    count = collect(program, 0, 8, links, count);
    int plane = add(program, ALIKE, 0, 8, links, count);
    program->steps[program->count - 1].rank = rank;
    return plane;
}

/* A row of a shape, spread from the translates. */
static int spread_row(plane_program *program, int from, known *made, int row) {
    input columns[5];
    int count = 0;
    for (int x = 0; x < 5; x++)
        if (row >> x & 1) columns[count++] = at(from, 0, x);
    if (row == 1) return from;
    if (!made->rows[row]) made->rows[row] = add(program, LEFT, 0, 8, columns, count);
    return made->rows[row];
}

static void compile_opening(limit_filter *filter) {
    plane_program *program = &filter->opening;
    known links = {0};
    input rows[5 * MASK_MAX_RANKS];
    int count = 0;
    start(program, filter);
    for (int r = 0; r < filter->ranks; r++) {
        const shape *s = &filter->persistents[r];
        int from = translates(program, &links, s, r);
        known spread = {0};
        for (int y = 0; y < s->height; y++)
            if (s->rows[y]) rows[count++] = at(spread_row(program, from, &spread, s->rows[y]), -y, 0);
    }
    count = collect(program, 4, 4, rows, count);
    add_to(program, OPENED, SOME, 4, 4, rows, count);
}

/* ---- the elements */

/* Image and opened moved to the side, by column + 2; `facing` by position. */
typedef struct { int image[5], opened[5], facing[25]; } moved;

static void move(plane_program *program, moved *planes, int column) {
    input from[2] = {at(IMAGE, 0, abs(column)), at(OPENED, 0, abs(column))};
    enum operation side = column < 0 ? LEFT : RIGHT;
    int *to = planes->image + column + 2, *opened = planes->opened + column + 2;
    if (*to >= 0) return;
    *to = add(program, side, 4, 4, &from[0], 1);
    *opened = add(program, side, 4, 4, &from[1], 1);
}

/* Where the pixel faces all of these positions (at most four), and `also` holds unless it is ALWAYS. */
static int facing(plane_program *program, moved *planes, const int *positions, int count, int also) {
    input in[MAX_INPUTS];
    for (int i = 0; i < count; i++) {
        int column = positions[i] % 5 - 2, row = positions[i] / 5 - 2;
        move(program, planes, column);
        in[2 * i] = at(planes->image[column + 2], row, 0);
        in[2 * i + 1] = at(planes->opened[column + 2], row, 0);
    }
    in[2 * count] = at(also, 0, 0);
    return add(program, FACING, MARGIN, 0, in, 2 * count + (also != ALWAYS));
}

static int facing_one(plane_program *program, moved *planes, int position) {
    int *plane = &planes->facing[position];
    if (!*plane) *plane = facing(program, planes, &position, 1, ALWAYS);
    return *plane;
}

/* One element: all of its positions, four at a time. */
static int compile_single(plane_program *program, moved *planes, uint32_t mask) {
    int all = ALWAYS;
    while (mask) {
        int positions[4], count = 0;
        for (; mask && count < 4; mask &= mask - 1) positions[count++] = __builtin_ctz(mask);
        all = facing(program, planes, positions, count, all);
    }
    return all;
}

static int compile_several(plane_program *program, moved *planes, const mask_table *table) {
    static element_program elements;
    int value[MAX_NODES], first;
    compile_elements(table, &elements);
    first = program->used, program->used += elements.slots;
    for (int n = 0; n < elements.count; n++) {
        const element_node *node = &elements.nodes[n];
        int here = facing_one(program, planes, node->position);
        int without = node->without < 0 ? node->without : value[node->without], with = node->with < 0 ? node->with : value[node->with];
        input choice[3] = {at(without, 0, 0), at(here, 0, 0), at(with, 0, 0)};
        value[n] = node->slot == NO_SLOT ? here : first + node->slot;
        if (node->slot != NO_SLOT) add_to(program, value[n], CHOOSE, MARGIN, 0, choice, 3);
    }
    return value[elements.count - 1];
}

static void compile_judging(limit_filter *filter, const mask_table *table) {
    moved planes = {{-1, -1, IMAGE, -1, -1}, {-1, -1, OPENED, -1, -1}, {0}};
    start(&filter->judging, filter);
    filter->changes = table->count == 1 ? compile_single(&filter->judging, &planes, table->elements[0])
                                        : compile_several(&filter->judging, &planes, table);
}

/* ---- running a program */

/* Rows `from` to `from` + `rows` of a strip. */
typedef struct { int strip, from, rows; } part;

/* A translate that begins above the image or ends below it does not count. */
static void drop_outside(const limit_filter *filter, const part *p, int rank, word *plane, int rows) {
    int first = MARGIN - p->from, end = first + filter->height - filter->persistents[rank].height + 1;
    for (int i = 0; i < first && i < rows; i++) plane[i] = 0;
    for (int i = end < 0 ? 0 : end; i < rows; i++) plane[i] = 0;
}

static void do_steps(const limit_filter *filter, const part *p, const plane_program *program) {
    for (const step *s = program->steps; s < program->steps + program->count; s++) {
        s->loop(s, p->rows + s->more, s->rank < 0 ? 0 : filter->fits[p->strip][s->rank]);
        if (s->rank >= 0) drop_outside(filter, p, s->rank, s->out, p->rows + s->more);
    }
}

/* ---- one pass */

/* The edge rule: columns outside the image repeat its first and last. */
INLINE word repeat_columns(const limit_filter *filter, int strip, word w) {
    int last = filter->last[strip];
    if (strip == 0) w = (w >> MARGIN << MARGIN) | (-(w >> MARGIN & 1) & ((1 << MARGIN) - 1));
    if (last < 63) w = (w & (((word)1 << last) - 1)) | -(w >> last & 1) << last;
    return w;
}

static void repeat_opened(limit_filter *filter, const part *p) {
    word *opened = filter->planes[OPENED] + MARGIN;
    int last = filter->height - 1 - p->from;
    if (p->strip == 0 || filter->last[p->strip] < 63)
        for (int i = -2; i < p->rows + 2; i++) opened[i] = repeat_columns(filter, p->strip, opened[i]);
    if (p->from == 0) opened[-1] = opened[-2] = opened[0];
    if (last < p->rows + 1) opened[last + 1] = opened[last + 2] = opened[last];
}

static int rows_inside(const limit_filter *filter, const part *p) {
    return filter->height - p->from < p->rows ? filter->height - p->from : p->rows;
}

static int all_opened(const limit_filter *filter, const part *p) {
    const word *opened = filter->planes[OPENED] + MARGIN;
    word all = ~(word)0;
    for (int i = 0, rows = rows_inside(filter, p); i < rows; i++) all &= opened[i];
    return !(~all & filter->own[p->strip]);
}

/* Puts into `flips` what changes; the groups of rows that have such a pixel. */
static uint32_t judge(limit_filter *filter, const part *p) {
    word *flips = filter->flips[p->strip] + p->from, own = filter->own[p->strip];
    uint32_t groups = 0;
    memcpy(filter->planes[IMAGE], filter->image[p->strip] + ABOVE + p->from - MARGIN, (p->rows + 2 * MARGIN) * sizeof(word));
    do_steps(filter, p, &filter->opening);
    if (all_opened(filter, p)) return 0;
    repeat_opened(filter, p);
    do_steps(filter, p, &filter->judging);
    const word *changes = filter->planes[filter->changes] + MARGIN;
    for (int i = 0; i < p->rows; i++) flips[i] = changes[i] & own;
    for (int i = rows_inside(filter, p); i < p->rows; i++) flips[i] = 0;
    for (int i = 0; i < p->rows; i += GROUP) {
        word any = 0;
        for (int k = 0; k < GROUP; k++) any |= flips[i + k];
        if (any) groups |= (uint32_t)1 << (p->from + i) / GROUP;
    }
    return groups;
}

/* Judges the groups of a strip that are awake, those side by side together. */
static uint32_t judge_strip(limit_filter *filter, int strip) {
    uint32_t changed = 0;
    for (uint64_t left = filter->awake[strip]; left;) {
        int first = __builtin_ctzll(left), count = __builtin_ctzll(~(left >> first));
        if (count > TALL / GROUP) count = TALL / GROUP;
        part p = {strip, first * GROUP, count * GROUP};
        changed |= judge(filter, &p);
        left &= ~((((uint64_t)1 << count) - 1) << first);
    }
    return changed;
}

/* Changes a group of rows of a strip by flips that were found `columns` to its left (or right, if less than 0). */
static void change(limit_filter *filter, int strip, int group, const word *flips, int columns) {
    word *rows = filter->image[strip] + ABOVE + group * GROUP;
    for (int i = 0; i < GROUP; i++) rows[i] ^= columns < 0 ? flips[i] << -columns : flips[i] >> columns;
    for (int i = 0; i < GROUP; i++) rows[i] = repeat_columns(filter, strip, rows[i]);
    word *top = filter->image[strip] + ABOVE, *bottom = top + filter->height - 1;
    if (group == 0) top[-1] = top[-2] = top[0];
    if (group == filter->groups - 1) bottom[1] = bottom[2] = bottom[0];
    filter->awake[strip] |= (uint32_t)1 << group;
}

/* Changes the groups of a strip, also where its neighbours repeat its columns. */
static void change_strip(limit_filter *filter, int strip, uint32_t groups) {
    for (; groups; groups &= groups - 1) {
        int group = __builtin_ctz(groups);
        const word *flips = filter->flips[strip] + group * GROUP;
        word any = 0;
        for (int i = 0; i < GROUP; i++) any |= flips[i];
        change(filter, strip, group, flips, 0);
        if (strip > 0 && any << OWN) change(filter, strip - 1, group, flips, -OWN);
        if (strip + 1 < filter->strips && any >> OWN) change(filter, strip + 1, group, flips, OWN);
    }
}

static uint32_t all_groups(const limit_filter *filter) { return UINT32_MAX >> (32 - filter->groups); }

int limit_pass(limit_filter *filter) {
    uint32_t changed[STRIPS], some = 0;
    for (int s = 0; s < filter->strips; s++) some |= changed[s] = judge_strip(filter, s);
    memset(filter->awake, 0, sizeof filter->awake);
    for (int s = 0; s < filter->strips; s++) change_strip(filter, s, changed[s]);
    for (int s = 0; s < filter->strips; s++) {
        uint32_t here = filter->awake[s];
        filter->awake[s] = (here | here << 1 | here >> 1) & all_groups(filter);
    }
    return some != 0;
}

size_t limit_run(limit_filter *filter) {
    size_t passes = 0;
    while (limit_pass(filter)) passes++;
    return passes;
}

/* ---- making, loading, storing */

static int cut(int value, int limit) { return value < 0 ? 0 : value >= limit ? limit - 1 : value; }

/* A strip's columns: which are its own, where the image ends, and where translates fit. */
static void lay_out(limit_filter *filter, int strip) {
    filter->last[strip] = filter->width - 1 - OWN * strip + MARGIN;
    for (int bit = 0; bit < 64; bit++) {
        int column = OWN * strip - MARGIN + bit;
        word here = (word)1 << bit;
        if (bit >= MARGIN && bit < MARGIN + OWN && column < filter->width) filter->own[strip] |= here;
        for (int r = 0; r < filter->ranks; r++)
            if (column >= 0 && column + filter->persistents[r].width <= filter->width) filter->fits[strip][r] |= here;
    }
}

limit_filter *limit_make(const mask_table *table, size_t width, size_t height) {
    limit_filter *filter = calloc(1, sizeof *filter);
    if (!filter) return NULL;
    filter->width = width, filter->height = height, filter->ranks = table->ranks;
    filter->strips = (width + OWN - 1) / OWN, filter->groups = (height + GROUP - 1) / GROUP;
    for (int r = 0; r < filter->ranks; r++) filter->persistents[r] = shape_of(table->persistents[r]);
    for (int s = 0; s < filter->strips; s++) lay_out(filter, s);
    compile_opening(filter);
    compile_judging(filter, table);
    return filter;
}

void limit_free(limit_filter *filter) { free(filter); }

void limit_load(limit_filter *filter, const uint8_t *image) {
    for (int s = 0; s < filter->strips; s++) {
        for (int y = -2; y < filter->height + 2; y++) {
            const uint8_t *row = image + cut(y, filter->height) * filter->width;
            word w = 0;
            for (int bit = 0; bit < 64; bit++) w |= (word)row[cut(OWN * s - MARGIN + bit, filter->width)] << bit;
            filter->image[s][ABOVE + y] = w;
        }
        filter->awake[s] = all_groups(filter);
    }
}

void limit_store(const limit_filter *filter, uint8_t *image) {
    for (int y = 0; y < filter->height; y++)
        for (int x = 0; x < filter->width; x++)
            image[y * filter->width + x] = filter->image[x / OWN][ABOVE + y] >> (MARGIN + x % OWN) & 1;
}
