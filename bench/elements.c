/* Elements to a shared program: they are split by their lowest position, and equal remainders are made once. The 280 positions
   of the median's 56 elements become 20 nodes in 5 slots. */
#include "elements.h"

#include <string.h>

/* What is left of some elements; it rises, since all of them lost the same positions. */
typedef struct { int count; uint32_t masks[MASK_MAX_ELEMENTS]; } remainder;

/* remainders[i] is what nodes[i] answers. */
static remainder remainders[MAX_NODES];

static int same(const remainder *a, const remainder *b) {
    return a->count == b->count && !memcmp(a->masks, b->masks, a->count * sizeof *a->masks);
}

static int value_of(const remainder *elements, element_program *program) {
    uint32_t used = 0;
    if (!elements->count) return NEVER;
    for (int i = 0; i < elements->count; i++) {
        if (!elements->masks[i]) return ALWAYS;
        used |= elements->masks[i];
    }
    for (int n = 0; n < program->count; n++)
        if (same(&remainders[n], elements)) return n;
    uint32_t lowest = used & -used;
    remainder with = {0}, without = {0};
    for (int i = 0; i < elements->count; i++) {
        uint32_t mask = elements->masks[i];
        if (mask & lowest) with.masks[with.count++] = mask - lowest;
        else without.masks[without.count++] = mask;
    }
    element_node node = {__builtin_ctz(lowest), value_of(&without, program), value_of(&with, program), NO_SLOT};
    remainders[program->count] = *elements;
    program->nodes[program->count] = node;
    return program->count++;
}

/* Slots that no later node needs, and how many later nodes need each node. */
typedef struct { int count, free[MAX_NODES], uses[MAX_NODES]; } slot_book;

static void release(slot_book *book, const element_program *program, int node) {
    if (node >= 0 && --book->uses[node] == 0 && program->nodes[node].slot != NO_SLOT) book->free[book->count++] = program->nodes[node].slot;
}

static void assign_slots(element_program *program) {
    static slot_book book;
    memset(&book, 0, sizeof book);
    for (element_node *n = program->nodes; n < program->nodes + program->count; n++) {
        if (n->without >= 0) book.uses[n->without]++;
        if (n->with >= 0) book.uses[n->with]++;
    }
    for (element_node *n = program->nodes; n < program->nodes + program->count; n++) {
        if (n->without == NEVER && n->with == ALWAYS) continue;
        n->slot = book.count ? book.free[--book.count] : program->slots++; /* before release: it is none of its inputs' */
        release(&book, program, n->without);
        release(&book, program, n->with);
    }
}

void compile_elements(const mask_table *table, element_program *program) {
    remainder all = {.count = (int)table->count};
    memcpy(all.masks, table->elements, table->count * sizeof *all.masks);
    program->count = program->slots = 0;
    value_of(&all, program);
    assign_slots(program);
}
