/* The elements of a table as one program of ands and ors, shared by the versions that work on whole planes of pixels. */
#ifndef ELEMENTS_H
#define ELEMENTS_H

#include "mask_cleaner.h"

#ifdef __cplusplus
extern "C" {
#endif

/* Some element holds: one of the others holds (`without`), or `position` holds and what is left of those with it (`with`).
   Both are numbers of earlier nodes, or one of the two below. Nodes share slots, so that few are in use at a time; a node
   that is just its position has none. */
enum { NEVER = -1, ALWAYS = -2, NO_SLOT = -1 };
typedef struct { int position, without, with, slot; } element_node;

/* In order of evaluation; the last node is the answer. There are at most as many nodes as positions in all elements. */
enum { MAX_NODES = 64 * 24 };
typedef struct { int count, slots; element_node nodes[MAX_NODES]; } element_program;

void compile_elements(const mask_table *table, element_program *program);

#ifdef __cplusplus
}
#endif

#endif
