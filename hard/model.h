/* Section 5's soundness and walks, section 4's renumbering and a cell's meaning, written anew in plain C from document 01. */
#ifndef HARD_MODEL_H
#define HARD_MODEL_H

#include "lent.h"

/* The little-endian number of so many bytes at an offset. */
uint64_t number_at(const uint8_t *section, size_t at, size_t width);
/* Over 65,536 nodes or 4,096 junctions: every call on such a struct is refused with 14, after 13. */
bool over_limit(const lent *m);
/* The links that a node holds, cut where its range leaves the links held. */
size_t links_held(const lent *m, size_t p);
/* The heightmap values that a junction holds, cut likewise. */
size_t values_held(const lent *m, size_t p);
bool model_sound(const lent *m);
/* The place that `node` finds for a number, or SIZE_MAX. */
size_t model_node(const lent *m, uint16_t number);
ynd_walk_end model_walk(const lent *m, size_t start, const uint8_t *choices, size_t n, uint32_t *visited, size_t *count);
/* Renumbers m, whose lists hold its counts. */
void model_renumber(lent *m, uint32_t *places);
/* Whether b is what a gives once it is written and read. */
bool same_written(const lent *a, const lent *b);

#endif
