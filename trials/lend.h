/* Memory to lend to a call: a block of exactly so many bytes, whose content is not set.
 *
 * There are two ways to lend. lend_heap.c takes each block from malloc, so that memcheck sees every touch beyond its edges and every use of
 * what was not set. lend_guarded.c lays each block against a page that may not be touched, so that runs without memcheck, as the fuzzer's,
 * end at the first touch beyond that edge. */
#ifndef LEND_H
#define LEND_H

#include <stddef.h>

/* The edge of a block that lies against a forbidden page, where there are such pages. */
enum edge { EDGE_START, EDGE_END };

void *lend(size_t bytes, enum edge edge);
void give_back(void *block, size_t bytes);

#endif
