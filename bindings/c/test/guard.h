/* Memory to lend from. Nothing right before and right behind it can be touched: a stray read or write ends the run. */
#ifndef GUARD_H
#define GUARD_H

#include <stddef.h>
#include <stdint.h>

/* Where a slice stands in its memory: so that it ends, or so that it starts, where nothing can be touched. */
enum edge { AT_END, AT_START };
extern enum edge edge;

/* Whole pages between two that cannot be touched. */
struct pages {
    uint8_t *at;
    size_t len;
};

struct pages guarded(size_t least);
/* The place of so many bytes in them. */
uint8_t *place(struct pages p, size_t len);

/* A copy of so many bytes that can be read and not written; null for null. It stands until 16 more have been asked for: a
 * call takes at most 11. */
const void *input(const void *bytes, size_t len);

#endif
