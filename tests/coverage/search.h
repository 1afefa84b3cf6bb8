/* What the parts of the search share: the heap of the library, and what is counted of a file. */
#ifndef SEARCH_H
#define SEARCH_H

#include <stddef.h>
#include <stdint.h>

/* ---- heap.c: the heap of the library, whose malloc, realloc and free are named so in the searched build */

/* How many bytes it holds, the most that it held since this was set, and how often it was asked for some. */
extern size_t heap_held, heap_peak, heap_asked;
/* The number of the allocation that is refused, or 0; and whether it was. */
extern size_t heap_refused_at;
extern int heap_refused;

void *heap_malloc(size_t size);
void *heap_realloc(void *old, size_t size);
void heap_free(void *bytes);

/* Frees all that is held, of a call that was given up. */
void heap_free_all(void);

/* ---- mutate.c */

/* How many units a file has, how many bytes of entries, and of what units and entries may have in common. */
struct counts {
    size_t units, info_bytes, abbrev_bytes, line_bytes, range_bytes;
};

struct counts counts_of(const uint8_t *file, size_t size);

/* ---- search.c */

/* Tells what is wrong with the file of this run, and ends. */
_Noreturn void found(const char *what, uint64_t a, uint64_t b);

#endif
