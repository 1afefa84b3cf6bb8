/* The heap of the library: it counts what is held, refuses one allocation, and sees what is written before or behind a
 * block. */
#include "search.h"

#include <stdlib.h>
#include <string.h>

struct block {
    struct block *next, **place;
    size_t size;
    uint64_t guard;
};

static const uint64_t GUARD = 0xa5c3f00d5eedbeef;

size_t heap_held, heap_peak, heap_asked, heap_refused_at;
int heap_refused;
static struct block *first;

void *heap_malloc(size_t size)
{
    struct block *block;

    if (++heap_asked == heap_refused_at) {
        heap_refused = 1;
        return NULL;
    }
    if (size >= (size_t)1 << 31 || !(block = malloc(sizeof *block + size + sizeof GUARD)))
        return NULL;
    *block = (struct block){first, &first, size, GUARD};
    if (first)
        first->place = &block->next;
    first = block;
    memcpy((char *)(block + 1) + size, &GUARD, sizeof GUARD);
    heap_held += size;
    if (heap_held > heap_peak)
        heap_peak = heap_held;
    return block + 1;
}

void heap_free(void *bytes)
{
    struct block *block = (struct block *)bytes - 1;

    if (!bytes)
        return;
    if (block->guard != GUARD || memcmp((char *)bytes + block->size, &GUARD, sizeof GUARD))
        found("written beside a block, or freed twice", block->size, 0);
    *block->place = block->next;
    if (block->next)
        block->next->place = block->place;
    heap_held -= block->size;
    block->guard = 0;
    free(block);
}

void *heap_realloc(void *old, size_t size)
{
    size_t before = old ? ((struct block *)old - 1)->size : 0;
    void *bytes = heap_malloc(size);

    if (!bytes)
        return NULL;
    if (old)
        memcpy(bytes, old, before < size ? before : size);
    heap_free(old);
    return bytes;
}

void heap_free_all(void)
{
    while (first)
        heap_free(first + 1);
}
