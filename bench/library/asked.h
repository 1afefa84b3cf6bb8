/* The addresses on standard input, one a line, for the programs that are compared. */
#ifndef ASKED_H
#define ASKED_H

#include <inttypes.h>
#include <stdio.h>
#include <stdlib.h>

/* Reads them all. The caller frees them. */
static inline uint64_t *asked(size_t *count)
{
    size_t room = 1024;
    uint64_t *items = malloc(room * sizeof *items);
    char line[64];

    for (*count = 0; items != NULL && fgets(line, sizeof line, stdin) != NULL; items[(*count)++] = strtoull(line, NULL, 16))
        if (*count == room)
            items = realloc(items, (room *= 2) * sizeof *items);
    return items;
}

#endif
