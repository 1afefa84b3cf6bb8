/* addresses FILE ADDRESS..: prints the functions at addresses of a file, as `a2l -e FILE -f -i -a ADDRESS..` does. Where no
 * address is given they are read from standard input, one a line. */
#include <stdlib.h>
#include <string.h>

#include "a2l.h"
#include "a2l_file.h"
#include "frames.h"

/* Addresses that were read. */
struct list {
    uint64_t *items;
    size_t count;
};

static bool push(struct list *list, uint64_t address)
{
    uint64_t *items = realloc(list->items, (list->count + 1) * sizeof *items);

    if (items == NULL)
        return false;
    items[list->count++] = address;
    list->items = items;
    return true;
}

static bool read_addresses(int count, char **words, struct list *list)
{
    char line[64];
    int i;

    for (i = 0; i < count; i++)
        if (!push(list, strtoull(words[i], NULL, 16)))
            return false;
    while (count == 0 && fgets(line, sizeof line, stdin) != NULL)
        if (!push(list, strtoull(line, NULL, 16)))
            return false;
    return true;
}

static int answer(a2l *handle, const struct list *list)
{
    static const uint64_t none;
    size_t i;

    if (a2l_find_frames(handle, list->count > 0 ? list->items : &none, list->count) != A2L_DONE) {
        fprintf(stderr, "out of memory\n");
        return 3;
    }
    for (i = 0; i < list->count; i++) {
        printf("0x%016" PRIx64 "\n", list->items[i]);
        print_answer(handle, i);
    }
    return 0;
}

int main(int count, char **words)
{
    a2l handle = {0};
    a2l_refusal refusal = {0};
    a2l_file file;
    struct list list = {NULL, 0};
    int status = 3;

    if (count < 2 || !a2l_file_map(words[1], &file)) {
        perror(count < 2 ? "usage: addresses FILE ADDRESS.." : words[1]);
        return 2;
    }
    switch (a2l_open(file.bytes, file.length, 1024, &handle, &refusal)) {
    case A2L_DONE:
        if (read_addresses(count - 2, words + 2, &list))
            status = answer(&handle, &list);
        break;
    case A2L_REFUSED:
        print_refusal(&refusal);
        status = 2;
        break;
    default:
        fprintf(stderr, "out of memory\n");
    }
    free(list.items);
    a2l_close(&handle);
    a2l_file_unmap(&file);
    return status;
}
