/* liba2l: all addresses in one question; with the word `each` one question for each, of one handle; with the word `anew`
 * of a handle for each, which keeps no unit. */
#include <string.h>

#include "a2l.h"
#include "a2l_file.h"
#include "asked.h"

static bool is_word(int count, char **words, const char *word)
{
    return count > 2 && strcmp(words[2], word) == 0;
}

static void tell(a2l *handle, size_t i)
{
    char path[4096];
    a2l_frame frame = {0};
    size_t j;

    for (j = 0; a2l_frame_at(handle, i, j, path, sizeof path, &frame) == A2L_DONE; j++)
        printf("%.*s %.*s:%" PRIu64 "\n", (int)frame.name_length, frame.name, (int)frame.location.path_length, path,
               frame.location.line);
}

/* Asks a handle about some addresses, from the first on. */
static void ask(a2l *handle, const uint64_t *addresses, size_t count)
{
    size_t i;

    if (a2l_find_frames(handle, addresses, count) != A2L_DONE)
        exit(3);
    for (i = 0; i < count; i++)
        tell(handle, i);
}

/* Asks another handle over the same file about an address. */
static void ask_anew(a2l *handle, const uint64_t *address)
{
    a2l other = {0};

    if (a2l_beside(handle, 1024, &other) != A2L_DONE)
        exit(3);
    ask(&other, address, 1);
    a2l_close(&other);
}

int main(int count, char **words)
{
    a2l handle = {0};
    a2l_refusal why = {0};
    a2l_file file;
    size_t n, i;
    uint64_t *addresses = asked(&n);

    if (count < 2 || addresses == NULL || !a2l_file_map(words[1], &file) ||
        a2l_open(file.bytes, file.length, 1024, &handle, &why) != A2L_DONE)
        return 2;
    if (is_word(count, words, "each"))
        for (i = 0; i < n; i++)
            ask(&handle, addresses + i, 1);
    else if (is_word(count, words, "anew"))
        for (i = 0; i < n; i++)
            ask_anew(&handle, addresses + i);
    else
        ask(&handle, addresses, n);
    a2l_close(&handle);
    a2l_file_unmap(&file);
    free(addresses);
    return 0;
}
