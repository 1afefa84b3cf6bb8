/* libbacktrace, as gcc has it. Built without PIE, so that its addresses are those of the file. */
#include <backtrace.h>

#include "asked.h"

static void fail(void *data, const char *what, int number)
{
    (void)data;
    fprintf(stderr, "libbacktrace: %s %d\n", what, number);
}

static int tell(void *data, uintptr_t pc, const char *path, int line, const char *name)
{
    (void)data;
    (void)pc;
    printf("%s %s:%d\n", name ? name : "", path ? path : "", line);
    return 0;
}

int main(int count, char **words)
{
    size_t n, i;
    uint64_t *addresses = asked(&n);
    struct backtrace_state *state = count > 1 ? backtrace_create_state(words[1], 0, fail, NULL) : NULL;

    if (state == NULL || addresses == NULL)
        return 2;
    for (i = 0; i < n; i++)
        backtrace_pcinfo(state, addresses[i], tell, fail, NULL);
    free(addresses);
    return 0;
}
