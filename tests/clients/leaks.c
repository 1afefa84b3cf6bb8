/* Loses memory, which mtrace reports with addr2line. */
#include <mcheck.h>
#include <stdlib.h>
static char *volatile kept;
static __attribute__((noinline)) void lose(int size) {
    kept = malloc(size);
}
int main(void) {
    mtrace();
    lose(40);
    lose(400);
    muntrace();
    return 0;
}
