/* A shared library that crashes, in its constructor where the environment says so. */
#include <stdlib.h>
static inline __attribute__((always_inline)) int inlined(volatile int *p) { return *p; }
int library_read(int *p);
int library_read(int *p)
{
    int value = inlined(p);
    return value + 7;
}
static int started;
__attribute__((constructor)) static void start(void)
{
    if (getenv("CRASH_EARLY")) started = library_read(NULL) + 1;
}
int library_started(void);
int library_started(void) { return started; }
