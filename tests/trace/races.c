/* Two threads write one variable; ThreadSanitizer reports it. */
#include <pthread.h>
static int shared;
static inline __attribute__((always_inline)) void add(int *p) { *p += 1; }
static __attribute__((noinline)) void writes(int *p) { add(p); }
static void *thread(void *p)
{
    writes((int *)p);
    return p;
}
int main(void)
{
    pthread_t other;
    pthread_create(&other, 0, thread, &shared);
    writes(&shared);
    pthread_join(other, 0);
    return 0;
}
