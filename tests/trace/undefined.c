/* Adds beyond the greatest number, in inlined code; UndefinedBehaviorSanitizer reports it. */
#include <limits.h>
static inline __attribute__((always_inline)) int add(int x) { return INT_MAX + x; }
__attribute__((noinline)) int outer(int x)
{
    int sum = add(x);
    return sum / 2;
}
int main(int argc, char **argv)
{
    (void)argv;
    return outer(argc) > 0;
}
