/* Crashes where its argument says, of C and C++. */
#include <pthread.h>
#include <signal.h>
#include <stdlib.h>
#include <string.h>
#ifdef __cplusplus
extern "C"
#endif
int library_read(int *p);

static inline __attribute__((always_inline)) int innermost(volatile int *p) { return *p + 1; }

static inline __attribute__((always_inline)) int middle(volatile int *p)
{
    int sum = innermost(p);
    return sum * 2;
}

#ifdef __cplusplus
namespace shapes {
template <typename T> struct Box {
    T *inner;
    __attribute__((noinline)) T read(int times) { return middle(inner) * times; }
};
}
__attribute__((noinline)) int in_program(int *p) { return shapes::Box<int>{p}.read(3) + 1; }
#else
__attribute__((noinline)) int in_program(int *p) { return middle(p) + 3; }
#endif

__attribute__((noinline)) int in_library(int *p)
{
    int first = library_read(p);
    return first + 4;
}

static void on_signal(int number)
{
    (void)number;
    exit(in_program(NULL));
}

static void *in_thread(void *p)
{
    static int kept;
    kept = in_library((int *)p);
    return &kept;
}

__attribute__((noinline)) int run(const char *where)
{
    if (!strcmp(where, "inlined")) return in_program(NULL);
    if (!strcmp(where, "library")) return in_library(NULL);
    if (!strcmp(where, "handler")) {
        signal(SIGUSR1, on_signal);
        raise(SIGUSR1);
        return 5;
    }
    pthread_t thread;
    pthread_create(&thread, NULL, in_thread, NULL);
    pthread_join(thread, NULL);
    return 6;
}

int main(int argc, char **argv)
{
    int status = argc > 1 ? run(argv[1]) : 0;
    return status + 1;
}
