/* Is loaded first: where a program crashes, glibc's backtrace_symbols_fd writes the frames. */
#include <execinfo.h>
#include <signal.h>
#include <stdlib.h>
static void report(int number)
{
    void *frames[64];
    int count = backtrace(frames, 64);
    backtrace_symbols_fd(frames, count, 2);
    signal(number, SIG_DFL);
}
__attribute__((constructor(101))) static void install(void)
{
    void *frames[1];
    backtrace(frames, 1);
    signal(SIGSEGV, report);
}
