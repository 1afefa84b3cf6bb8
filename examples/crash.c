/* Prints the functions in which it crashes, by its own debug information.
 *
 * A signal handler may not call the library, since that takes memory. So a child is forked at the start, while there is
 * one thread; it waits for addresses. The handler writes the addresses of its backtrace into a pipe, which a handler may
 * do, and waits until the child has printed them. */
#define _GNU_SOURCE
#include <execinfo.h>
#include <link.h>
#include <signal.h>
#include <stdlib.h>
#include <sys/wait.h>
#include <ucontext.h>

#include "a2l.h"
#include "a2l_file.h"
#include "frames.h"

enum { MOST = 128 };

static int report_to = -1;
static pid_t reporter = -1;

/* Where the program was loaded, and up to where its code goes. */
struct loaded {
    uint64_t base, begin, end;
};

/* Takes the first object, which is the program. */
static int take_program(struct dl_phdr_info *info, size_t size, void *data)
{
    struct loaded *loaded = data;
    int i;

    (void)size;
    loaded->base = info->dlpi_addr;
    for (i = 0; i < info->dlpi_phnum; i++)
        if (info->dlpi_phdr[i].p_type == PT_LOAD && (info->dlpi_phdr[i].p_flags & PF_X) != 0) {
            loaded->begin = loaded->base + info->dlpi_phdr[i].p_vaddr;
            loaded->end = loaded->begin + info->dlpi_phdr[i].p_memsz;
        }
    return 1;
}

/* Makes addresses of the file of those of the process, and leaves out those of other objects. */
static size_t addresses_of(const struct loaded *loaded, void *const *backtrace, size_t count, uint64_t *addresses)
{
    size_t i, kept = 0;

    for (i = 0; i < count; i++) {
        /* The first is the instruction that crashed, each other one follows a call. */
        uint64_t at = (uint64_t)(uintptr_t)backtrace[i] - (i > 0);
        if (loaded->begin <= at && at < loaded->end)
            addresses[kept++] = at - loaded->base;
    }
    return kept;
}

/* Prints the frames of addresses of the program. */
static void print_frames(const uint64_t *addresses, size_t count)
{
    a2l handle = {0};
    a2l_refusal refusal = {0};
    a2l_file file;
    size_t i;

    if (!a2l_file_map("/proc/self/exe", &file)) {
        perror("/proc/self/exe");
        return;
    }
    switch (a2l_open(file.bytes, file.length, 1024, &handle, &refusal)) {
    case A2L_DONE:
        if (a2l_find_frames(&handle, addresses, count) == A2L_DONE)
            for (i = 0; i < count; i++)
                print_answer(&handle, i);
        break;
    case A2L_REFUSED:
        print_refusal(&refusal);
        break;
    default:
        fprintf(stderr, "out of memory\n");
    }
    a2l_close(&handle);
    a2l_file_unmap(&file);
}

/* Waits for a backtrace, and prints it. */
static void report(int from)
{
    void *backtrace[MOST];
    uint64_t addresses[MOST];
    struct loaded loaded = {0, 0, 0};
    size_t length = 0;
    ssize_t more;

    while (length < sizeof backtrace && (more = read(from, (char *)backtrace + length, sizeof backtrace - length)) > 0)
        length += (size_t)more;
    if (length == 0)
        return;
    dl_iterate_phdr(take_program, &loaded);
    print_frames(addresses, addresses_of(&loaded, backtrace, length / sizeof *backtrace, addresses));
}

/* Forks the child that reports. */
static bool start_reporter(void)
{
    int ends[2];

    if (pipe(ends) != 0)
        return false;
    reporter = fork();
    if (reporter == 0) {
        close(ends[1]);
        report(ends[0]);
        fflush(stdout);
        _exit(0);
    }
    close(ends[0]);
    report_to = ends[1];
    return reporter > 0;
}

/* Hands the backtrace on from the instruction that crashed, and lets the signal have its way. */
static void on_crash(int number, siginfo_t *info, void *context)
{
    void *at = (void *)(uintptr_t)((ucontext_t *)context)->uc_mcontext.gregs[REG_RIP];
    void *found[MOST];
    int count = backtrace(found, MOST), first = 0;

    (void)info;
    while (first < count && found[first] != at)
        first++;
    if (first == count)
        found[first = 0] = at;
    if (write(report_to, found + first, (size_t)(count - first) * sizeof *found) > 0) {
        close(report_to);
        waitpid(reporter, NULL, 0);
    }
    signal(number, SIG_DFL);
    raise(number);
}

static void handle_crashes(void)
{
    struct sigaction action = {0};
    void *first[1];

    /* The first call of backtrace loads a library, which a handler may not do. */
    backtrace(first, 1);
    action.sa_sigaction = on_crash;
    action.sa_flags = SA_SIGINFO;
    sigaction(SIGSEGV, &action, NULL);
}

static inline __attribute__((always_inline)) int store(volatile int *to)
{
    return *to = 1;
}

static __attribute__((noinline)) int crash(volatile int *to)
{
    return store(to) + 1;
}

int main(void)
{
    volatile int *nowhere = NULL;

    if (!start_reporter())
        return 2;
    handle_crashes();
    return crash(nowhere) + 1;
}
