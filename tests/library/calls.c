/* calls FILE ADDRESS: what no example shows of the library's calls. Each number that a call returns, a buffer that is too
 * short, each allocation refused in turn, four threads with a handle each, and handles that are closed in any order. The
 * linker puts `__wrap_malloc` and `__wrap_realloc` in place of the two functions of the C library. */
#include <inttypes.h>
#include <pthread.h>
#include <stdio.h>
#include <stdlib.h>
#include <string.h>

#include "a2l.h"
#include "a2l_file.h"

enum { THREADS = 4, ROUNDS = 50, ROOM = 4096, TEXT = 65536 };

void *__real_malloc(size_t size);
void *__real_realloc(void *block, size_t size);

/* Which allocation is refused, counted down; 0 refuses none. */
static unsigned long refused;

static bool is_refused(void)
{
    return refused > 0 && --refused == 0;
}

void *__wrap_malloc(size_t size)
{
    return is_refused() ? NULL : __real_malloc(size);
}

void *__wrap_realloc(void *block, size_t size)
{
    return is_refused() ? NULL : __real_realloc(block, size);
}

#define WANT(condition) want(condition, #condition, __LINE__)

static void want(bool holds, const char *what, int line)
{
    if (holds)
        return;
    fprintf(stderr, "calls.c:%d: not so: %s\n", line, what);
    exit(1);
}

static const uint8_t *bytes;
static size_t length;
static uint64_t address;

static a2l opened(void)
{
    a2l handle = {0};
    a2l_refusal why = {0};

    WANT(a2l_open(bytes, length, 8, &handle, &why) == A2L_DONE);
    return handle;
}

/* The frames of an answer as text. */
static void tell(a2l *handle, size_t i, char *text)
{
    a2l_answer answer = {0};
    a2l_frame frame = {0};
    char path[ROOM];
    size_t j, used = 0;

    WANT(a2l_answer_at(handle, i, &answer) == A2L_DONE);
    text[0] = '\0';
    for (j = 0; j < answer.count; j++) {
        WANT(a2l_frame_at(handle, i, j, path, sizeof path, &frame) == A2L_DONE);
        used += (size_t)snprintf(text + used, TEXT - used, "%.*s %.*s %" PRIu64 "\n", (int)frame.name_length, frame.name,
                                 (int)frame.location.path_length, path, frame.location.line);
    }
}

static void ask(a2l *handle, char *text)
{
    const uint64_t both[] = {address, 0};

    WANT(a2l_find_frames(handle, both, 2) == A2L_DONE);
    tell(handle, 0, text);
}

static void test_numbers(void)
{
    a2l handle = {0}, other = {0};
    a2l_refusal why = {0};
    a2l_answer answer = {0};
    a2l_frame frame = {0};
    a2l_piece piece = {0};
    char path[ROOM];

    WANT(a2l_version() == A2L_VERSION);
    WANT(a2l_open(bytes, length, 0, &handle, &why) == A2L_CAPACITY);
    WANT(a2l_open(bytes, 20, 1, &handle, &why) == A2L_REFUSED);
    WANT(why.number == 1 && why.name_length == 6 && memcmp(why.name, "NotElf", 6) == 0 && why.section_length == 0);
    WANT(a2l_close(&handle) == A2L_CLOSED);
    WANT(a2l_find_frames(&handle, &address, 1) == A2L_CLOSED);
    WANT(a2l_find_locations(&handle, &address, 1) == A2L_CLOSED);
    WANT(a2l_find_pieces(&handle, 0, 1) == A2L_CLOSED);
    WANT(a2l_answer_at(&handle, 0, &answer) == A2L_CLOSED);
    WANT(a2l_frame_at(&handle, 0, 0, path, sizeof path, &frame) == A2L_CLOSED);
    WANT(a2l_piece_at(&handle, 0, path, sizeof path, &piece) == A2L_CLOSED);
    WANT(a2l_beside(&handle, 1, &other) == A2L_CLOSED);
    handle = opened();
    WANT(a2l_open(bytes, length, 1, &handle, &why) == A2L_OPEN);
    WANT(a2l_answer_at(&handle, 0, &answer) == A2L_OUTSIDE);
    WANT(a2l_beside(&handle, 0, &other) == A2L_CAPACITY);
    WANT(a2l_beside(&handle, 1, &other) == A2L_DONE);
    WANT(a2l_beside(&handle, 1, &other) == A2L_OPEN);
    WANT(a2l_close(&handle) == A2L_DONE);
    WANT(a2l_close(&handle) == A2L_CLOSED);
    WANT(a2l_find_frames(&other, &address, 1) == A2L_DONE);
    WANT(a2l_answer_at(&other, 0, &answer) == A2L_DONE && answer.kind == A2L_FRAMES && answer.count > 0);
    WANT(a2l_answer_at(&other, 1, &answer) == A2L_OUTSIDE);
    WANT(a2l_frame_at(&other, 1, 0, path, sizeof path, &frame) == A2L_OUTSIDE);
    WANT(a2l_frame_at(&other, 0, answer.count, path, sizeof path, &frame) == A2L_OUTSIDE);
    WANT(a2l_piece_at(&other, 0, path, sizeof path, &piece) == A2L_OUTSIDE);
    WANT(a2l_close(&other) == A2L_DONE);
}

/* A buffer that is too short loses nothing. */
static void test_short(void)
{
    a2l handle = opened();
    a2l_frame whole = {0}, part = {0};
    char path[ROOM], again[ROOM];

    WANT(a2l_find_frames(&handle, &address, 1) == A2L_DONE);
    WANT(a2l_frame_at(&handle, 0, 0, path, sizeof path, &whole) == A2L_DONE);
    WANT(whole.location.path_known && whole.location.path_length > 0);
    WANT(a2l_frame_at(&handle, 0, 0, again, 0, &part) == A2L_SHORT);
    WANT(a2l_frame_at(&handle, 0, 0, again, whole.location.path_length - 1, &part) == A2L_SHORT);
    WANT(part.location.path_length == whole.location.path_length && part.location.line == whole.location.line);
    WANT(a2l_frame_at(&handle, 0, 0, again, part.location.path_length, &part) == A2L_DONE);
    WANT(memcmp(path, again, whole.location.path_length) == 0);
    WANT((const uint8_t *)part.name >= bytes && (const uint8_t *)part.name + part.name_length <= bytes + length);
    WANT(a2l_close(&handle) == A2L_DONE);
}

/* The pieces around an address have its location. */
static void test_pieces(void)
{
    a2l handle = opened();
    a2l_answer answer = {0};
    a2l_piece piece = {0};
    a2l_frame frame = {0};
    char path[ROOM], other[ROOM];

    WANT(a2l_find_pieces(&handle, address, address + 1) == A2L_DONE);
    WANT(a2l_answer_at(&handle, 0, &answer) == A2L_DONE && answer.kind == A2L_PIECES && answer.count == 1);
    WANT(a2l_piece_at(&handle, 0, path, sizeof path, &piece) == A2L_DONE);
    WANT(piece.begin == address && piece.end == address + 1);
    WANT(a2l_frame_at(&handle, 0, 0, path, sizeof path, &frame) == A2L_OUTSIDE);
    WANT(a2l_find_locations(&handle, &address, 1) == A2L_DONE);
    WANT(a2l_frame_at(&handle, 0, 0, other, sizeof other, &frame) == A2L_DONE && !frame.name_known);
    WANT(frame.location.line == piece.location.line && frame.location.path_length == piece.location.path_length);
    WANT(memcmp(path, other, frame.location.path_length) == 0);
    WANT(a2l_find_pieces(&handle, 1, 0) == A2L_DONE);
    WANT(a2l_answer_at(&handle, 0, &answer) == A2L_DONE && answer.kind == A2L_PIECES && answer.count == 0);
    WANT(a2l_close(&handle) == A2L_DONE);
}

/* Each allocation of a call is refused in turn; then the same call succeeds and tells the same. */
static unsigned long test_memory(void)
{
    static char wanted[TEXT], found[TEXT];
    a2l handle = opened(), other = {0};
    a2l_refusal why = {0};
    unsigned long n, count = 0;
    a2l_status status;

    ask(&handle, wanted);
    WANT(a2l_close(&handle) == A2L_DONE);
    for (n = 1, status = A2L_MEMORY; status != A2L_DONE; n++, count++) {
        refused = n;
        status = a2l_open(bytes, length, 8, &handle, &why);
        refused = 0;
        WANT(status == A2L_DONE || (status == A2L_MEMORY && !handle.open));
    }
    for (n = 1, status = A2L_MEMORY; status != A2L_DONE; n++, count++) {
        refused = n;
        status = a2l_beside(&handle, 8, &other);
        refused = 0;
        WANT(status == A2L_DONE || (status == A2L_MEMORY && !other.open));
    }
    for (n = 1, status = A2L_MEMORY; status != A2L_DONE; n++, count++) {
        refused = n;
        status = a2l_find_frames(&other, &address, 1);
        refused = 0;
        WANT(status == A2L_DONE || status == A2L_MEMORY);
        ask(&handle, found);
        WANT(strcmp(wanted, found) == 0);
    }
    tell(&other, 0, found);
    WANT(strcmp(wanted, found) == 0);
    WANT(a2l_close(&other) == A2L_DONE && a2l_close(&handle) == A2L_DONE);
    return count - 3;
}

static char expected[TEXT];

static void *work(void *handle)
{
    char *text = malloc(TEXT);
    int i;

    WANT(text != NULL);
    for (i = 0; i < ROUNDS; i++) {
        ask(handle, text);
        WANT(strcmp(text, expected) == 0);
    }
    free(text);
    WANT(a2l_close(handle) == A2L_DONE);
    return NULL;
}

static void test_threads(void)
{
    a2l handle = opened(), handles[THREADS] = {{0}};
    pthread_t threads[THREADS];
    int i;

    ask(&handle, expected);
    for (i = 0; i < THREADS; i++)
        WANT(a2l_beside(&handle, 8, &handles[i]) == A2L_DONE);
    WANT(a2l_close(&handle) == A2L_DONE);
    for (i = 0; i < THREADS; i++)
        WANT(pthread_create(&threads[i], NULL, work, &handles[i]) == 0);
    for (i = 0; i < THREADS; i++)
        WANT(pthread_join(threads[i], NULL) == 0);
}

int main(int count, char **words)
{
    a2l_file file;
    unsigned long refusals;

    WANT(count == 3 && a2l_file_map(words[1], &file));
    bytes = file.bytes;
    length = file.length;
    address = strtoull(words[2], NULL, 16);
    test_numbers();
    test_short();
    test_pieces();
    refusals = test_memory();
    test_threads();
    a2l_file_unmap(&file);
    printf("%lu allocations refused in turn, %d threads of %d questions each\n", refusals, THREADS, ROUNDS);
    return 0;
}
