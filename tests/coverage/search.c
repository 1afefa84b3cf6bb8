/* Searches for files that a2l answers wrongly, or that cost too much: what libFuzzer calls with each file that it has.
 *
 * The last 16 bytes of a file are two addresses too. Of each file are asked the pieces of all addresses and of those
 * between the two; then the frames of the two and of some addresses in and beside the pieces, one a question; then the
 * locations of the same. Wrong is, besides a crash:
 *   - a call that costs too much: more than its limit of edges (steps), which don't depend on the machine, or of bytes
 *     of heap beside what its answer takes (`known` names what is known to cost more);
 *   - heap that is held after a2l_close or a refusal, and bytes that are written beside a block;
 *   - a location that isn't the innermost frame's or its piece's, pieces that overlap, or touch and have one location;
 *   - another answer where the questions are asked the other way round of a handle of another capacity, or where an
 *     allocation is refused and the call made again. */
#include "search.h"

#include <inttypes.h>
#include <setjmp.h>
#include <stdbool.h>
#include <stdio.h>
#include <stdlib.h>
#include <string.h>

#include "a2l.h"

enum call { OPEN, PIECES, FRAMES, LOCATIONS, CALLS };
static const char *const call_names[CALLS] = {"a2l_open", "a2l_find_pieces", "a2l_find_frames", "a2l_find_locations"};

/* What a call may cost: so many steps, and so many more for each byte of the file; and of heap the same, where a block
 * that grows counts twice. */
enum { STEPS = 50000, STEPS_A_BYTE = 100, HEAP = 16384, HEAP_A_BYTE = 128 };

enum { MOST_QUESTIONS = 64, MOST_PIECES = 6, ROOM = 1 << 16 };

/* ---- findings */

static const uint8_t *file;
static size_t file_size;

void found(const char *what, uint64_t a, uint64_t b)
{
    fprintf(stderr, "FOUND: %s (%" PRIu64 ", %" PRIu64 ")\n", what, a, b);
    abort();
}

#define WANT(condition, a, b)                         \
    do {                                              \
        if (!(condition))                             \
            found("not so: " #condition, (a), (b));   \
    } while (0)

/* ---- costs */

static enum call calling;
static int64_t steps_left = INT64_MAX;
static bool limited;
static jmp_buf given_up;

/* Costs as features, so that files that cost more than others are kept and go on to be changed. */
__attribute__((section("__libfuzzer_extra_counters"))) static uint8_t costs[2][CALLS][65];

/* How much of a section the units, their entries, or the tables that they name, may have in common. */
static size_t values_of_units(const struct counts *has)
{
    return has->units * has->abbrev_bytes;
}

static size_t ranges_of_units(const struct counts *has)
{
    return has->units * has->range_bytes;
}

static size_t ranges_of_entries(const struct counts *has)
{
    return has->info_bytes * has->range_bytes;
}

static size_t lines_of_units(const struct counts *has)
{
    return has->units * has->line_bytes;
}

/* What is known to cost more: which calls, where a file has how much of what, and why. It is no finding, and the file
 * is given up. A line goes when its cause is mended. */
static const struct known {
    bool calls[CALLS];
    size_t (*much)(const struct counts *has);
    size_t above;
    const char *reason;
} known[] = {
    {{[OPEN] = true}, values_of_units, 10000,
     "declarations of first entries may begin in one another, and each is read whole"},
    {{[OPEN] = true}, ranges_of_units, 20000,
     "units may have the tails of one list, from bases of their own, and each tail is read whole"},
    {{[FRAMES] = true}, ranges_of_entries, 500000,
     "functions may have tails in turn, of several lists or in several functions, and each is read whole"},
    {{[PIECES] = true}, ranges_of_units, 300, "a span reads the lists of units again for each window of addresses"},
    {{[PIECES] = true, [FRAMES] = true, [LOCATIONS] = true}, lines_of_units, 10000,
     "line tables may lead to one list of files, which is read for each"},
    {{[PIECES] = true}, lines_of_units, 1500, "a program is run again for each table that runs it in another way"},
};
enum { KNOWN = sizeof known / sizeof *known };
static unsigned long known_seen[KNOWN];

static bool is_known(void)
{
    struct counts has = counts_of(file, file_size);
    size_t i;

    for (i = 0; i < KNOWN; i++)
        if (known[i].calls[calling] && known[i].much(&has) > known[i].above) {
            known_seen[i]++;
            return true;
        }
    return false;
}

static void costs_too_much(const char *what, uint64_t much)
{
    static char text[200];

    if (is_known()) {
        heap_free_all();
        longjmp(given_up, 1);
    }
    snprintf(text, sizeof text, "%s takes too many %s of a file of %zu bytes", call_names[calling], what, file_size);
    found(text, much, 0);
}

static uint64_t most_steps(void)
{
    return STEPS + STEPS_A_BYTE * file_size;
}

/* The library comes here at each edge. */
void passed_edge(uint32_t *edge);
void passed_edge(uint32_t *edge)
{
    (void)edge;
    if (--steps_left < 0 && limited)
        costs_too_much("steps", most_steps());
}

void begin_edges(uint32_t *first, uint32_t *last);
void begin_edges(uint32_t *first, uint32_t *last)
{
    (void)first;
    (void)last;
}

static void begin_call(enum call call)
{
    calling = call;
    heap_peak = heap_held;
    steps_left = (int64_t)most_steps();
    limited = true;
}

/* The most that a call took so far, in hundredths of its limits: of steps, and of heap. */
static uint64_t used[2][CALLS];

/* Notes how much of a limit a call took. */
static void note_cost(size_t which, uint64_t cost, uint64_t limit)
{
    uint64_t hundredths = 100 * cost / limit, a_byte = 4 * cost / (file_size + 1);

    costs[which][calling][a_byte ? 64 - __builtin_clzll(a_byte) : 0] = 1;
    if (hundredths > used[which][calling])
        used[which][calling] = hundredths;
}

static void end_call(void)
{
    limited = false;
    note_cost(0, most_steps() - (uint64_t)steps_left, most_steps());
}

/* Looks at the heap that a call took besides its answer, which takes so many bytes, and twice so many while it grows,
 * and besides the last one, which is held meanwhile. */
static void look_at_heap(size_t answer)
{
    static size_t last;
    size_t answers = 2 * answer + (calling == OPEN ? 0 : last), heap = heap_peak > answers ? heap_peak - answers : 0;

    last = answer;
    if (heap > HEAP + HEAP_A_BYTE * file_size)
        costs_too_much("bytes of heap", heap);
    note_cost(1, heap, HEAP + HEAP_A_BYTE * file_size);
}

/* ---- questions and answers */

struct question {
    enum call call;
    uint64_t low, high; /* of a span; an address is the first */
    uint32_t kind;
    uint64_t digest, innermost; /* of the answer, and of the location of its first frame */
};

struct piece {
    uint64_t begin, end, location;
};

static char path[ROOM];

static uint64_t mixed(uint64_t digest, uint64_t value)
{
    digest = (digest ^ value) * 0x9fb21c651e98df25;
    return digest ^ digest >> 32;
}

static uint64_t mixed_text(uint64_t digest, const char *text, size_t length)
{
    size_t i;

    digest = mixed(digest, length);
    for (i = 0; i < length; i++)
        digest = mixed(digest, (uint8_t)text[i]);
    return digest;
}

static uint64_t location_digest(const a2l_location *location, a2l_status status)
{
    uint64_t digest = mixed(1, location->path_known * 4u + location->line_known * 2u + location->column_known);

    WANT(status == A2L_DONE, status, location->path_length);
    if (location->path_known)
        digest = mixed_text(digest, path, location->path_length);
    if (location->line_known)
        digest = mixed(digest, location->line);
    return location->column_known ? mixed(digest, location->column) : digest;
}

/* Reads the frames of an answer, and returns how many bytes they take. */
static size_t read_frames(a2l *handle, struct question *asked, size_t count)
{
    a2l_frame frame = {0};
    size_t j, takes = 128 * count;
    uint64_t location;

    WANT(count > 0 && count <= 513, count, 0);
    for (j = 0; j < count; j++) {
        location = location_digest(&frame.location, a2l_frame_at(handle, 0, j, path, ROOM, &frame));
        if (j == 0)
            asked->innermost = location;
        if (frame.name_known) {
            WANT((const uint8_t *)frame.name >= file && frame.name_length <= file_size, j, frame.name_length);
            asked->digest = mixed_text(asked->digest, frame.name, frame.name_length);
        }
        asked->digest = mixed(asked->digest, location);
        takes += frame.location.path_length;
    }
    WANT(a2l_frame_at(handle, 0, count, path, ROOM, &frame) == A2L_OUTSIDE, count, 0);
    return takes;
}

/* Reads the pieces of an answer, of which some are kept, and returns how many bytes they take. */
static size_t read_pieces(a2l *handle, struct question *asked, size_t count, struct piece *kept)
{
    a2l_piece piece = {0};
    struct piece last = {0};
    size_t j, takes = 96 * count;

    for (j = 0; j < count; j++) {
        a2l_status status = a2l_piece_at(handle, j, path, ROOM, &piece);
        struct piece now = {piece.begin, piece.end, location_digest(&piece.location, status)};

        WANT(asked->low <= now.begin && now.begin < now.end && now.end <= asked->high, now.begin, now.end);
        WANT(j == 0 || last.end <= now.begin, last.end, now.begin);
        WANT(j == 0 || last.end < now.begin || last.location != now.location, now.begin, now.end);
        if (j < MOST_PIECES / 2 || count - j <= MOST_PIECES / 2)
            kept[j < MOST_PIECES / 2 ? j : MOST_PIECES - (count - j)] = now;
        asked->digest = mixed(mixed(mixed(asked->digest, now.begin), now.end), now.location);
        takes += piece.location.path_length;
        last = now;
    }
    return takes;
}

static a2l_status ask(a2l *handle, const struct question *asked)
{
    switch (asked->call) {
    case PIECES: return a2l_find_pieces(handle, asked->low, asked->high);
    case FRAMES: return a2l_find_frames(handle, &asked->low, 1);
    default: return a2l_find_locations(handle, &asked->low, 1);
    }
}

/* Whether a call is made again, since an allocation of it was refused. */
static bool again(a2l_status status)
{
    if (status != A2L_MEMORY)
        return false;
    WANT(heap_refused, 0, 0);
    heap_refused = 0;
    return true;
}

/* Asks a question and reads its answer. Of a span, the pieces that are kept. */
static void answer(a2l *handle, struct question *asked, struct piece *kept)
{
    a2l_answer told = {0};
    a2l_status status;
    size_t takes = 0;

    begin_call(asked->call);
    while (again(status = ask(handle, asked)))
        begin_call(asked->call);
    end_call();
    WANT(status == A2L_DONE, status, asked->low);
    WANT(a2l_answer_at(handle, 0, &told) == A2L_DONE && a2l_answer_at(handle, 1, &told) == A2L_OUTSIDE, 0, 0);
    asked->kind = told.kind;
    asked->digest = mixed(mixed(told.kind, told.fault), told.unit);
    asked->innermost = 0;
    if (told.kind == A2L_FRAMES)
        takes = read_frames(handle, asked, told.count);
    else if (told.kind == A2L_PIECES)
        takes = read_pieces(handle, asked, told.count, kept);
    WANT((told.kind == A2L_PIECES) == (asked->call == PIECES) || told.kind == A2L_FAULT, told.kind, asked->low);
    look_at_heap(takes);
}

/* ---- a file */

static struct question questions[MOST_QUESTIONS];
static size_t count;

static void add(enum call call, uint64_t low, uint64_t high)
{
    if (count < MOST_QUESTIONS)
        questions[count++] = (struct question){.call = call, .low = low, .high = high};
}

static bool opens(a2l *handle, size_t capacity)
{
    a2l_refusal why = {0};
    a2l_status status;

    begin_call(OPEN);
    while (again(status = a2l_open(file, file_size, capacity, handle, &why)))
        begin_call(OPEN);
    end_call();
    look_at_heap(0);
    WANT(status == A2L_DONE || status == A2L_REFUSED, status, 0);
    if (status == A2L_REFUSED) {
        WANT(why.number >= 1 && why.number <= 11 && why.name_length > 0, why.number, why.name_length);
        WANT(!handle->open && heap_held == 0, handle->open, heap_held);
    }
    return status == A2L_DONE;
}

static void close_handle(a2l *handle)
{
    WANT(a2l_close(handle) == A2L_DONE && !handle->open, 0, 0);
    WANT(heap_held == 0, heap_held, 0);
}

/* A location is that of the innermost frame, and of the piece in which the address lies. */
static void compare_locations(size_t addresses, const struct piece *pieces)
{
    bool has_pieces = questions[0].kind == A2L_PIECES;
    size_t i, j;

    for (i = 2; i < 2 + addresses; i++) {
        const struct question *frames = &questions[i], *location = &questions[i + addresses];

        if (frames->kind == A2L_FAULT)
            WANT(location->kind != A2L_NOT_COVERED, frames->low, 0);
        else
            WANT(location->kind == frames->kind && location->innermost == frames->innermost, frames->low, frames->kind);
        WANT(!has_pieces || location->kind != A2L_FAULT || frames->low == UINT64_MAX, frames->low, 0);
        for (j = 0; has_pieces && j < MOST_PIECES; j++)
            if (pieces[j].begin <= frames->low && frames->low < pieces[j].end)
                WANT(location->innermost == pieces[j].location, frames->low, j);
    }
}

/* Asks all that is asked of a file that is accepted. */
static void ask_first(a2l *handle, uint64_t one, uint64_t other)
{
    struct piece pieces[MOST_PIECES] = {0}, ignored[MOST_PIECES];
    size_t i, addresses;

    add(PIECES, 0, UINT64_MAX);
    add(PIECES, one < other ? one : other, one < other ? other : one);
    answer(handle, &questions[0], pieces);
    answer(handle, &questions[1], ignored);
    add(FRAMES, one, 0);
    add(FRAMES, other, 0);
    for (i = 0; i < MOST_PIECES && pieces[i].end; i++) {
        add(FRAMES, pieces[i].begin, 0);
        add(FRAMES, pieces[i].end - 1, 0);
        add(FRAMES, pieces[i].end, 0);
        add(FRAMES, pieces[i].begin - 1, 0);
    }
    addresses = count - 2;
    for (i = 0; i < addresses; i++)
        add(LOCATIONS, questions[2 + i].low, 0);
    for (i = 2; i < count; i++)
        answer(handle, &questions[i], NULL);
    compare_locations(addresses, pieces);
}

/* Asks the same of a new handle, and wants the same answers. */
static void ask_again(size_t capacity, bool backwards, size_t refused_at)
{
    struct piece ignored[MOST_PIECES];
    a2l handle = {0};
    size_t i;

    heap_asked = 0;
    heap_refused_at = refused_at;
    WANT(opens(&handle, capacity), 0, 0);
    for (i = 0; i < count; i++) {
        const struct question *before = &questions[backwards ? count - 1 - i : i];
        struct question now = *before;

        answer(&handle, &now, ignored);
        WANT(now.digest == before->digest && now.innermost == before->innermost, now.low, i);
    }
    heap_refused_at = 0;
    close_handle(&handle);
}

static void tell_costs(void)
{
    size_t i;

    for (i = 0; i < CALLS; i++)
        fprintf(stderr, "used: %s %" PRIu64 " hundredths of its steps and %" PRIu64 " of its heap at most\n",
                call_names[i], used[0][i], used[1][i]);
    for (i = 0; i < KNOWN; i++)
        if (known_seen[i])
            fprintf(stderr, "known: %lu files: %s\n", known_seen[i], known[i].reason);
}

int LLVMFuzzerInitialize(int *argc, char ***argv);
int LLVMFuzzerInitialize(int *argc, char ***argv)
{
    (void)argc;
    (void)argv;
    return atexit(tell_costs);
}

int LLVMFuzzerTestOneInput(const uint8_t *data, size_t size);
int LLVMFuzzerTestOneInput(const uint8_t *data, size_t size)
{
    static const size_t capacities[] = {1024, 1, 2, 16};
    uint64_t ends[2] = {0x401004, 0}, drawn;
    a2l handle = {0};
    size_t asked;

    file = data;
    file_size = size;
    count = 0;
    heap_asked = heap_refused_at = 0;
    heap_refused = 0;
    if (size >= sizeof ends)
        memcpy(ends, data + size - sizeof ends, sizeof ends);
    drawn = mixed(mixed(ends[0], ends[1]), size);
    if (setjmp(given_up))
        return -1;
    if (!opens(&handle, capacities[drawn % 4]))
        return 0;
    ask_first(&handle, ends[0], ends[1]);
    asked = heap_asked;
    close_handle(&handle);
    if ((drawn >> 8) % 8 == 0)
        ask_again(capacities[(drawn + 1) % 4], true, 0);
    else if ((drawn >> 8) % 8 == 1)
        ask_again(capacities[drawn % 4], false, 1 + (drawn >> 16) % asked);
    return 0;
}
