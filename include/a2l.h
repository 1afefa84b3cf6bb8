/* liba2l: which function, file and line of a program an address comes from, by its DWARF 5 debug information.
 *
 * A file is opened once, by its bytes. A question asks about one address or about many. What it reads of the units of
 * the file stays in the handle for the next questions, within bounds (a2l_open). Its answers stay in the handle until
 * the next question that succeeds.
 *
 * Errors     Each call returns an a2l_status. If that isn't A2L_DONE, it changes nothing but what it says it fills, and
 *            after A2L_MEMORY the same call may be made again. No call ends the process, prints, or keeps a variable of
 *            its own.
 * Threads    A handle is used by one call at a time. Handles over one file may be used at the same time.
 * Memory     From malloc, realloc and free, so no call may be made in a signal handler, nor in the child of a fork of a
 *            process with threads. A handle belongs to the caller, who sets it to zero before the first call and
 *            doesn't copy or change it while it is open.
 * Pointers   None may be NULL, also where a length is 0. Arrays and buffers are used during a call alone.
 * Numbers    Addresses are those of the file, without the load address of a process. Offsets count from the first byte
 *            of .debug_info. Texts have lengths and no zero byte at their end. */
#ifndef A2L_H
#define A2L_H

#include <stdbool.h>
#include <stddef.h>
#include <stdint.h>

#ifdef __cplusplus
extern "C" {
#endif

typedef uint32_t a2l_status;
enum {
    A2L_DONE = 0,     /* what was asked for is there */
    A2L_MEMORY = 1,   /* out of memory */
    A2L_REFUSED = 2,  /* the file can't be answered; a2l_refusal says why */
    A2L_CAPACITY = 3, /* the capacity is 0 */
    A2L_CLOSED = 4,   /* the handle isn't open */
    A2L_OPEN = 5,     /* the handle is open already */
    A2L_OUTSIDE = 6,  /* there is no such answer, frame or piece */
    A2L_SHORT = 7     /* the path doesn't fit into the buffer; the struct is filled, with its length */
};

/* An open file with the units that were asked for last and the answers of the last question. Its members are the
 * library's. */
typedef struct a2l {
    bool open;
    void *session;
} a2l;

/* Why a file is refused. */
typedef struct a2l_refusal {
    const char *name; /* the reason's name, as the program a2l has it; it stays */
    size_t name_length;
    const char *section; /* the section of which it speaks, of length 0 if none; it stays */
    size_t section_length;
    uint64_t offset; /* of the unit of which it speaks, or 0 */
    uint32_t number; /* 1 to 11 */
} a2l_refusal;

/* What an answer is. */
enum { A2L_NOT_COVERED = 0, A2L_FRAMES = 1, A2L_FAULT = 2, A2L_PIECES = 3 };
typedef struct a2l_answer {
    uint32_t kind;  /* of these four */
    uint32_t fault; /* why the unit can't be read: 1 an entry, 2 its depth, 3 ranges of a function, 4 its lines; or 0 */
    uint64_t unit;  /* the offset of the unit that has the frames or the fault, or 0 */
    size_t count;   /* how many frames or pieces there are */
} a2l_answer;

/* Where in the source an address comes from. What isn't known is 0. */
typedef struct a2l_location {
    size_t path_length; /* of the path, which stands in the caller's buffer */
    uint64_t line;      /* counted from 1 */
    uint64_t column;    /* 0 is the left edge of the line */
    bool path_known, line_known, column_known;
} a2l_location;

/* A function at an address. A name that isn't known has length 0. */
typedef struct a2l_frame {
    const char *name; /* points into the bytes of the file */
    size_t name_length;
    a2l_location location;
    bool name_known;
} a2l_frame;

/* Addresses from begin on and below end, which have one location. */
typedef struct a2l_piece {
    uint64_t begin, end;
    a2l_location location;
} a2l_piece;

/* Opens a file by its bytes. They stay where they are, unchanged, until the last handle over them is closed. The handle
 * keeps the functions of as many units as the capacity says, those that were asked for last, and line tables that are
 * together no longer than .debug_line, until it is closed; another unit is read again. 1 is enough where addresses are
 * asked for in their order, 1024 elsewhere. If it returns A2L_REFUSED, it fills *refusal. Else A2L_DONE, A2L_MEMORY,
 * A2L_CAPACITY or A2L_OPEN. */
a2l_status a2l_open(const uint8_t *bytes, size_t length, size_t capacity, a2l *handle, a2l_refusal *refusal);

/* Opens another handle over the same file, for another thread, which keeps units of its own. This reads nothing.
 * Neither handle is in another call meanwhile. A2L_DONE, A2L_MEMORY, A2L_CAPACITY, A2L_CLOSED, or A2L_OPEN if the other
 * one is open. */
a2l_status a2l_beside(a2l *handle, size_t capacity, a2l *other);

/* Asks for the functions at addresses, with where in the source each stands: answer i is that of addresses[i].
 * A2L_DONE, A2L_MEMORY or A2L_CLOSED. */
a2l_status a2l_find_frames(a2l *handle, const uint64_t *addresses, size_t count);

/* Asks where in the source addresses come from, by line tables alone, which is faster. An answer of frames has one,
 * without a name. Returns as a2l_find_frames. */
a2l_status a2l_find_locations(a2l *handle, const uint64_t *addresses, size_t count);

/* Asks for the locations of all addresses from low on and below high. The one answer, answer 0, is their pieces in
 * order of address, or the fault of the first address that has one. Returns as a2l_find_frames. */
a2l_status a2l_find_pieces(a2l *handle, uint64_t low, uint64_t high);

/* Fills *answer with what answer i of the last question is. A2L_DONE, A2L_OUTSIDE or A2L_CLOSED. */
a2l_status a2l_answer_at(a2l *handle, size_t i, a2l_answer *answer);

/* Fills *frame with frame j of answer i, of which 0 is the innermost: the function in which the instruction stands. The
 * path goes to the front of a buffer of this size, which stays as it is behind the path. If the path doesn't fit, it
 * returns A2L_SHORT: *frame is filled, and the buffer stays as it is. Else A2L_DONE, A2L_OUTSIDE or A2L_CLOSED. */
a2l_status a2l_frame_at(a2l *handle, size_t i, size_t j, char *path, size_t size, a2l_frame *frame);

/* Fills *piece with piece j of answer 0, and the buffer, as a2l_frame_at does with a frame. */
a2l_status a2l_piece_at(a2l *handle, size_t j, char *path, size_t size, a2l_piece *piece);

/* Closes a handle and frees what it has. A2L_DONE, or A2L_CLOSED if it isn't open. */
a2l_status a2l_close(a2l *handle);

/* The version of this interface: 65536 times its first number, 256 times its second, and its third. */
uint32_t a2l_version(void);
#define A2L_VERSION 0x000100u

#ifdef __cplusplus
}
#endif

#endif
