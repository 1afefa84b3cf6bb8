/* Prints the frames of addresses as `a2l -f -i -a` does. */
#ifndef FRAMES_H
#define FRAMES_H

#include <inttypes.h>
#include <stdio.h>

#include "a2l.h"

/* How long the longest path is that is told whole. */
enum { PATH_ROOM = 4096 };

/* Prints a line of a location. */
static inline void print_location(const a2l_location *location, const char *path)
{
    if (location->path_known)
        printf("%.*s:", (int)location->path_length, path);
    else
        printf("??:");
    if (location->line_known)
        printf("%" PRIu64 "\n", location->line);
    else
        printf("%s\n", location->path_known ? "?" : "0");
}

/* Prints frame j of answer i. */
static inline void print_frame(a2l *handle, size_t i, size_t j)
{
    char path[PATH_ROOM];
    a2l_frame frame = {0};
    a2l_status status = a2l_frame_at(handle, i, j, path, sizeof path, &frame);

    if (status != A2L_DONE && status != A2L_SHORT)
        return;
    if (status == A2L_SHORT)
        frame.location.path_known = false;
    if (frame.name_known)
        printf("%.*s\n", (int)frame.name_length, frame.name);
    else
        printf("??\n");
    print_location(&frame.location, path);
}

/* Prints answer i. */
static inline void print_answer(a2l *handle, size_t i)
{
    a2l_answer answer = {0};
    size_t j;

    if (a2l_answer_at(handle, i, &answer) != A2L_DONE)
        return;
    if (answer.kind == A2L_FAULT)
        printf("!unit 0x%" PRIx64 " fault %" PRIu32 "\n", answer.unit, answer.fault);
    if (answer.kind == A2L_NOT_COVERED)
        printf("??\n??:0\n");
    for (j = 0; j < answer.count; j++)
        print_frame(handle, i, j);
}

/* Prints why a file is refused. */
static inline void print_refusal(const a2l_refusal *refusal)
{
    fprintf(stderr, "file refused: %" PRIu32 " %.*s", refusal->number, (int)refusal->name_length, refusal->name);
    if (refusal->section_length > 0)
        fprintf(stderr, " %.*s", (int)refusal->section_length, refusal->section);
    if (refusal->number >= 7)
        fprintf(stderr, " 0x%" PRIx64, refusal->offset);
    fprintf(stderr, "\n");
}

#endif
