/* The lines of a file, one after the other, of a file of any length. */
#ifndef LINES_H
#define LINES_H

#include "input.h"

/* A line and the bytes that end it: 10, 13, or 13 and 10, or at the file's end none. */
struct line {
    size_t number; /* from 1 */
    const uint8_t *bytes;
    size_t length; /* of a line over `most` bytes so many, its first ones, are there */
    uint8_t end[2];
    size_t end_length;
};

struct lines {
    struct input input;
    struct bytes line;  /* the line that was given last */
    struct bytes chunk; /* what was read of the file last; from `at` on it was not given yet */
    size_t at, number, most;
    bool failed;
};

/* Of each line at most `most` bytes will be kept: MOST_TAKEN where a line goes to the library as a text, which refuses one so long, and
 * ALL_OF_IT where a part of a line would be taken for the whole. False where the file cannot be opened, which was said. What was opened
 * ends with lines_close. */
#define ALL_OF_IT SIZE_MAX
bool lines_open(struct lines *lines, const char *name, size_t most);

/* Gives the next line, whose bytes stay until the one after it is asked for. False at the file's end, and where reading failed: then
 * that was said, and `failed` is set. */
bool lines_next(struct lines *lines, struct line *line);

void lines_close(struct lines *lines);

#endif
