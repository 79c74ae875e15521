/* Files and standard input, as they are read: to their end, whatever their size is said to be. */
#ifndef INPUT_H
#define INPUT_H

#include <stdbool.h>

#include "bytes.h"
#include "nosgoludd.h"

/* As many bytes as are taken of a text or a table: one more than the library reads, so that it sees that there are too many, and
 * refuses them. */
#define MOST_TAKEN (NOS_LONGEST + 1u)

/* Whether a FILE's name means standard input. */
bool is_standard_input(const char *name);

struct input {
    const char *name;
    int descriptor;
    bool ended; /* the end was seen once: a terminal is not asked again, so that one Ctrl-D is enough */
};

/* Opens a file; of a terminal it says that it is being read, and how to end that. Where a file cannot be opened or read, this one and
 * those below say why, and give false. */
bool input_open(struct input *input, const char *name);

/* Reads at most `room` bytes; `got` is 0 at the end alone. */
bool input_read(struct input *input, uint8_t *bytes, size_t room, size_t *got);

void input_close(struct input *input);

/* Adds at most `most` bytes of a file, from byte `start` on, to `bytes`. */
bool input_take(const char *name, size_t start, size_t most, struct bytes *bytes);

#endif
