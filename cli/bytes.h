/* Bytes in memory, which grow as they are added to. */
#ifndef BYTES_H
#define BYTES_H

#include <stddef.h>
#include <stdint.h>

#include "say.h"

/* Memory as by realloc. Where there is none the program says so and ends: nothing has been written then, since an answer is whole in
 * memory before the first byte of it goes out. */
void *memory_for(void *old, size_t size);

/* Begins as {NULL, 0, 0}, and ends with bytes_free. */
struct bytes {
    uint8_t *at;
    size_t length, room;
};

/* Sees to it that `more` bytes can be added, and that `at` is not NULL. */
void bytes_reserve(struct bytes *bytes, size_t more);

void bytes_append(struct bytes *bytes, const void *from, size_t length);

/* Adds what printf would write. */
void bytes_print(struct bytes *bytes, const char *format, ...) LIKE_PRINTF(2, 3);

void bytes_free(struct bytes *bytes);

#endif
