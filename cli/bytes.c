/* Bytes in memory, which grow as they are added to: see bytes.h. */
#include <stdio.h>
#include <stdlib.h>
#include <string.h>

#include "bytes.h"
#include "status.h"

enum { LEAST_ROOM = 256 };

void *memory_for(void *old, size_t size)
{
    void *memory = realloc(old, size);
    if (memory != NULL) return memory;
    say("there is not enough memory");
    exit(STATUS_FILES);
}

void bytes_reserve(struct bytes *bytes, size_t more)
{
    if (bytes->at != NULL && more <= bytes->room - bytes->length) return;
    size_t room = more > SIZE_MAX - bytes->length ? SIZE_MAX : bytes->length + more; /* the most is more than there can be */
    if (room < 2 * bytes->room) room = 2 * bytes->room; /* so that many small additions cost as much as a large one */
    if (room < LEAST_ROOM) room = LEAST_ROOM;
    bytes->at = memory_for(bytes->at, room);
    bytes->room = room;
}

void bytes_append(struct bytes *bytes, const void *from, size_t length)
{
    bytes_reserve(bytes, length);
    if (length == 0) return;
    memcpy(bytes->at + bytes->length, from, length);
    bytes->length += length;
}

void bytes_print(struct bytes *bytes, const char *format, ...)
{
    va_list list;
    va_start(list, format);
    int length = vsnprintf(NULL, 0, format, list);
    va_end(list);
    if (length < 0) return;
    bytes_reserve(bytes, (size_t)length + 1); /* vsnprintf puts a zero byte after them, which is not counted */
    va_start(list, format);
    vsnprintf((char *)bytes->at + bytes->length, (size_t)length + 1, format, list);
    va_end(list);
    bytes->length += (size_t)length;
}

void bytes_free(struct bytes *bytes)
{
    free(bytes->at);
    bytes->at = NULL;
    bytes->length = bytes->room = 0;
}
