/* An answer as it goes out, to standard output or to a file: whole, or not at all. */
#ifndef OUTPUT_H
#define OUTPUT_H

#include "bytes.h"
#include "status.h"

/* Writes an answer to a file, or with NULL to standard output; once in a run, since standard output is closed after it. A file is made
 * beside the one that is there and takes its name, its permissions and, where that is allowed, its owner; a link stays, and what it
 * points to is replaced. STATUS_ACCEPTED, or STATUS_FILES after saying what is wrong: then a file of that name is as it was, and none
 * is left beside it. */
enum status output_write(const char *file, struct bytes *answer);

/* Writes an answer with a line feed after it, and frees its bytes. */
enum status output_write_line(const char *file, struct bytes *answer);

#endif
