/* What the commands of `nos table` share. */
#ifndef TABLE_H
#define TABLE_H

#include "refusal.h"

/* The most bytes of a record that the library takes: its head, a name and a value. */
enum { LONGEST_RECORD = 5 + 32 + 255 };

/* What to do where a new record is refused. */
#define RECORDS_IN_WORDS                                                                                          \
    "a name has 1 to 32 bytes, none of them a space, a quote, < or >, and stands once; a value has 255 at most; " \
    "there are 256 variables at most"

/* Refuses a table; the advice is NULL where what is said for every table will do. */
enum status refuse_table(const char *file, uint32_t number, size_t place, const char *advice);

#endif
