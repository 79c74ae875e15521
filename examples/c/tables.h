/* Tables of variables for a C program: made, changed, walked through and printed, in a buffer of yours. Copy it with tables.c.
 *
 * A table is records as nos_check_table has them, and every verdict here is that function's or nos_look_up's: a table that was good
 * is good after every change. A refusal changes no byte of the buffer, those after the table with it, and says by the library's
 * numbers what is wrong; where room was all that lacked, it carries the need. Nothing is kept between calls; a call takes some 6,000
 * bytes of stack, and NOS_STACK on top of them.
 *
 *   uint8_t bytes[TABLE_ROOM];
 *   struct table farm = table_make(bytes, sizeof bytes);
 *   struct table_change change = table_set_string(&farm, "Farm$Name", "Lower Ash");
 *   if (change.number != NOS_ACCEPTED) { .. nos_words(change.number) .. }
 *   struct nos_tables tables = {farm.bytes, farm.length, NULL, 0, NULL, 0, 0};
 *
 * An index of the table does not follow its changes: nos_build_index builds it again. indexes.c does so.
 */
#ifndef TABLES_H
#define TABLES_H

#include <stdbool.h>

#include "nosgoludd.h"

#ifdef __cplusplus
extern "C" {
#endif

/* The most bytes that a good table has; a buffer of so many is always enough. */
#define TABLE_ROOM NOS_LONGEST

/* A table in a buffer: its bytes are the first `length` of the `room` that the buffer has. */
struct table {
    uint8_t *bytes;
    size_t length, room;
};

/* One variable. Name and value are anywhere in memory, in the table that is changed too: those that table_next gives lie in its table.
 * With a length of 0 the pointer is not used and may be NULL. */
struct table_variable {
    uint32_t kind; /* by enum nos_kind */
    const uint8_t *name;
    size_t name_length;
    const uint8_t *value; /* of an integer four bytes, the lowest first */
    size_t value_length;
    size_t place; /* of its record in the table; table_set does not read it */
};

/* What became of a change. */
struct table_change {
    uint32_t number; /* by enum nos_refusal; NOS_ACCEPTED: the change was made */
    size_t place;    /* accepted: of the record that was set, or taken out. Refused: that of nos_check_table or nos_look_up */
    size_t need;     /* accepted: the table's length now. NOS_NO_ROOM: the room that would have been enough. Otherwise 0 */
};

/* An empty table in a buffer; no byte of it is read or written. */
struct table table_make(uint8_t *bytes, size_t room);

/* Sets a variable: in place of the record that has an equal name, or else after the last one. The name is written as it is given.
 * Refused, in this order:
 *   18 NOS_OVER_LENGTH, 13 NOS_BAD_TABLE   the table as it is, as by nos_check_table
 *   13 NOS_BAD_TABLE                       the new record is none (its kind, its name, or a length that no record can have), or one
 *                                          too many: the 257th. The place is where the new record would have begun
 *   18 NOS_OVER_LENGTH                     the changed table would be longer than 65,535 bytes; place 0
 *    1 NOS_NO_ROOM                         it would be longer than the room; place 0 */
struct table_change table_set(struct table *table, const struct table_variable *variable);

/* The same of strings that end in a zero byte, and of an integer. */
struct table_change table_set_string(struct table *table, const char *name, const char *value);
struct table_change table_set_integer(struct table *table, const char *name, int32_t value);
struct table_change table_set_macro(struct table *table, const char *name, const char *value);

/* Takes a variable out: the records after it move up. Refused by 18 and 13 as the table is, then by 10 NOS_UNKNOWN_NAME. */
struct table_change table_unset(struct table *table, const uint8_t *name, size_t name_length);

/* Walks through a table: start with *at 0; each call gives the variable there and moves *at to the next. False where the table ends,
 * or what stands there is no whole record; then *at and *variable stay, and *at == length tells the two apart. Ask nos_check_table
 * first: this looks at the record's mark and lengths alone. */
bool table_next(const uint8_t *table, size_t length, size_t *at, struct table_variable *variable);

/* The value of an integer variable. */
int32_t table_integer(const struct table_variable *variable);

/* Writes a variable as a line of text, with a line feed and no zero byte, to the start of `out`: its name, its kind, its value, as
 * `nos table show` does (docs/NOS.md has the form; the letters of hex digits are capitals). The line's length; where that is more than
 * the room, nothing was written. 0: no good table has such a variable, and so it has no line. */
size_t table_print(const struct table_variable *variable, char *out, size_t room);

#ifdef __cplusplus
}
#endif

#endif
