/* A table of variables as text, as it is read: a line for each variable, its name, its kind and its value. tables.h prints it. */
#ifndef TABLE_TEXT_H
#define TABLE_TEXT_H

#include "bytes.h"
#include "tables.h"

/* A variable that was read; ends with written_free. */
struct written {
    uint32_t kind; /* by enum nos_kind */
    struct bytes name, value;
};

/* Each of these reads a part, and gives NULL, or what is wrong with it in words. A name, and the value of a string or a macro, may have
 * \\ and \x07; an integer's value becomes its four bytes. */
const char *written_name_read(struct written *written, const uint8_t *text, size_t length);
const char *written_kind_read(struct written *written, const uint8_t *text, size_t length);
const char *written_value_read(struct written *written, const uint8_t *text, size_t length); /* by the kind that was read */

/* Reads a line without its end, into a variable that may have been used for another. */
const char *written_line_read(struct written *written, const uint8_t *line, size_t length);

/* The variable for table_set; its name and value stay those of `written`. */
struct table_variable written_variable(const struct written *written);

void written_free(struct written *written);

#endif
