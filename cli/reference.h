/* A reference of a text, by the place of its "<": the number or the macro between "<" and ">". */
#ifndef REFERENCE_H
#define REFERENCE_H

#include "lookups.h"

enum referred {
    TO_NEITHER, /* also where no reference stands at the place */
    TO_A_NUMBER,
    TO_A_MACRO
};

struct reference {
    enum referred to;
    const uint8_t *content; /* what stands between "<" and ">" */
    size_t length;
    uint32_t value;            /* of a number */
    struct nos_variable macro; /* of a macro: its record */
};

/* Reads what stands between a "<" at the place and the next ">", for a text that the library refused there: so it is a reference, if
 * the library did not say that it is none. What is a number is no name, one over 4,294,967,295 too. */
struct reference reference_at(const struct lookups *lookups, const uint8_t *text, size_t length, size_t place);

#endif
