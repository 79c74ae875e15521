/* A refusal in words: the number, the place, the text with a caret below the place, and what to do. */
#ifndef REFUSAL_H
#define REFUSAL_H

#include <stdbool.h>

#include "bytes.h"
#include "nosgoludd.h"
#include "status.h"

/* What a place is counted in. */
enum counted {
    OF_A_TEXT,
    OF_A_LINE, /* a text of its own, with --lines */
    OF_AN_EXPRESSION,
    OF_A_NUMBER, /* a text that a number is read from */
    OF_A_FORMAT,
    OF_A_TIME,
    OF_A_CALL, /* has no bytes, and so no place */
    OF_THE_HOUSE,
    OF_THE_FARM,
    OF_A_TABLE,
    OF_THE_INDEX
};

/* A text, an expression, a table, .. that the library judges. */
struct subject {
    enum counted counted;
    const uint8_t *bytes; /* shown with a caret; not used of a table, an index, a call or a time */
    size_t length;
    size_t line;      /* of a line alone: its number */
    const char *file; /* of a table or an index alone */
};

struct refusal {
    uint32_t number;
    size_t place;
    size_t need, room;  /* of No room alone */
    bool in_macro;      /* of a text: not the text itself is wrong there, but a macro that it names */
    const char *advice; /* NULL: what there is to say for this number */
};

/* Says a refusal, but not yet that nothing was written: with --lines there may be more of them. */
void say_refusal(const struct subject *subject, const struct refusal *refusal);

/* Says that nothing was written, the last line of every refusal. */
enum status nothing_written(void);

/* Both. */
enum status refuse(const struct subject *subject, const struct refusal *refusal);

/* A subject in words, as "line 3" or "the house table FILE", added to `words` with a zero byte after it. */
void subject_name(const struct subject *subject, struct bytes *words);

#endif
