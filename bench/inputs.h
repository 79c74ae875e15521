/* What the benchmarks work on: the inputs, and the pieces of work over them. */
#ifndef BENCH_INPUTS_H
#define BENCH_INPUTS_H

#include "calls.h"

#include <time.h>

enum { MOST_ITEMS = 1024, SLOT = 40, ROOM = 400000, TIME_LENGTH = 5, LONGEST_INDEX = 2 * 256 };

/* A conversion, or a number or a name that stands in the text; `wanted` is the number that the name's look-up answers with. */
struct item {
    union {
        uint32_t call, wanted;
    };
    uint32_t value;
    size_t start, length;
};

/* Times that the text, which is a format then, is used for, one string for each. */
struct dates {
    uint8_t times[MOST_ITEMS][TIME_LENGTH];
    struct tm ready[MOST_ITEMS]; /* the same, as gmtime_r gives them */
    char like[65536];            /* the same format, as strftime takes it */
    size_t like_length, room;    /* the room of each string */
    uint32_t wanted;             /* the number that each answer has */
};

/* The tables and the index are named as in struct nos_tables, so that NOS_TABLES and NOS_INDEXED take an input too. */
struct input {
    uint8_t text[65536], house[65536], farm[65536], index[LONGEST_INDEX], out[ROOM];
    size_t length, house_length, farm_length, index_length, count;
    uint32_t indexed; /* the work goes through an index, or builds one */
    struct item items[MOST_ITEMS];
    struct dates dates;
};

/* One piece of work. It is made at two scales, 1 and 2: `grown` tells what the second has twice of, or how many times. */
struct work {
    const char *name, *grown;
    void (*make)(struct input *in, unsigned scale);
    uint64_t (*run)(const struct calls *c, struct input *in);
    const char *rival; /* what a C programmer would call, or the library's other way to the same answers; or NULL */
    uint64_t (*run_rival)(struct input *in);
};

extern const struct work works[];
extern const size_t work_count;

/* The call that the inputs have for &28: that one, or &DC where a side is a library that still has a zero byte behind its digits. &DC
 * has the same digits and a zero byte on every side. */
extern uint32_t decimal_call;

/* The library of another commit, where that takes a number over 255 in a text for its remainder by 256; NULL otherwise. It is not held
 * to the others over a changed text that they refuse for such a number. No other input has one. */
extern const struct calls *takes_remainder;

/* The same numbers in every run. */
void restart(void);
uint32_t chance(uint32_t below);

/* The calls of the C library over the same inputs; the sums of their answers are the library's. */
uint64_t by_snprintf(struct input *in);
uint64_t by_strtoul(struct input *in);
uint64_t by_memcpy(struct input *in);
uint64_t by_hash(struct input *in);
uint64_t by_qsort(struct input *in);
uint64_t by_gmtime_and_strftime(struct input *in);
uint64_t by_strftime_alone(struct input *in);

/* Makes each time ready for strftime. */
void make_ready(struct input *in);

/* Every set answers changed inputs as the first does; ends the program otherwise. */
void check_changed(const struct work *w, struct input *in, const struct calls *const *sets, size_t count);

#endif
