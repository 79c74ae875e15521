/* What the handler's tests of &23 and &24 share: before each call the machine's own table stands on a guarded paper, and afterwards every
 * byte of the paper is checked, beside what handler_test.h has. */
#ifndef HANDLER_VARIABLES_TEST_H
#define HANDLER_VARIABLES_TEST_H

#include "handler_test.h"

/* The machine's own table stands on a paper, between margins. */
enum { PAPER = 66000 };
extern struct table own;
extern struct machine machine;

/* A call, and what must come of it beside what a struct test has. */
struct variable_test {
    const char *before; /* stands at NAMES with a zero byte, and R3 points there; NULL: R3 is 0 */
    const char *value;  /* stands at VALUE */
    size_t value_length;
    uint32_t r4, out4;
    const char *found; /* the name that R3 points to afterwards; NULL: R3 and R4 stay */
    const char *own;   /* the machine's own table afterwards; NULL: as it was */
    size_t own_length;
    struct test test;
};

/* The usual machine, with its own table on a clean paper. */
void begin(void);

/* Lays out the memory for a call. */
void lay(const struct variable_test *variable);

/* Makes a call over the table and the memory as they are laid out, and checks every byte of the paper; the same with the memory laid out
 * and R3 as the test has them; and a list of calls, each with a machine of its own. */
void run_laid(const struct variable_test *variable, uint32_t r3, bool carry);
void lay_and_run(const struct variable_test *variable, bool carry);
void run_list(const struct variable_test *list, size_t count);

/* Makes a call over tables that are bad or too long, of the farm, of the house and of both: it is refused for these, whatever else it
 * says. */
void run_over_bad_tables(const struct variable_test *variable);

#define RUN_LIST(list) run_list(list, sizeof list / sizeof list[0])

/* &23: a variable is found with a value; it is asked for and is there, or is not; it cannot be read. */
#define FOUND(what, swi, name, before, r2, r4, found, kind, bytes) \
    {before, NULL, 0, r4, kind, found, NULL, 0, \
     {what, swi, name, TEXT, TEXT, BUFFER, r2, DONE, TEXT, BUFFER, sizeof bytes - 1, 0, bytes, BUFFER, sizeof bytes - 1}}
#define IS_THERE(what, swi, name, before, r2, r4, found, kind) \
    {before, NULL, 0, r4, kind, found, NULL, 0, {what, swi, name, TEXT, TEXT, FAR, r2, DONE, TEXT, FAR, r2, 0, NULL, 0, 0}}
#define IS_NOT(what, swi, name, before, r2, r4) \
    {before, NULL, 0, r4, 0, NULL, NULL, 0, \
     {what, swi, name, TEXT, TEXT, FAR, r2, {SERVED, NOS_UNKNOWN_NAME, 0, 0, {0, ""}}, TEXT, FAR, 0, 0, NULL, 0, 0}}
#define NOT_READ(what, swi, name, before, r2, r4, refusal, need, message) \
    {before, NULL, 0, r4, 0, NULL, NULL, 0, FAILS(what, swi, name, TEXT, TEXT, BUFFER, r2, refusal, need, message)}

/* &24: a variable is set, and the machine's own table is then `own`; it is deleted; it cannot be set. */
#define IS_SET(what, swi, name, before, value, r2, r4, found, out4, own) \
    {before, value, sizeof value - 1, r4, out4, found, own, sizeof own - 1, \
     {what, swi, name, TEXT, TEXT, VALUE, r2, DONE, TEXT, VALUE, r2, 0, NULL, 0, 0}}
#define IS_DELETED(what, swi, name, before, r2, r4, found, own) \
    {before, NULL, 0, r4, r4, found, own, sizeof own - 1, {what, swi, name, TEXT, TEXT, FAR, r2, DONE, TEXT, FAR, r2, 0, NULL, 0, 0}}
#define NOT_SET(what, swi, name, before, value, r2, r4, refusal, need, message) \
    {before, value, sizeof value - 1, r4, 0, NULL, NULL, 0, FAILS(what, swi, name, TEXT, TEXT, VALUE, r2, refusal, need, message)}

/* A call of either that fails for an address. */
#define NO_MEMORY(what, swi, text, text_at, r0, r1, r2, r4) \
    {NULL, NULL, 0, r4, 0, NULL, NULL, 0, FAILS(what, swi, text, text_at, r0, r1, r2, BAD_ADDRESS, 0, "Bad address")}

#define UNKNOWN "System variable not found"

/* The records of own_bytes. */
#define FARM "VR\x00\x04\x03" "FarmAsh"
#define SUM "VR\x01\x03\x04" "Sum\x1E\xFB\xFF\xFF"
#define PAGE "VR\x02\x04\x06" "Page<Year>"
#define LOOP "VR\x02\x04\x06" "Loop<Loop>"
#define ALL FARM SUM PAGE LOOP

#endif
