/* What the files of the handler's tests share: a small emulated machine, and a call of it with all registers, flags and bytes of memory
 * checked. handler_test.c has the calls that convert, handler_reading_test.c &23, handler_setting_test.c &24. */
#ifndef HANDLER_TEST_H
#define HANDLER_TEST_H

#include "handler.h"

#define X 0x20000u
#define BIT_29 (1u << 29)
#define BIT_30 (1u << 30)
#define BIT_31 (1u << 31)
#define FAR 0xFFFFFFFFu

/* The memory stands between margins that belong to the host: no call may touch them. */
enum { MARGIN = 16, SIZE = 0x20000, ERRORS = 0x40, TIME = 0x80, TEXT = 0x100, VALUE = 0x300, NAMES = 0x600, BUFFER = 0x800 };

extern uint8_t *const memory;

/* The machine's own table and the house's, as bytes; and too many bytes for a table. */
enum { OWN = 54, SHARED = 51 };
extern const uint8_t own_bytes[OWN], shared_bytes[SHARED];
extern uint8_t too_long[NOS_LONGEST + 1];

/* A machine with these tables. */
extern const struct machine usual;

/* A call, and what must come of it. */
struct test {
    const char *what;
    uint32_t swi;
    const char *text; /* goes to text_at, with no zero byte of its own; NULL: none */
    uint32_t text_at, r0, r1, r2;
    struct served served; /* the error's number is left out */
    uint32_t out0, out1, out2;
    bool carry;
    const char *written; /* stands at written_at afterwards, and no other byte changes but those of an error block, and of a name */
    uint32_t written_at, length;
};

/* R3 and R4 of a call, before it and afterwards, where it is served; and the name that then stands at name_at, or NULL. */
struct more {
    uint32_t r3, r4, out3, out4;
    const char *found;
};

/* Ends the test where a claim does not hold. */
void check(bool holds, const char *what, const char *claim);

/* Cleans the memory and lays a text out in it; then more bytes. */
void lay_out(const char *text, uint32_t at);
void add(uint32_t at, const void *bytes, size_t length);

/* Makes a call on the memory as it was laid out, with C set or clear and V the other way round. */
void run_with(const struct machine *machine, const struct test *test, const struct more *more, bool carry);

/* The tests of &23, and of &24. */
void reading(void);
void setting(void);

#define ENDED(ending) {ending, 0, 0, 0, {0, ""}}
#define DONE ENDED(SERVED)
#define LONG "Text or table over 65,535 bytes"
#define FAILED(swi, refusal, counted, need, message) {(swi) & X ? RETURNED : RAISED, refusal, counted, need, {0, message}}
#define FAILS(what, swi, text, text_at, r0, r1, r2, refusal, need, message) \
    {what, swi, text, text_at, r0, r1, r2, FAILED(swi, refusal, 0, need, message), 0, 0, 0, 0, NULL, 0, 0}

#endif
