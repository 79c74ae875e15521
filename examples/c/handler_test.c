/* Tests of the handler: a small emulated machine makes every call, and after each one all registers, flags and bytes of memory are
 * checked. The first thing that is off is named, and ends the test with status 1. Here are the calls that convert; &23
 * and &24 have files of their own. */
#include <inttypes.h>
#include <stdio.h>
#include <stdlib.h>
#include <string.h>

#include "handler_test.h"

static uint8_t host[MARGIN + SIZE + MARGIN], as_it_was[sizeof host];
uint8_t *const memory = host + MARGIN;
static size_t tests;

/* The machine's own: a string Farm, an integer Sum of -1250, a macro Page with a name of the house, a macro Loop in itself. */
const uint8_t own_bytes[OWN] = {
    86, 82, 0, 4, 3, 'F', 'a', 'r', 'm', 'A', 's', 'h',
    86, 82, 1, 3, 4, 'S', 'u', 'm', 0x1E, 0xFB, 0xFF, 0xFF,
    86, 82, 2, 4, 6, 'P', 'a', 'g', 'e', '<', 'Y', 'e', 'a', 'r', '>',
    86, 82, 2, 4, 6, 'L', 'o', 'o', 'p', '<', 'L', 'o', 'o', 'p', '>',
};

/* The house's: a macro Head with a name of both, strings Farm and Sum, which the machine's own hide, an integer Year of 1989. */
const uint8_t shared_bytes[SHARED] = {
    86, 82, 2, 4, 7, 'H', 'e', 'a', 'd', '<', 'F', 'a', 'r', 'm', '>', '!',
    86, 82, 0, 4, 1, 'F', 'a', 'r', 'm', '?',
    86, 82, 0, 3, 4, 'S', 'u', 'm', 'n', 'o', 'n', 'e',
    86, 82, 1, 4, 4, 'Y', 'e', 'a', 'r', 0xC5, 0x07, 0x00, 0x00,
};

uint8_t too_long[NOS_LONGEST + 1];

/* The calls of this file change no table. */
static uint8_t own[OWN];
static struct table own_table = {own, OWN, OWN};

const struct machine usual = {host + MARGIN, SIZE, &own_table, shared_bytes, SHARED, 1024, ERRORS, NAMES};

void check(bool holds, const char *what, const char *claim)
{
    if (holds) return;
    printf("OFF, %s: this does not hold: %s\n", what, claim);
    exit(1);
}

/* What the proof asks of a caller, and what no answer would show: that a buffer overlaps nothing that is read. run has the linker lead
 * the handler's calls of these two functions here (--wrap), and from here on to the library. */
static bool are_apart(const uint8_t *read, size_t length, const uint8_t *written, size_t room)
{
    uintptr_t one = (uintptr_t)read, other = (uintptr_t)written;
    return one + length <= other || other + room <= one;
}

#ifdef __cplusplus
extern "C" {
#endif

struct nos_answer __real_nos_convert_date(const uint8_t *time, size_t time_length, const uint8_t *format, size_t format_length,
                                          uint8_t *buf, size_t room);
struct nos_answer __wrap_nos_convert_date(const uint8_t *time, size_t time_length, const uint8_t *format, size_t format_length,
                                          uint8_t *buf, size_t room)
{
    check(are_apart(time, time_length, buf, room), "a date", "the buffer does not overlap the time");
    check(are_apart(format, format_length, buf, room), "a date", "the buffer does not overlap the format");
    return __real_nos_convert_date(time, time_length, format, format_length, buf, room);
}

struct nos_answer __real_nos_translate(const uint8_t *text, size_t length, const uint8_t *farm, size_t farm_length,
                                       const uint8_t *house, size_t house_length, const uint8_t *index, size_t index_length,
                                       uint32_t indexed, uint32_t flags, uint32_t allowance, uint8_t *out, size_t room);
struct nos_answer __wrap_nos_translate(const uint8_t *text, size_t length, const uint8_t *farm, size_t farm_length,
                                       const uint8_t *house, size_t house_length, const uint8_t *index, size_t index_length,
                                       uint32_t indexed, uint32_t flags, uint32_t allowance, uint8_t *out, size_t room)
{
    struct nos_tables tables = {farm, farm_length, house, house_length, index, index_length, indexed};
    check(are_apart(text, length, out, room), "a translation", "the buffer does not overlap the text");
    check(are_apart(farm, farm_length, out, room), "a translation", "the buffer does not overlap the farm's table");
    check(are_apart(house, house_length, out, room), "a translation", "the buffer does not overlap the house's");
    check(indexed == 0, "a translation", "the handler has no index");
    return __real_nos_translate(text, length, NOS_INDEXED(tables), flags, allowance, out, room);
}

#ifdef __cplusplus
}
#endif

void lay_out(const char *text, uint32_t at)
{
    for (size_t i = 0; i < sizeof host; i++) host[i] = (uint8_t)(0x80 + i % 113);
    memset(memory + SIZE, '\r', MARGIN); /* would end a string that memory does not */
    if (text != NULL) memcpy(memory + at, text, strlen(text));
    memcpy(as_it_was, host, sizeof host);
}

void add(uint32_t at, const void *bytes, size_t length)
{
    memcpy(memory + at, bytes, length);
    memcpy(as_it_was + MARGIN + at, bytes, length);
}

static const char *const endings[] = {"not mine", "served", "returned", "raised", "no error block"};

static void print(const struct test *test, const struct more *more, const struct served *served, const struct registers *registers)
{
    printf("&%02" PRIX32 " %s: %s", test->swi, test->what, endings[served->ending]);
    if (served->ending == SERVED)
        printf(", R0 &%" PRIX32 " R1 &%" PRIX32 " R2 &%" PRIX32 "%s", registers->r[0], registers->r[1], registers->r[2],
               (test->swi & ~X) != 0x27 ? "" : registers->carry ? ", C set" : ", C clear");
    if (served->ending == SERVED && more->found != NULL)
        printf(" R3 &%" PRIX32 " R4 %" PRIu32 ", %s", registers->r[3], registers->r[4], more->found);
    if (served->refusal != 0) printf(", refusal %" PRIu32, served->refusal);
    if (served->counted != NOS_IN_THE_TEXT) printf(" of the %s table", served->counted == NOS_IN_THE_FARM ? "farm's" : "house");
    if (served->need != 0) printf(", need %" PRIu32, served->need);
    if (served->error.number != 0) printf(", %s", served->error.message);
    putchar('\n');
}

/* The block stands in memory as it is in the answer; then it is taken back out of the comparison. */
static void check_block(const struct machine *machine, const struct test *test, const struct served *served)
{
    uint8_t *block = machine->memory + machine->error_at;
    uint32_t number = block[0] | (uint32_t)block[1] << 8 | (uint32_t)block[2] << 16 | (uint32_t)block[3] << 24;
    check(number == ERROR_BASE + served->refusal && number == served->error.number, test->what, "the error's number");
    check(memchr(block + 4, 0, MESSAGE_ROOM) != NULL, test->what, "the message ends in its room");
    check(strcmp((const char *)block + 4, test->served.error.message) == 0, test->what, "the message in memory");
    check(memcmp(block + 4, served->error.message, MESSAGE_ROOM) == 0, test->what, "the message in the answer");
    memcpy(block, as_it_was + (block - host), ERROR_ROOM);
}

/* Bytes that a call has written are compared, and taken back out of the comparison of all the others. */
static void check_written(const struct test *test, uint32_t at, const char *bytes, size_t length, const char *claim)
{
    check(memcmp(memory + at, bytes, length) == 0, test->what, claim);
    memcpy(memory + at, as_it_was + MARGIN + at, length);
}

static void check_the_rest(const struct machine *machine, const struct test *test, const char *found)
{
    if (test->written != NULL) check_written(test, test->written_at, test->written, test->length, "what was written");
    if (found != NULL) check_written(test, machine->name_at, found, strlen(found) + 1, "the name that was found");
    check(memcmp(host, as_it_was, sizeof host) == 0, test->what, "every other byte is as it was");
}

void run_with(const struct machine *machine, const struct test *test, const struct more *more, bool carry)
{
    struct registers registers = {{test->r0, test->r1, test->r2, more->r3, more->r4}, carry, !carry};
    for (size_t i = 5; i < 16; i++) registers.r[i] = 0xAB00 + (uint32_t)i;
    struct registers expected = registers;
    struct served served = handle_swi(machine, test->swi, &registers);
    bool failed = served.ending == RETURNED || served.ending == RAISED;
    if (served.ending == SERVED || failed) {
        expected.r[0] = failed ? machine->error_at : test->out0;
        expected.r[1] = failed ? test->r1 : test->out1;
        expected.r[2] = failed ? test->r2 : test->out2;
        expected.r[3] = failed ? more->r3 : more->out3;
        expected.r[4] = failed ? more->r4 : more->out4;
        expected.carry = (test->swi & ~X) == 0x27 && !failed ? test->carry : carry;
        expected.overflow = failed;
    }
    print(test, more, &served, &registers);
    check(served.ending == test->served.ending, test->what, "the ending");
    check(served.refusal == test->served.refusal, test->what, "the refusal");
    check(served.counted == test->served.counted, test->what, "the table that was refused");
    check(served.need == test->served.need, test->what, "the need");
    check(memcmp(registers.r, expected.r, sizeof expected.r) == 0, test->what, "the registers");
    check(registers.carry == expected.carry && registers.overflow == expected.overflow, test->what, "the flags");
    if (failed) check_block(machine, test, &served);
    check_the_rest(machine, test, failed ? NULL : more->found);
    tests++;
}

/* A call that knows nothing of R4, and at most reads R3. */
static void run_with_r3(const struct machine *machine, const struct test *test, uint32_t r3, bool carry)
{
    const struct more more = {r3, 0xAB04, r3, 0xAB04, NULL};
    run_with(machine, test, &more, carry);
}

static void run_on(const struct machine *machine, const struct test *test, bool carry)
{
    run_with_r3(machine, test, 0xAB03, carry);
}

/* Each test with C and V set in turn before it. */
static void run(const struct machine *machine, const struct test *list, size_t count)
{
    for (size_t i = 0; i < count; i++) {
        lay_out(list[i].text, list[i].text_at);
        run_on(machine, &list[i], i % 2 == 0);
    }
}

#define RUN(list) run(&usual, list, sizeof list / sizeof list[0])
#define SHORT(need) {SERVED, NOS_NO_ROOM, 0, need, {0, ""}}
#define BAD(what, swi, text, refusal, counted, message) \
    {what, swi, text, TEXT, TEXT, BUFFER, 64, FAILED(swi, refusal, counted, 0, message), 0, 0, 0, 0, NULL, 0, 0}

static void read_unsigned(void)
{
    static const struct test list[] = {
        {"a decimal number", 0x21, "1048576\r", TEXT, 10, TEXT, 0, DONE, 10, TEXT + 7, 1048576, 0, NULL, 0, 0},
        {"43AZ in base 10", X + 0x21, "43AZ", TEXT, 10, TEXT, 0, DONE, 10, TEXT + 2, 43, 0, NULL, 0, 0},
        {"&43AZ in base 10", 0x21, "&43AZ", TEXT, 10, TEXT, 0, DONE, 10, TEXT + 4, 0x43A, 0, NULL, 0, 0},
        {"  fFg in base 16", 0x21, "  fFg", TEXT, 16, TEXT, 0, DONE, 16, TEXT + 4, 255, 0, NULL, 0, 0},
        {"zZ in base 36", 0x21, "zZ ", TEXT, 36, TEXT, 0, DONE, 36, TEXT + 2, 1295, 0, NULL, 0, 0},
        {"2_1102 in base 16", 0x21, "2_1102", TEXT, 16, TEXT, 0, DONE, 16, TEXT + 5, 6, 0, NULL, 0, 0},
        {"&1F in base 2", 0x21, "&1F ", TEXT, 2, TEXT, 0, DONE, 2, TEXT + 3, 31, 0, NULL, 0, 0},
        {"12 in base 37, which is 10", 0x21, "12 ", TEXT, 37, TEXT, 0, DONE, 37, TEXT + 2, 12, 0, NULL, 0, 0},
        {"12 sacks, bit 31", 0x21, "12 sacks", TEXT, BIT_31, TEXT, 0, DONE, BIT_31, TEXT + 2, 12, 0, NULL, 0, 0},
        FAILS("12kg, bit 31", 0x21, "12kg", TEXT, BIT_31, TEXT, 0, 5, 0, "Bad number"),
        {"255, bit 30", 0x21, "255 ", TEXT, BIT_30, TEXT, 0, DONE, BIT_30, TEXT + 3, 255, 0, NULL, 0, 0},
        FAILS("256, bit 30", X + 0x21, "256 ", TEXT, BIT_30, TEXT, 0, 6, 0, "Bad number"),
        {"100, bit 29, R2 100", 0x21, "100 ", TEXT, BIT_29, TEXT, 100, DONE, BIT_29, TEXT + 3, 100, 0, NULL, 0, 0},
        FAILS("101, bit 29, R2 100", 0x21, "101 ", TEXT, BIT_29, TEXT, 100, 6, 0, "Number too big"),
        {"256, bit 29, R2 300", 0x21, "256 ", TEXT, BIT_29, TEXT, 300, DONE, BIT_29, TEXT + 3, 256, 0, NULL, 0, 0},
        {"255, bits 29 and 30, R2 300", 0x21, "255 ", TEXT, BIT_29 | BIT_30, TEXT, 300, DONE, BIT_29 | BIT_30, TEXT + 3, 255, 0,
         NULL, 0, 0},
        FAILS("256, bits 29 and 30, R2 300", X + 0x21, "256 ", TEXT, BIT_29 | BIT_30, TEXT, 300, 6, 0, "Bad number"),
        FAILS("301, bits 29 and 30, R2 300", X + 0x21, "301 ", TEXT, BIT_29 | BIT_30, TEXT, 300, 6, 0, "Number too big"),
        FAILS("101, bits 29 and 30, R2 100", 0x21, "101 ", TEXT, BIT_29 | BIT_30, TEXT, 100, 6, 0, "Number too big"),
        {"101 without bit 29, R2 100", 0x21, "101 ", TEXT, 0, TEXT, 100, DONE, 0, TEXT + 3, 101, 0, NULL, 0, 0},
        FAILS("no digit", X + 0x21, "&G", TEXT, 10, TEXT, 0, 2, 0, "Bad number"),
        FAILS("2 in base 2", 0x21, "2 ", TEXT, 2, TEXT, 0, 2, 0, "Bad number"),
        FAILS("a bad base", 0x21, "37_1 ", TEXT, 10, TEXT, 0, 3, 0, "Bad base"),
        FAILS("over 32 bits", X + 0x21, "4294967296 ", TEXT, 10, TEXT, 0, 4, 0, "Number too big"),
        FAILS("over 32 bits in base 16", 0x21, "100000000 ", TEXT, 16, TEXT, 0, 4, 0, "Number too big"),
        {"the last bytes of memory", 0x21, "12\r", SIZE - 3, 10, SIZE - 3, 0, DONE, 10, SIZE - 1, 12, 0, NULL, 0, 0},
        FAILS("digits up to memory's end", X + 0x21, "12", SIZE - 2, 10, SIZE - 2, 0, BAD_ADDRESS, 0, "Bad address"),
        FAILS("the same in base 16", 0x21, "1F", SIZE - 2, 16, SIZE - 2, 0, BAD_ADDRESS, 0, "Bad address"),
        FAILS("spaces up to memory's end", 0x21, "  ", SIZE - 2, 10, SIZE - 2, 0, BAD_ADDRESS, 0, "Bad address"),
        FAILS("behind memory", 0x21, NULL, 0, 10, SIZE, 0, BAD_ADDRESS, 0, "Bad address"),
        FAILS("far behind memory", X + 0x21, NULL, 0, 10, FAR, 0, BAD_ADDRESS, 0, "Bad address"),
    };
    RUN(list);
}

/* Bits 29 to 31 of R2 are flags. */
static void gs_trans(void)
{
    static const struct test list[] = {
        {"codes", 0x27, "a|Jb<65>\r", TEXT, TEXT, BUFFER, 64, DONE, TEXT + 9, BUFFER, 4, 0, "a\nbA\r", BUFFER, 5},
        {"the largest code", X + 0x27, "<255><&ff>\r", TEXT, TEXT, BUFFER, 64, DONE, TEXT + 11, BUFFER, 2, 0, "\xFF\xFF\r", BUFFER, 3},
        {"variables", X + 0x27, "<head> <SUM>\n", TEXT, TEXT, BUFFER, 64, DONE, TEXT + 13, BUFFER, 10, 0, "Ash! -1250\n", BUFFER,
         11},
        {"a name of the house", 0x27, "<YEAR>\r", TEXT, TEXT, BUFFER, 64, DONE, TEXT + 7, BUFFER, 4, 0, "1989\r", BUFFER, 5},
        {"the same in a macro of the farm", X + 0x27, "<page>\r", TEXT, TEXT, BUFFER, 64, DONE, TEXT + 7, BUFFER, 4, 0, "1989\r",
         BUFFER, 5},
        {"the string's length and 1", 0x27, "<head>\r", TEXT, TEXT, BUFFER, 5, DONE, TEXT + 7, BUFFER, 4, 0, "Ash!\r", BUFFER, 5},
        {"one byte too few", 0x27, "<head>\r", TEXT, TEXT, BUFFER, 4, SHORT(5), TEXT, 0, 5, 1, NULL, 0, 0},
        {"no buffer", X + 0x27, "<head>\r", TEXT, TEXT, BUFFER, 0, SHORT(5), TEXT, 0, 1, 1, NULL, 0, 0},
        {"no buffer, no string", 0x27, "\r", TEXT, TEXT, BUFFER, 0, SHORT(1), TEXT, 0, 1, 1, NULL, 0, 0},
        {"one byte, no string", 0x27, "\r", TEXT, TEXT, BUFFER, 1, DONE, TEXT + 1, BUFFER, 0, 0, "\r", BUFFER, 1},
        {"a space ends", 0x27, " a b\r", TEXT, TEXT, BUFFER, BIT_29 | 8, DONE, TEXT + 3, BUFFER, 1, 0, "a ", BUFFER, 2},
        {"quotes", 0x27, "\"a \"\"b\"  \r", TEXT, TEXT, BUFFER, 8, DONE, TEXT + 10, BUFFER, 4, 0, "a \"b\r", BUFFER, 5},
        {"bars and quotes plain", 0x27, "\"|A\"\r", TEXT, TEXT, BUFFER, BIT_30 | BIT_31 | 8, DONE, TEXT + 5, BUFFER, 4, 0,
         "\"|A\"\r", BUFFER, 5},
        {"over itself", 0x27, "x<head>y\r", TEXT, TEXT, TEXT, 16, DONE, TEXT + 9, TEXT, 6, 0, "xAsh!y\r", TEXT, 7},
        {"over itself, one byte behind", 0x27, "x<head>y\r", TEXT, TEXT, TEXT + 1, 16, DONE, TEXT + 9, TEXT + 1, 6, 0, "xAsh!y\r",
         TEXT + 1, 7},
        FAILS("a bad code", X + 0x27, "a|1\r", TEXT, TEXT, BUFFER, 64, 7, 0, "Bad string"),
        FAILS("an open quote", 0x27, "\"a\r", TEXT, TEXT, BUFFER, 64, 8, 0, "Bad string"),
        FAILS("an open reference", 0x27, "a<\r", TEXT, TEXT, BUFFER, 64, 9, 0, "Bad string"),
        FAILS("the same, no buffer", 0x27, "a<\r", TEXT, TEXT, BUFFER, 0, 9, 0, "Bad string"),
        FAILS("a large number", X + 0x27, "<4294967296>\r", TEXT, TEXT, BUFFER, 64, 4, 0, "Number too big"),
        FAILS("a code over 255", 0x27, "a<256>\r", TEXT, TEXT, BUFFER, 64, 21, 0, "Code over 255"),
        FAILS("one with the low bits of A, no buffer", X + 0x27, "<321>\r", TEXT, TEXT, BUFFER, 0, 21, 0, "Code over 255"),
        FAILS("an unknown name", 0x27, "<x>\r", TEXT, TEXT, BUFFER, 64, 10, 0, "System variable not found"),
        FAILS("a macro in itself", X + 0x27, "<loop>\r", TEXT, TEXT, BUFFER, 64, 11, 0, "Too deep"),
        {"the last bytes of memory", 0x27, "<sum>\r", SIZE - 6, SIZE - 6, BUFFER, 6, DONE, SIZE, BUFFER, 5, 0, "-1250\r", BUFFER,
         6},
        {"into the last bytes of memory", 0x27, "<sum>\r", TEXT, TEXT, SIZE - 6, 6, DONE, TEXT + 6, SIZE - 6, 5, 0, "-1250\r",
         SIZE - 6, 6},
        FAILS("a buffer that ends behind them", 0x27, "<sum>\r", TEXT, TEXT, SIZE - 6, 7, BAD_ADDRESS, 0, "Bad address"),
        FAILS("a buffer that wraps around", X + 0x27, "<sum>\r", TEXT, TEXT, FAR, 8, BAD_ADDRESS, 0, "Bad address"),
        FAILS("a string that memory cuts off", 0x27, "<sum>", SIZE - 5, SIZE - 5, BUFFER, 64, BAD_ADDRESS, 0, "Bad address"),
        FAILS("a string behind memory", 0x27, NULL, 0, FAR, BUFFER, 64, BAD_ADDRESS, 0, "Bad address"),
    };
    RUN(list);
}

/* &28 writes characters and nothing behind them; beside it &DC, which has the same ones and a zero byte. */
static void binary_to_decimal(void)
{
    static const struct test list[] = {
        {"-7", 0x28, NULL, 0, (uint32_t)-7, BUFFER, 16, DONE, (uint32_t)-7, BUFFER, 2, 0, "-7", BUFFER, 2},
        {"0, one byte", X + 0x28, NULL, 0, 0, BUFFER, 1, DONE, 0, BUFFER, 1, 0, "0", BUFFER, 1},
        {"just the characters", 0x28, NULL, 0, 1048576, BUFFER, 7, DONE, 1048576, BUFFER, 7, 0, "1048576", BUFFER, 7},
        FAILS("one byte too few", 0x28, NULL, 0, 1048576, BUFFER, 6, 1, 7, "Buffer overflow"),
        {"the same and a zero byte", 0xDC, NULL, 0, 1048576, BUFFER, 8, DONE, BUFFER, BUFFER + 7, 1, 0, "1048576", BUFFER, 8},
        FAILS("no room for the zero byte", X + 0xDC, NULL, 0, 1048576, BUFFER, 7, 1, 8, "Buffer overflow"),
        {"the most that is needed", X + 0x28, NULL, 0, BIT_31, BUFFER, 11, DONE, BIT_31, BUFFER, 11, 0, "-2147483648", BUFFER, 11},
        FAILS("one byte less", X + 0x28, NULL, 0, BIT_31, BUFFER, 10, 1, 11, "Buffer overflow"),
        {"a byte to spare", 0x28, NULL, 0, BIT_31, BUFFER, 12, DONE, BIT_31, BUFFER, 11, 0, "-2147483648", BUFFER, 11},
        FAILS("no buffer", X + 0x28, NULL, 0, 96, BUFFER, 0, 1, 2, "Buffer overflow"),
        {"into the last bytes of memory", 0x28, NULL, 0, 96, SIZE - 2, 2, DONE, 96, SIZE - 2, 2, 0, "96", SIZE - 2, 2},
        {"into the last byte of memory", X + 0x28, NULL, 0, 7, SIZE - 1, 1, DONE, 7, SIZE - 1, 1, 0, "7", SIZE - 1, 1},
        FAILS("one byte too few there", 0x28, NULL, 0, 96, SIZE - 1, 1, 1, 2, "Buffer overflow"),
        FAILS("no buffer, at memory's end", X + 0x28, NULL, 0, 7, SIZE, 0, 1, 1, "Buffer overflow"),
        FAILS("a buffer that ends behind them", 0x28, NULL, 0, 96, SIZE - 2, 3, BAD_ADDRESS, 0, "Bad address"),
        FAILS("a buffer behind memory", X + 0x28, NULL, 0, 96, SIZE + 1, 0, BAD_ADDRESS, 0, "Bad address"),
        FAILS("a buffer that wraps around", 0x28, NULL, 0, 96, FAR, FAR, BAD_ADDRESS, 0, "Bad address"),
    };
    RUN(list);
}

/* R1 and R2 are no buffer of memory: integers need none. */
static void evaluate(void)
{
    static const struct test list[] = {
        {"a sum", 0x2D, "2147483647+1\r", TEXT, TEXT, FAR, FAR, DONE, TEXT, 0, BIT_31, 0, NULL, 0, 0},
        FAILS("a string with no end", X + 0x2D, "-7 MOD 2", TEXT, TEXT, BUFFER, 8, 18, 0, LONG),
        {"-7 MOD 2", X + 0x2D, "-7 MOD 2\n", TEXT, TEXT, BUFFER, 8, DONE, TEXT, 0, (uint32_t)-1, 0, NULL, 0, 0},
        {"a variable", 0x2D, "(sum+1250)=0\r", TEXT, TEXT, BUFFER, 8, DONE, TEXT, 0, (uint32_t)-1, 0, NULL, 0, 0},
        {"one of each table", 0x2D, "year+sum\r", TEXT, TEXT, BUFFER, 8, DONE, TEXT, 0, 739, 0, NULL, 0, 0},
        FAILS("a string", 0x2D, "\"HI\"\r", TEXT, TEXT, BUFFER, 8, 15, 0, "Bad expression"),
        FAILS("nothing", 0x2D, "\r", TEXT, TEXT, BUFFER, 8, 15, 0, "Bad expression"),
        FAILS("over zero", X + 0x2D, "1/0\r", TEXT, TEXT, BUFFER, 8, 16, 0, "Division by zero"),
        FAILS("a string variable", 0x2D, "farm+1\r", TEXT, TEXT, BUFFER, 8, 17, 0, "Not an integer variable"),
        FAILS("an unknown name", 0x2D, "x\r", TEXT, TEXT, BUFFER, 8, 10, 0, "System variable not found"),
        FAILS("17 brackets", X + 0x2D, "(((((((((((((((((1\r", TEXT, TEXT, BUFFER, 8, 11, 0, "Too deep"),
        FAILS("no digit", 0x2D, "&\r", TEXT, TEXT, BUFFER, 8, 2, 0, "Bad number"),
        FAILS("a bad base", 0x2D, "37_1\r", TEXT, TEXT, BUFFER, 8, 3, 0, "Bad base"),
        FAILS("over 32 bits", 0x2D, "4294967296\r", TEXT, TEXT, BUFFER, 8, 4, 0, "Number too big"),
        {"the last bytes of memory", 0x2D, "6*7\r", SIZE - 4, SIZE - 4, BUFFER, 8, DONE, SIZE - 4, 0, 42, 0, NULL, 0, 0},
        FAILS("a string that memory cuts off", 0x2D, "6*7", SIZE - 3, SIZE - 3, BUFFER, 8, BAD_ADDRESS, 0, "Bad address"),
        FAILS("a string behind memory", X + 0x2D, NULL, 0, SIZE, BUFFER, 8, BAD_ADDRESS, 0, "Bad address"),
    };
    RUN(list);
}

/* Each of the 25 calls, of -96: the need exactly, at the end of memory, and one byte too few. */
static void conversions(void)
{
    static const char *const strings[] = {
        "0", "A0", "FFA0", "FFFFA0", "FFFFFFA0", "160", "65440", "16777120", "4294967200", "-96", "-96", "-96", "-96",
        "10100000", "1111111110100000", "111111111111111110100000", "11111111111111111111111110100000",
        "160", "65 440", "16 777 120", "4 294 967 200", "-96", "-96", "-96", "-96",
    };
    for (uint32_t i = 0; i < sizeof strings / sizeof strings[0]; i++) {
        uint32_t need = (uint32_t)strlen(strings[i]) + 1, at = SIZE - need, value = (uint32_t)-96;
        const struct test list[] = {
            {strings[i], 0xD0 + i, NULL, 0, value, at, need, DONE, at, SIZE - 1, 1, 0, strings[i], at, need},
            FAILS("one byte too few", 0xD0 + i, NULL, 0, value, BUFFER, need - 1, 1, need, "Buffer overflow"),
        };
        RUN(list);
    }
    static const struct test list[] = {
        {"room to spare", X + 0xE4, NULL, 0, 1048576, BUFFER, 64, DONE, BUFFER, BUFFER + 9, 55, 0, "1 048 576", BUFFER, 10},
        FAILS("no buffer", X + 0xE4, NULL, 0, 1048576, BUFFER, 0, 1, 10, "Buffer overflow"),
        FAILS("no buffer, at memory's end", 0xE4, NULL, 0, 1048576, SIZE, 0, 1, 10, "Buffer overflow"),
        FAILS("a buffer that ends behind memory", 0xD8, NULL, 0, 96, SIZE - 9, 10, BAD_ADDRESS, 0, "Bad address"),
        FAILS("a buffer behind memory", X + 0xD8, NULL, 0, 96, SIZE + 1, 0, BAD_ADDRESS, 0, "Bad address"),
        FAILS("a buffer that wraps around", 0xD8, NULL, 0, 96, 0x80000000u, 0x80000010u, BAD_ADDRESS, 0, "Bad address"),
    };
    RUN(list);
}

/* A test of &C1: its `text` is the format. */
struct dated {
    const char *time; /* five bytes, which go to R0; NULL: none */
    uint32_t r3;
    bool ended; /* a zero byte goes behind the format */
    struct test test;
};

/* Behind memory stand zero bytes, which would end a format that memory does not. */
static void run_dated(const struct dated *list, size_t count)
{
    for (size_t i = 0; i < count; i++) {
        const struct test *test = &list[i].test;
        lay_out(test->text, test->text_at);
        memset(memory + SIZE, 0, MARGIN);
        if (list[i].ended) memory[test->text_at + strlen(test->text)] = 0;
        if (list[i].time != NULL) memcpy(memory + test->r0, list[i].time, NOS_TIME);
        memcpy(as_it_was, host, sizeof host);
        run_with_r3(&usual, test, list[i].r3, i % 2 == 0);
    }
}

#define RUN_DATED(list) run_dated(list, sizeof list / sizeof list[0])

/* The date of the book's example, Tuesday 28 March 1989, 13:25:54; the first time that there is, and the last. */
static const char of_the_book[] = "\x48\x7E\x2A\x91\x41", first_time[] = "\0\0\0\0\0", last_time[] = "\xFF\xFF\xFF\xFF\xFF";

/* The book's own format, and one with every field. */
#define STANDARD "%W3,%DY %M3 %CE%YR.%24:%MI:%SE"
#define ALL "%24%MI%SE%CS %W3%DY%MN%M3%CE%YR%DN"

static void dates(void)
{
    static const struct dated list[] = {
        {of_the_book, TEXT, true, {"the book's format", 0xC1, STANDARD, TEXT, TIME, BUFFER, 25, DONE, BUFFER, BUFFER + 24, 1, 0,
                                   "Tue,28 Mar 1989.13:25:54", BUFFER, 25}},
        {of_the_book, TEXT, true, FAILS("one byte too few", 0xC1, STANDARD, TEXT, TIME, BUFFER, 24, 1, 25, "Buffer overflow")},
        {of_the_book, TEXT, true, FAILS("no buffer", X + 0xC1, STANDARD, TEXT, TIME, BUFFER, 0, 1, 25, "Buffer overflow")},
        {of_the_book, TEXT, true, FAILS("no buffer, at memory's end", 0xC1, "%DN", TEXT, TIME, SIZE, 0, 1, 4, "Buffer overflow")},
        {first_time, TEXT, true, {"the first time", X + 0xC1, ALL, TEXT, TIME, BUFFER, 64, DONE, BUFFER, BUFFER + 26, 38, 0,
                                  "00000000 Mon0101Jan1900001", BUFFER, 27}},
        {last_time, TEXT, true, {"the last time", 0xC1, ALL, TEXT, TIME, BUFFER, 64, DONE, BUFFER, BUFFER + 26, 38, 0,
                                 "06575775 Sat0306Jun2248155", BUFFER, 27}},
        {of_the_book, TEXT, true, {"line ends", X + 0xC1, "%DY\n\r%MN", TEXT, TIME, BUFFER, 16, DONE, BUFFER, BUFFER + 6, 10, 0,
                                   "28\n\r03", BUFFER, 7}},
        {of_the_book, TEXT, true, {"percent signs", 0xC1, "%%CS%%", TEXT, TIME, BUFFER, 16, DONE, BUFFER, BUFFER + 4, 12, 0, "%CS%",
                                   BUFFER, 5}},
        {of_the_book, TEXT, true, {"no format, one byte", 0xC1, "", TEXT, TIME, BUFFER, 1, DONE, BUFFER, BUFFER, 1, 0, "",
                                   BUFFER, 1}},
        {of_the_book, TEXT, true, FAILS("no format, no buffer", X + 0xC1, "", TEXT, TIME, BUFFER, 0, 1, 1, "Buffer overflow")},
        {of_the_book, TEXT, true, FAILS("small letters", 0xC1, "%DY.%mn", TEXT, TIME, BUFFER, 64, 19, 0, "Bad field")},
        {of_the_book, TEXT, true, FAILS("another field of the book", X + 0xC1, "%12", TEXT, TIME, BUFFER, 64, 19, 0, "Bad field")},
        {of_the_book, TEXT, true, FAILS("a field cut off", X + 0xC1, "%DY%D", TEXT, TIME, BUFFER, 64, 19, 0, "Bad field")},
        {of_the_book, TEXT, true, FAILS("the same, no buffer", 0xC1, "%DY%D", TEXT, TIME, BUFFER, 0, 19, 0, "Bad field")},
    };
    RUN_DATED(list);
}

/* The time, the format and the buffer at memory's end, and beyond. */
static void dates_at_the_end(void)
{
    static const struct dated list[] = {
        {of_the_book, TEXT, true, {"a time in the last bytes", 0xC1, "%MN", TEXT, SIZE - 5, BUFFER, 8, DONE, BUFFER, BUFFER + 2, 6, 0,
                                   "03", BUFFER, 3}},
        {NULL, TEXT, true, FAILS("a time that ends behind them", 0xC1, "%MN", TEXT, SIZE - 4, BUFFER, 8, BAD_ADDRESS, 0,
                                 "Bad address")},
        {NULL, TEXT, true, FAILS("a time behind memory", X + 0xC1, "%MN", TEXT, SIZE, BUFFER, 8, BAD_ADDRESS, 0, "Bad address")},
        {NULL, TEXT, true, FAILS("a time that wraps around", 0xC1, "%MN", TEXT, FAR, BUFFER, 8, BAD_ADDRESS, 0, "Bad address")},
        {NULL, TEXT, true, FAILS("the same, no buffer", X + 0xC1, "%MN", TEXT, FAR, BUFFER, 0, BAD_ADDRESS, 0, "Bad address")},
        {NULL, TEXT, true, FAILS("the same, a bad field", 0xC1, "%", TEXT, FAR, BUFFER, 8, BAD_ADDRESS, 0, "Bad address")},
        {of_the_book, SIZE - 4, true, {"a format in the last bytes", X + 0xC1, "%MN", SIZE - 4, TIME, BUFFER, 8, DONE, BUFFER,
                                       BUFFER + 2, 6, 0, "03", BUFFER, 3}},
        {of_the_book, SIZE - 3, false, FAILS("a format that memory cuts off", 0xC1, "%MN", SIZE - 3, TIME, BUFFER, 8, BAD_ADDRESS, 0,
                                             "Bad address")},
        {of_the_book, SIZE - 1, false, FAILS("a bad one that memory cuts off", X + 0xC1, "%", SIZE - 1, TIME, BUFFER, 8, BAD_ADDRESS, 0,
                                             "Bad address")},
        {of_the_book, SIZE, false, FAILS("a format behind memory", X + 0xC1, NULL, 0, TIME, BUFFER, 8, BAD_ADDRESS, 0, "Bad address")},
        {of_the_book, FAR, false, FAILS("a format far behind it", 0xC1, NULL, 0, TIME, BUFFER, 8, BAD_ADDRESS, 0, "Bad address")},
        {of_the_book, TEXT, true, {"into the last bytes", 0xC1, "%DN", TEXT, TIME, SIZE - 4, 4, DONE, SIZE - 4, SIZE - 1, 1, 0, "087",
                                   SIZE - 4, 4}},
        {of_the_book, TEXT, true, FAILS("a buffer that ends behind them", X + 0xC1, "%DN", TEXT, TIME, SIZE - 4, 5, BAD_ADDRESS, 0,
                                        "Bad address")},
        {of_the_book, TEXT, true, FAILS("a buffer that wraps around", 0xC1, "%DN", TEXT, TIME, FAR, 8, BAD_ADDRESS, 0, "Bad address")},
        {of_the_book, TEXT, true, FAILS("the same, a bad field", X + 0xC1, "%", TEXT, TIME, FAR, 8, BAD_ADDRESS, 0, "Bad address")},
    };
    RUN_DATED(list);
}

/* The program sees the string as if the time and the format had been read first, whatever it is written over. */
static void dates_over(void)
{
    static const struct dated list[] = {
        {of_the_book, TEXT, true, {"over its format", 0xC1, "%CE%YR-%MN", TEXT, TIME, TEXT, 16, DONE, TEXT, TEXT + 7, 9, 0, "1989-03",
                                   TEXT, 8}},
        {of_the_book, TEXT, true, {"over it, one byte behind", X + 0xC1, "-%CE%YR-%MN", TEXT, TIME, TEXT + 1, 16, DONE, TEXT + 1,
                                   TEXT + 9, 8, 0, "-1989-03", TEXT + 1, 9}},
        {of_the_book, TEXT, true, {"over its time", 0xC1, "%24:%MI:%SE", TEXT, TIME, TIME, 9, DONE, TIME, TIME + 8, 1, 0, "13:25:54",
                                   TIME, 9}},
        {of_the_book, TEXT, true, {"over it, from before", X + 0xC1, "%24:%MI:%SE", TEXT, TIME, TIME - 3, 9, DONE, TIME - 3, TIME + 5,
                                   1, 0, "13:25:54", TIME - 3, 9}},
        {of_the_book, TEXT, true, {"over both", 0xC1, "%24:%MI:%SE", TEXT, TEXT - 6, TEXT - 7, 64, DONE, TEXT - 7, TEXT + 1, 56, 0,
                                   "13:25:54", TEXT - 7, 9}},
        {of_the_book, TEXT, true, FAILS("over both, too short", X + 0xC1, "%24:%MI:%SE", TEXT, TEXT - 6, TEXT - 7, 8, 1, 9,
                                        "Buffer overflow")},
    };
    RUN_DATED(list);
}

/* Other calls are left alone, though the registers would do. */
static void others(void)
{
    static const uint32_t swis[] = {0x00, 0x20, 0x22, X + 0x22, 0x29, X + 0x29, 0x10023, 0x40024, 0x2C, 0x2E, 0xC0, 0xC2, X + 0xC0,
                                    X + 0xC2, 0xCF, 0xE9, X + 0xE9, 0x400C1, 0x400D8, 0x10027, 0xFFFFFF};
    for (size_t i = 0; i < sizeof swis / sizeof swis[0]; i++) {
        const struct test list[] = {
            {"another call", swis[i], "1\r", TEXT, TEXT, BUFFER, 64, ENDED(NOT_MINE), 0, 0, 0, 0, NULL, 0, 0},
        };
        RUN(list);
    }
}

/* Calls that come later say so, and whatever their registers are change nothing. */
static void later(void)
{
    static const struct test list[] = {
        FAILS("reading a string begun", 0x25, "a\r", TEXT, TEXT, 0, 0, NOT_SERVED_YET, 0, "GS reading comes later"),
        FAILS("reading a string begun", X + 0x25, "a\r", TEXT, TEXT, 0, BIT_29, NOT_SERVED_YET, 0, "GS reading comes later"),
        FAILS("a byte of a string read", 0x26, "a\r", TEXT, TEXT, 0, 0, NOT_SERVED_YET, 0, "GS reading comes later"),
        FAILS("a byte of a string read", X + 0x26, NULL, 0, FAR, FAR, FAR, NOT_SERVED_YET, 0, "GS reading comes later"),
    };
    RUN(list);
}

/* What the host lends decides too: the allowance, the place for errors. */
static void hosts(void)
{
    static const struct test spent[] = {
        FAILS("three look-ups of two", 0x27, "<head><sum>\r", TEXT, TEXT, BUFFER, 64, 12, 0, "Allowance spent"),
        FAILS("three look-ups of two", X + 0x2D, "sum+sum+sum\r", TEXT, TEXT, BUFFER, 64, 12, 0, "Allowance spent"),
        {"two, both in the house", 0x27, "<year><year>\r", TEXT, TEXT, BUFFER, 64, DONE, TEXT + 13, BUFFER, 8, 0, "19891989\r",
         BUFFER, 9},
    };
    static const struct test no_block[] = {
        {"no place for errors", 0x28, NULL, 0, 96, BUFFER, 64, ENDED(NO_BLOCK), 0, 0, 0, 0, NULL, 0, 0},
        {"no place for errors", X + 0x28, NULL, 0, 96, BUFFER, 0, ENDED(NO_BLOCK), 0, 0, 0, 0, NULL, 0, 0},
    };
    static const struct test at_the_end = FAILS("errors at memory's end", 0x28, NULL, 0, 96, BUFFER, 0, 1, 2, "Buffer overflow");
    struct machine machine = usual;
    machine.allowance = 2;
    run(&machine, spent, 3);
    machine.error_at = (uint32_t)SIZE - ERROR_ROOM + 1;
    run(&machine, no_block, 2);
    machine.error_at = (uint32_t)SIZE - ERROR_ROOM;
    run(&machine, &at_the_end, 1);
}

/* Without variables of the machine's own nothing hides those of the house; without either there is no name. */
static void house_alone(void)
{
    static const struct test shown[] = {
        {"the house alone", 0x27, "<head><sum>\r", TEXT, TEXT, BUFFER, 64, DONE, TEXT + 12, BUFFER, 6, 0, "?!none\r", BUFFER, 7},
        FAILS("the house alone", X + 0x2D, "year+sum\r", TEXT, TEXT, BUFFER, 64, 17, 0, "Not an integer variable"),
    };
    static const struct test none[] = {
        {"no table", 0x27, "<65>\r", TEXT, TEXT, BUFFER, 64, DONE, TEXT + 5, BUFFER, 1, 0, "A\r", BUFFER, 2},
        FAILS("no table", 0x2D, "year\r", TEXT, TEXT, BUFFER, 64, 10, 0, "System variable not found"),
    };
    struct machine machine = usual;
    struct table empty = table_make(NULL, 0);
    machine.farm = &empty;
    run(&machine, shown, 2);
    machine.farm = NULL;
    run(&machine, shown, 2);
    machine.house = NULL;
    machine.house_length = 0;
    run(&machine, none, 2);
}

/* Both tables are judged, though nothing is named: their lengths first, then their records, and of each the farm's first. */
static void bad_tables(void)
{
    static const struct { struct table farm; const uint8_t *house; size_t house_length; struct test test; } list[] = {
        {{own, OWN - 1, OWN}, shared_bytes, SHARED, BAD("a bad farm", 0x27, "a\r", 13, NOS_IN_THE_FARM, "Bad table")},
        {{own, OWN - 1, OWN}, shared_bytes, SHARED, BAD("a bad farm", X + 0x2D, "1\r", 13, NOS_IN_THE_FARM, "Bad table")},
        {{own, OWN, OWN}, shared_bytes, SHARED - 1, BAD("a bad house", 0x27, "a\r", 13, NOS_IN_THE_HOUSE, "Bad table")},
        {{own, OWN, OWN}, shared_bytes, SHARED - 1, BAD("a bad house", X + 0x2D, "1\r", 13, NOS_IN_THE_HOUSE, "Bad table")},
        {{own, OWN - 1, OWN}, shared_bytes, SHARED - 1, BAD("both bad", 0x27, "a\r", 13, NOS_IN_THE_FARM, "Bad table")},
        {{own, OWN - 1, OWN}, shared_bytes, SHARED - 1, BAD("both bad", X + 0x2D, "1\r", 13, NOS_IN_THE_FARM, "Bad table")},
        {{own, OWN - 1, OWN}, too_long, sizeof too_long, BAD("a house too long", 0x27, "a\r", 18, NOS_IN_THE_HOUSE, LONG)},
        {{own, OWN - 1, OWN}, too_long, sizeof too_long, BAD("a house too long", X + 0x2D, "1\r", 18, NOS_IN_THE_HOUSE, LONG)},
        {{too_long, sizeof too_long, sizeof too_long}, too_long, sizeof too_long,
         BAD("both too long", 0x27, "a\r", 18, NOS_IN_THE_FARM, LONG)},
        {{too_long, sizeof too_long, sizeof too_long}, too_long, sizeof too_long,
         BAD("both too long", X + 0x2D, "1\r", 18, NOS_IN_THE_FARM, LONG)},
    };
    for (size_t i = 0; i < sizeof list / sizeof list[0]; i++) {
        struct machine machine = usual;
        struct table bad = list[i].farm;
        machine.farm = &bad;
        machine.house = list[i].house;
        machine.house_length = list[i].house_length;
        run(&machine, &list[i].test, 1);
    }
}

/* Strings of the longest length that is read, and one byte more: spaces, `last` as the last byte, and behind it a return, or the zero
 * byte of a format. */
static void run_long(const struct test *test, uint32_t length, char last)
{
    bool is_format = (test->swi & ~X) == 0xC1;
    lay_out(NULL, 0);
    memset(memory + TEXT, ' ', length);
    memory[TEXT + length - 1] = (uint8_t)last;
    memory[TEXT + length] = is_format ? 0 : '\r';
    memcpy(as_it_was, host, sizeof host);
    run_with_r3(&usual, test, is_format ? TEXT : 0xAB03, true);
}

static void long_strings(void)
{
    enum { NUMBER = NOS_LONGEST - 4, LAST = 0x1F000 };
    static const struct test list[] = {
        {"65530 spaces and 7", 0x21, NULL, 0, 10, TEXT, 0, DONE, 10, (uint32_t)TEXT + NUMBER, 7, 0, NULL, 0, 0},
        FAILS("65531 spaces and 7", 0x21, NULL, 0, 10, TEXT, 0, 18, 0, LONG),
        {"65535 spaces", 0x27, NULL, 0, TEXT, LAST, 1, DONE, TEXT + NOS_LONGEST + 1, LAST, 0, 0, "\r", LAST, 1},
        FAILS("65536 spaces", 0x27, NULL, 0, TEXT, LAST, 1, 18, 0, LONG),
        {"65534 spaces and 7", 0x2D, NULL, 0, TEXT, 0, 0, DONE, TEXT, 0, 7, 0, NULL, 0, 0},
        FAILS("65535 spaces and 7", X + 0x2D, NULL, 0, TEXT, 0, 0, 18, 0, LONG),
        FAILS("65535 spaces", 0xC1, NULL, 0, TIME, LAST, 0, 1, NOS_LONGEST + 1, "Buffer overflow"),
        FAILS("65534 spaces and %", X + 0xC1, NULL, 0, TIME, LAST, 0, 19, 0, "Bad field"),
        FAILS("65535 spaces and %", 0xC1, NULL, 0, TIME, LAST, 0, 18, 0, LONG),
    };
    run_long(&list[0], NUMBER, '7');
    run_long(&list[1], NUMBER + 1, '7');
    run_long(&list[2], NOS_LONGEST, ' ');
    run_long(&list[3], NOS_LONGEST + 1, ' ');
    run_long(&list[4], NOS_LONGEST, '7');
    run_long(&list[5], NOS_LONGEST + 1, '7');
    run_long(&list[6], NOS_LONGEST, ' ');
    run_long(&list[7], NOS_LONGEST, '%');
    run_long(&list[8], NOS_LONGEST + 1, '%');
}

/* No message is cut. The library's words for 18 are longer than the room; the handler has its own, which the calls below see whole. */
static void messages(void)
{
    for (uint32_t number = 0; number <= NOS_CODE_OVER_255; number++)
        check(number == NOS_OVER_LENGTH || strlen(nos_words(number)) < MESSAGE_ROOM, nos_words(number),
              "there is room for the words and their zero byte");
}

int main(void)
{
    memcpy(own, own_bytes, OWN);
    messages();
    read_unsigned();
    gs_trans();
    binary_to_decimal();
    evaluate();
    conversions();
    dates();
    dates_at_the_end();
    dates_over();
    others();
    later();
    hosts();
    house_alone();
    bad_tables();
    long_strings();
    reading();
    setting();
    printf("%zu calls, nothing is off\n", tests);
    return 0;
}
