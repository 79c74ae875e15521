/* Tests of tables.c: every change and every refusal on a guarded paper whose bytes are all compared afterwards, walks over cut
 * tables, lines of every byte, and long random sequences held to a plain list of variables. The first thing that is off is named, and
 * ends the test with status 1. */
#include <inttypes.h>
#include <stdio.h>
#include <stdlib.h>
#include <string.h>

#include "tables.h"

/* A table stands between margins: no call may touch them. */
enum { MARGIN = 16, PAPER = 70000, HEAD = 5 };

static uint8_t paper[MARGIN + PAPER + MARGIN], as_it_was[sizeof paper];
static struct table table;
static size_t changes, refusals, lines, met[NOS_CODE_OVER_255 + 1]; /* `met`: how often a change had each number */

static void check(bool holds, const char *what, const char *claim)
{
    if (holds) return;
    printf("OFF, %s: this does not hold: %s\n", what, claim);
    exit(1);
}

static const uint8_t *bytes_of(const char *text) { return (const uint8_t *)text; }

static struct table_variable variable_of(uint32_t kind, const void *name, size_t name_length, const void *value, size_t value_length)
{
    struct table_variable variable = {kind, (const uint8_t *)name, name_length, (const uint8_t *)value, value_length, 0};
    return variable;
}

/* A string variable of a name and a value that end in zero bytes. */
static struct table_variable string_of(const char *name, const char *value)
{
    return variable_of(NOS_STRING, name, strlen(name), value, strlen(value));
}

/* A clean paper, whose bytes differ from their neighbours, and an empty table of a room on it. */
static void begin(size_t room)
{
    check(room <= PAPER, "the test itself", "no more is lent than there is");
    for (size_t i = 0; i < sizeof paper; i++) paper[i] = (uint8_t)(0x80 + i % 113);
    memcpy(as_it_was, paper, sizeof paper);
    table = table_make(paper + MARGIN, room);
    check(table.bytes == paper + MARGIN && table.length == 0 && table.room == room, "table_make", "an empty table in the buffer");
    check(memcmp(paper, as_it_was, sizeof paper) == 0, "table_make", "no byte is written");
}

/* The same with bytes in it, good or not. */
static void begin_with(const void *bytes, size_t length, size_t room)
{
    begin(room);
    memcpy(table.bytes, bytes, length);
    table.length = length;
}

#define BEGIN_WITH(literal, room) begin_with(literal, sizeof literal - 1, room)

/* The table has just these bytes, and every byte of the paper is as it was that belonged to no table, before or after. */
static void check_table(const char *what, const void *bytes, size_t length, size_t length_before)
{
    size_t touched = length > length_before ? length : length_before, rest = MARGIN + touched;
    check(table.bytes == paper + MARGIN && table.length == length, what, "the table's length");
    check(length == 0 || memcmp(table.bytes, bytes, length) == 0, what, "the table's bytes");
    check(nos_check_table(table.bytes, table.length).number == NOS_ACCEPTED, what, "the table is good");
    check(memcmp(paper, as_it_was, MARGIN) == 0, what, "the bytes before the table are as they were");
    check(memcmp(paper + rest, as_it_was + rest, sizeof paper - rest) == 0, what, "the bytes after the table are as they were");
}

static void check_change(const char *what, struct table_change change, uint32_t number, size_t place, size_t need)
{
    check(change.number == number, what, "the number");
    check(change.place == place, what, "the place");
    check(change.need == need, what, "the need");
    met[number]++;
}

/* A change that is made: the place of its record, and the table afterwards. */
static void expect_made(const char *what, struct table_change change, size_t place, const void *bytes, size_t length,
                        size_t length_before)
{
    check_change(what, change, NOS_ACCEPTED, place, length);
    check_table(what, bytes, length, length_before);
    changes++;
}

/* Sets a variable; the table afterwards is a literal. */
#define SET(what, variable, place, literal) set(what, variable, place, literal, sizeof literal - 1)
static void set(const char *what, struct table_variable variable, size_t place, const void *bytes, size_t length)
{
    size_t length_before = table.length;
    memcpy(as_it_was, paper, sizeof paper);
    expect_made(what, table_set(&table, &variable), place, bytes, length, length_before);
}

#define UNSET(name, place, literal) unset(name, place, literal, sizeof literal - 1)
static void unset(const char *name, size_t place, const void *bytes, size_t length)
{
    size_t length_before = table.length;
    memcpy(as_it_was, paper, sizeof paper);
    expect_made(name, table_unset(&table, bytes_of(name), strlen(name)), place, bytes, length, length_before);
}

/* A change that is refused: every byte of the paper, and the table's length and room, are as they were. */
static void check_refused(const char *what, struct table before, struct table_change change, uint32_t number, size_t place,
                          size_t need)
{
    check_change(what, change, number, place, need);
    check(memcmp(paper, as_it_was, sizeof paper) == 0, what, "a refusal changes no byte");
    check(table.bytes == before.bytes && table.length == before.length && table.room == before.room, what, "nor the table's length");
    refusals++;
}

static void refuse_set(const char *what, struct table_variable variable, uint32_t number, size_t place, size_t need)
{
    struct table before = table;
    memcpy(as_it_was, paper, sizeof paper);
    check_refused(what, before, table_set(&table, &variable), number, place, need);
}

static void refuse_unset(const char *what, const void *name, size_t name_length, uint32_t number, size_t place)
{
    struct table before = table;
    memcpy(as_it_was, paper, sizeof paper);
    check_refused(what, before, table_unset(&table, (const uint8_t *)name, name_length), number, place, 0);
}

/* Records of the tests: V, R, kind, name length, value length, name, value. */
#define ASH "VR\x00\x04\x03" "Farm" "Ash"
#define SUM "VR\x01\x03\x04" "Sum" "\x1E\xFB\xFF\xFF" /* -1250 */
#define PAGE "VR\x02\x04\x06" "Page" "<Farm>"
enum { ASH_LENGTH = sizeof ASH - 1, SUM_LENGTH = sizeof SUM - 1, ALL_LENGTH = sizeof ASH SUM PAGE - 1 };

/* The three functions that take strings and integers; each record after the last one. */
static void making(void)
{
    begin(PAPER);
    expect_made("a string", table_set_string(&table, "Farm", "Ash"), 0, ASH, ASH_LENGTH, 0);
    expect_made("an integer", table_set_integer(&table, "Sum", -1250), ASH_LENGTH, ASH SUM, ASH_LENGTH + SUM_LENGTH, 0);
    expect_made("a macro", table_set_macro(&table, "Page", "<Farm>"), ASH_LENGTH + SUM_LENGTH, ASH SUM PAGE, ALL_LENGTH, 0);
    begin(PAPER);
    SET("an empty value, NULL", variable_of(NOS_STRING, "a", 1, NULL, 0), 0, "VR\x00\x01\x00" "a");
    begin(PAPER);
    SET("zero bytes in a value", variable_of(NOS_MACRO, "a", 1, "\0b\0", 3), 0, "VR\x02\x01\x03" "a" "\0b\0");
    begin(PAPER);
    expect_made("the lowest integer", table_set_integer(&table, "n", INT32_MIN), 0, "VR\x01\x01\x04n\x00\x00\x00\x80", 10, 0);
    expect_made("the highest", table_set_integer(&table, "N", INT32_MAX), 0, "VR\x01\x01\x04N\xFF\xFF\xFF\x7F", 10, 10);
}

/* An equal name, in letters of either case, keeps its record's place and gets the new spelling. */
static void replacing(void)
{
    BEGIN_WITH(ASH SUM PAGE, PAPER);
    SET("a longer value in the middle", string_of("SUM", "more than it was"), 12, ASH "VR\x00\x03\x10" "SUMmore than it was" PAGE);
    SET("a shorter one", string_of("sum", "x"), 12, ASH "VR\x00\x03\x01" "sumx" PAGE);
    SET("none", string_of("sUm", ""), 12, ASH "VR\x00\x03\x00" "sUm" PAGE);
    SET("another kind", variable_of(NOS_INTEGER, "Sum", 3, "\x1E\xFB\xFF\xFF", 4), 12, ASH SUM PAGE);
    SET("of the same length", variable_of(NOS_INTEGER, "sum", 3, "\1\2\3\4", 4), 12, ASH "VR\x01\x03\x04" "sum\1\2\3\4" PAGE);
    SET("the first", string_of("FARM", "Elm Hill"), 0, "VR\x00\x04\x08" "FARMElm Hill" "VR\x01\x03\x04" "sum\1\2\3\4" PAGE);
    SET("the last", string_of("page", ""), 29,
        "VR\x00\x04\x08" "FARMElm Hill" "VR\x01\x03\x04" "sum\1\2\3\4" "VR\x00\x04\x00" "page");
    SET("a beginning of a name is another", string_of("pag", "p"), 38,
        "VR\x00\x04\x08" "FARMElm Hill" "VR\x01\x03\x04" "sum\1\2\3\4" "VR\x00\x04\x00" "page" "VR\x00\x03\x01" "pagp");
    BEGIN_WITH("VR\x00\x01\x00" "@", PAPER);
    SET("@ and ` differ in a bit that is no case", string_of("`", ""), 6, "VR\x00\x01\x00" "@" "VR\x00\x01\x00" "`");
}

static void unsetting(void)
{
    BEGIN_WITH(ASH SUM PAGE, PAPER);
    UNSET("SUM", 12, ASH PAGE);
    BEGIN_WITH(ASH SUM PAGE, PAPER);
    UNSET("farm", 0, SUM PAGE);
    UNSET("page", 12, SUM);
    refuse_unset("a name that is gone", "page", 4, NOS_UNKNOWN_NAME, 0);
    refuse_unset("a beginning of a name", "Su", 2, NOS_UNKNOWN_NAME, 0);
    refuse_unset("no name", NULL, 0, NOS_UNKNOWN_NAME, 0);
    refuse_unset("a name over 65,535 bytes", paper, PAPER, NOS_UNKNOWN_NAME, 0);
    UNSET("Sum", 0, "");
    refuse_unset("a name in an empty table", "Sum", 3, NOS_UNKNOWN_NAME, 0);
    BEGIN_WITH(ASH SUM PAGE, ALL_LENGTH);
    UNSET("Page", 24, ASH SUM);
}

/* Names and values that lie in the table itself, before and after what moves. */
static void in_the_table(void)
{
    BEGIN_WITH(ASH SUM PAGE, PAPER);
    SET("a value that moves up", variable_of(NOS_STRING, "farm", 4, table.bytes + 33, 6), 0,
        "VR\x00\x04\x06" "farm<Farm>" SUM PAGE);
    SET("a name and a value that move away", variable_of(NOS_MACRO, table.bytes + 20, 3, table.bytes + 36, 6), 15,
        "VR\x00\x04\x06" "farm<Farm>" "VR\x02\x03\x06" "Sum<Farm>" PAGE);
    size_t length_before = table.length;
    expect_made("a name taken out by itself", table_unset(&table, table.bytes + 5, 4), 0, "VR\x02\x03\x06" "Sum<Farm>" PAGE, 29,
                length_before);
}

/* No byte is followed where there are none. */
static void on_nothing(void)
{
    begin(PAPER);
    memcpy(as_it_was, paper, sizeof paper);
    table = table_make(NULL, 0);
    refuse_set("a string on no buffer", string_of("Farm", "Ash"), NOS_NO_ROOM, 0, ASH_LENGTH);
    refuse_set("nothing on no buffer", variable_of(NOS_STRING, NULL, 0, NULL, 0), NOS_BAD_TABLE, 0, 0);
    refuse_unset("a name of no buffer", "Farm", 4, NOS_UNKNOWN_NAME, 0);
}

/* The room is looked at last: one byte too few, with the need, and just enough. */
static void rooms(void)
{
    begin(ASH_LENGTH - 1);
    refuse_set("one byte too few for the first", string_of("Farm", "Ash"), NOS_NO_ROOM, 0, ASH_LENGTH);
    begin(ASH_LENGTH);
    SET("just enough", string_of("Farm", "Ash"), 0, ASH);
    refuse_set("a full buffer, a second one", string_of("a", ""), NOS_NO_ROOM, 0, ASH_LENGTH + 6);
    refuse_set("a full buffer, one byte more", string_of("FARM", "Ash!"), NOS_NO_ROOM, 0, ASH_LENGTH + 1);
    SET("a full buffer, the same length", string_of("FARM", "Elm"), 0, "VR\x00\x04\x03" "FARM" "Elm");
    BEGIN_WITH(ASH SUM PAGE, ALL_LENGTH + 1);
    refuse_set("two bytes more in the middle", string_of("Sum", "123456"), NOS_NO_ROOM, 0, ALL_LENGTH + 2);
    SET("one byte more", string_of("Sum", "12345"), 12, ASH "VR\x00\x03\x05" "Sum12345" PAGE);
    SET("and one less", string_of("Sum", "1234"), 12, ASH "VR\x00\x03\x04" "Sum1234" PAGE);
}

/* Of every byte, whether a name may have it. */
static bool is_of_a_name(size_t byte) { return byte >= 33 && byte <= 126 && byte != '"' && byte != '<' && byte != '>'; }

static void names(void)
{
    static uint8_t longest[65536];
    memset(longest, 'n', sizeof longest);
    for (size_t byte = 0; byte < 256; byte++) {
        const uint8_t name[] = {'a', (uint8_t)byte, 'z'}, record[] = {86, 82, 0, 3, 0, 'a', (uint8_t)byte, 'z'};
        char what[32];
        snprintf(what, sizeof what, "byte %zu in a name", byte);
        begin(PAPER);
        if (is_of_a_name(byte))
            set(what, variable_of(NOS_STRING, name, 3, NULL, 0), 0, record, sizeof record);
        else
            refuse_set(what, variable_of(NOS_STRING, name, 3, NULL, 0), NOS_BAD_TABLE, 0, 0);
    }
    static const size_t lengths[] = {0, 33, 255, 256, 257, 288, 65535, 65536};
    for (size_t i = 0; i < sizeof lengths / sizeof lengths[0]; i++) {
        BEGIN_WITH(ASH, ASH_LENGTH);
        refuse_set("a name of a wrong length", variable_of(NOS_STRING, longest, lengths[i], NULL, 0), NOS_BAD_TABLE, ASH_LENGTH, 0);
    }
    begin(PAPER);
    SET("a name of 32 bytes", variable_of(NOS_STRING, longest, 32, NULL, 0), 0, "VR\x00\x20\x00" "nnnnnnnnnnnnnnnnnnnnnnnnnnnnnnnn");
}

/* Kinds and lengths of values that no record has, of a name that is new and of one that is there; with no room besides, which comes
 * last. */
static void records(void)
{
    static uint8_t value[65536 + 1], record[HEAD + 1 + 255] = {86, 82, 2, 1, 255, 'v'};
    static const struct { uint32_t kind; size_t value_length; } bad[] = {
        {3, 0}, {255, 0}, {256, 0}, {258, 0}, {UINT32_MAX, 0}, {0, 256}, {2, 256}, {0, 511}, {0, 65536}, {2, 65537},
        {1, 0}, {1, 3}, {1, 5}, {1, 255}, {1, 260}, {1, 65540 - 4},
    };
    for (size_t i = 0; i < sizeof bad / sizeof bad[0]; i++) {
        char what[64];
        snprintf(what, sizeof what, "kind %" PRIu32 " with %zu bytes", bad[i].kind, bad[i].value_length);
        BEGIN_WITH(ASH SUM PAGE, ALL_LENGTH);
        refuse_set(what, variable_of(bad[i].kind, "new", 3, value, bad[i].value_length), NOS_BAD_TABLE, 39, 0);
        refuse_set(what, variable_of(bad[i].kind, "SUM", 3, value, bad[i].value_length), NOS_BAD_TABLE, 12, 0);
    }
    for (size_t i = 0; i < 255; i++) value[i] = record[HEAD + 1 + i] = (uint8_t)i;
    begin(sizeof record);
    set("a value of 255 bytes", variable_of(NOS_MACRO, "v", 1, value, 255), 0, record, sizeof record);
}

/* The table as it is comes first, whatever is wrong with the variable and the room. */
static void bad_tables(void)
{
    static uint8_t longest[65536];
    struct table_variable good = string_of("a", ""), bad = string_of("", "");
    BEGIN_WITH(ASH "VS\x00\x01\x00" "x" PAGE, PAPER);
    refuse_set("over a bad record", good, NOS_BAD_TABLE, 12, 0);
    refuse_set("over a bad record, a bad variable", bad, NOS_BAD_TABLE, 12, 0);
    refuse_set("over a bad record, a name before it", string_of("Farm", ""), NOS_BAD_TABLE, 12, 0);
    refuse_unset("a name before a bad record", "Farm", 4, NOS_BAD_TABLE, 12);
    refuse_unset("no name over a bad record", NULL, 0, NOS_BAD_TABLE, 12);
    BEGIN_WITH(ASH PAGE "VR\x00\x04\x00" "fARM", 35);
    refuse_set("over a name twice", string_of("Farm", ""), NOS_BAD_TABLE, 27, 0);
    refuse_unset("a name that is there twice", "farm", 4, NOS_BAD_TABLE, 27);
    begin_with(ASH SUM, ASH_LENGTH + SUM_LENGTH - 1, PAPER);
    refuse_set("over a cut table", good, NOS_BAD_TABLE, 12, 0);
    refuse_unset("a name of a cut table", "Farm", 4, NOS_BAD_TABLE, 12);
    begin_with(longest, sizeof longest, PAPER);
    refuse_set("over 65,536 bytes", good, NOS_OVER_LENGTH, 0, 0);
    refuse_set("over 65,536 bytes, a bad variable", bad, NOS_OVER_LENGTH, 0, 0);
    refuse_unset("a name over 65,536 bytes", "Farm", 4, NOS_OVER_LENGTH, 0);
    table.length = 65535;
    refuse_set("over 65,535 bytes that are none", good, NOS_BAD_TABLE, 0, 0);
}

/* Records of one length with the names n000, n001, ..; their bytes. */
static size_t many(uint8_t *to, size_t count, size_t value_length)
{
    size_t length = HEAD + 4 + value_length;
    for (size_t i = 0; i < count; i++) {
        const uint8_t head[] = {86, 82, 0, 4, (uint8_t)value_length, 'n', (uint8_t)('0' + i / 100), (uint8_t)('0' + i / 10 % 10),
                                (uint8_t)('0' + i % 10)};
        memcpy(to + i * length, head, sizeof head);
        memset(to + i * length + sizeof head, (int)('A' + i % 26), value_length);
    }
    return count * length;
}

static uint8_t wanted[PAPER];

/* 256 records and no more; the 257th is refused before the length and the room are looked at. */
static void most_records(void)
{
    begin_with(wanted, many(wanted, 255, 0), PAPER);
    set("the 256th record", string_of("n255", ""), 255 * 9, wanted, many(wanted, 256, 0));
    refuse_set("the 257th record", string_of("n256", ""), NOS_BAD_TABLE, 256 * 9, 0);
    set("the 256th again", string_of("n255", ""), 255 * 9, wanted, 256 * 9);
    table.room = 256 * 9;
    refuse_set("the 257th, with no room", string_of("n256", ""), NOS_BAD_TABLE, 256 * 9, 0);
    refuse_set("a longer value, with no room", string_of("n100", "x"), NOS_NO_ROOM, 0, 256 * 9 + 1);
    unset("n255", 255 * 9, wanted, 255 * 9);
    set("the 256th after one was taken out", string_of("n255", ""), 255 * 9, wanted, 256 * 9);
    begin_with(wanted, many(wanted, 256, 246), PAPER);
    check(table.length == 65280, "the test itself", "256 records of 255 bytes");
    refuse_set("the 257th, over 65,535 bytes", variable_of(NOS_STRING, "n256", 4, wanted, 255), NOS_BAD_TABLE, 65280, 0);
    table.room = 65280;
    refuse_set("the same, with no room besides", variable_of(NOS_STRING, "n256", 4, wanted, 255), NOS_BAD_TABLE, 65280, 0);
}

/* 65,535 bytes and no more; the length is refused before the room is looked at. */
static void most_bytes(void)
{
    size_t start = many(wanted, 255, 247); /* 65,280 bytes, and 255 are left */
    uint8_t *last = wanted + start;
    memcpy(last, "VR\x02\x01\xF9L", 6);
    memset(last + 6, 'l', 250);
    check(start == 65280, "the test itself", "255 records of 256 bytes");
    begin_with(wanted, start, PAPER);
    refuse_set("65,536 bytes", variable_of(NOS_MACRO, "L", 1, last + 6, 250), NOS_OVER_LENGTH, 0, 0);
    set("65,535 bytes", variable_of(NOS_MACRO, "L", 1, last + 6, 249), start, wanted, 65535);
    refuse_set("one byte more at the end", variable_of(NOS_MACRO, "L", 1, last + 6, 250), NOS_OVER_LENGTH, 0, 0);
    refuse_set("one byte more at the start", variable_of(NOS_STRING, "n000", 4, wanted, 248), NOS_OVER_LENGTH, 0, 0);
    table.room = 65535;
    refuse_set("the same in a full buffer", variable_of(NOS_STRING, "n000", 4, wanted, 248), NOS_OVER_LENGTH, 0, 0);
    set("the same bytes again", variable_of(NOS_MACRO, "L", 1, last + 6, 249), start, wanted, 65535);
    begin_with(wanted, start, start);
    refuse_set("65,536 bytes, with no room", variable_of(NOS_MACRO, "L", 1, last + 6, 250), NOS_OVER_LENGTH, 0, 0);
    refuse_set("65,535 bytes, with no room", variable_of(NOS_MACRO, "L", 1, last + 6, 249), NOS_NO_ROOM, 0, 65535);
    table.room = 65534;
    refuse_set("65,535 bytes, one too few", variable_of(NOS_MACRO, "L", 1, last + 6, 249), NOS_NO_ROOM, 0, 65535);
}

static const struct table_variable untouched = {77, NULL, 77, NULL, 77, 77};

/* No variable is given, and neither *at nor *variable changes. */
static void expect_end(const char *what, const uint8_t *bytes, size_t length, size_t at)
{
    struct table_variable variable = untouched;
    size_t stays = at;
    check(!table_next(bytes, length, &stays, &variable) && stays == at, what, "the walk ends there");
    check(variable.kind == 77 && variable.name == NULL && variable.name_length == 77 && variable.value == NULL
          && variable.value_length == 77 && variable.place == 77, what, "an end gives no variable");
}

/* The variables of ASH SUM PAGE as a walk gives them. */
static void check_step(const uint8_t *bytes, size_t step, struct table_variable variable)
{
    static const struct { uint32_t kind; const char *name, *value; size_t value_length, place; } walk[] = {
        {NOS_STRING, "Farm", "Ash", 3, 0}, {NOS_INTEGER, "Sum", "\x1E\xFB\xFF\xFF", 4, 12}, {NOS_MACRO, "Page", "<Farm>", 6, 24},
    };
    const char *name = walk[step].name;
    check(variable.kind == walk[step].kind && variable.place == walk[step].place, name, "its kind and place");
    check(variable.name == bytes + variable.place + HEAD && variable.name_length == strlen(name), name, "where its name lies");
    check(variable.value == variable.name + strlen(name) && variable.value_length == walk[step].value_length, name, "and its value");
    check(memcmp(variable.name, name, variable.name_length) == 0, name, "its name");
    check(memcmp(variable.value, walk[step].value, variable.value_length) == 0, name, "its value");
}

/* A table cut at every length, in memory of just that length: so many whole records are given, and no byte after the cut is read. */
static void walking(void)
{
    static const size_t ends[] = {0, ASH_LENGTH, ASH_LENGTH + SUM_LENGTH, ALL_LENGTH};
    for (size_t length = 0; length <= ends[3]; length++) {
        uint8_t *bytes = (uint8_t *)malloc(length + 1); /* the one byte more is for length 0, and stands before the table */
        check(bytes != NULL, "the test itself", "there is memory");
        memcpy(++bytes, ASH SUM PAGE, length);
        size_t at = 0, step = 0;
        struct table_variable variable = untouched;
        while (table_next(bytes, length, &at, &variable)) check_step(bytes, step++, variable);
        check(ends[step] <= length && (step == 3 || length < ends[step + 1]), "a cut table", "all whole records are given");
        check(at == ends[step], "a cut table", "the place where the walk ended");
        expect_end("a cut table", bytes, length, at);
        free(bytes - 1);
    }
    expect_end("no table", NULL, 0, 0);
    expect_end("beyond the end, where a record stands", bytes_of(ASH SUM), ASH_LENGTH - 1, ASH_LENGTH);
    expect_end("far beyond the end", bytes_of(ASH), ASH_LENGTH, SIZE_MAX);
    expect_end("another first byte of the mark", bytes_of("WR\x00\x01\x00" "a"), 6, 0);
    expect_end("another second byte", bytes_of("VS\x00\x01\x00" "a"), 6, 0);
    expect_end("not at a record", bytes_of(ASH SUM), ASH_LENGTH + SUM_LENGTH, 1);
}

static void integers(void)
{
    static const struct { int32_t value; const char *bytes; } list[] = {
        {0, "\0\0\0\0"}, {1, "\1\0\0\0"}, {-1, "\xFF\xFF\xFF\xFF"}, {1048576, "\0\0\x10\0"}, {INT32_MAX, "\xFF\xFF\xFF\x7F"},
        {INT32_MIN, "\0\0\0\x80"}, {0x78563412, "\x12\x34\x56\x78"},
    };
    for (size_t i = 0; i < sizeof list / sizeof list[0]; i++) {
        struct table_variable variable = variable_of(NOS_INTEGER, "n", 1, list[i].bytes, 4);
        check(table_integer(&variable) == list[i].value, "table_integer", "four bytes, the lowest first");
    }
}

enum { LINE = 2 * MARGIN + 2000 };

/* Prints a variable into every room from none to more than enough, each time on clean paper: the whole line, or no byte. */
static void print(const char *what, struct table_variable variable, const char *line)
{
    static char out[LINE], clean[LINE];
    size_t length = strlen(line);
    memset(clean, '.', LINE);
    check(table_print(&variable, NULL, 0) == length, what, "the length without a buffer");
    for (size_t room = 0; room <= length + 2; room++) {
        size_t written = room < length ? 0 : length;
        memset(out, '.', LINE);
        check(table_print(&variable, out + MARGIN, room) == length, what, "the line's length");
        check(memcmp(out + MARGIN, line, written) == 0, what, line);
        check(memcmp(out, clean, MARGIN) == 0, what, "no byte before it was written");
        check(memcmp(out + MARGIN + written, clean, LINE - MARGIN - written) == 0, what, "no byte after it was written");
    }
    lines++;
}

/* The lines of docs/NOS.md, and others by its rules. */
static void printing(void)
{
    print("the manual's string", string_of("Farm$Name", "Lower Ash"), "Farm$Name string Lower Ash\n");
    print("the manual's integer", variable_of(NOS_INTEGER, "Quantity", 8, "\0\0\x10\0", 4), "Quantity integer 1048576\n");
    print("the manual's macro", variable_of(NOS_MACRO, "Heading", 7, "<Farm$Name>: <Quantity> <Unit>", 30),
          "Heading macro <Farm$Name>: <Quantity> <Unit>\n");
    print("the manual's empty string", string_of("Remark", ""), "Remark string\n");
    print("the manual's codes", string_of("Bell", "\x07 and a \\"), "Bell string \\x07 and a \\\\\n");
    print("an empty macro", variable_of(NOS_MACRO, "m", 1, NULL, 0), "m macro\n");
    print("the lowest integer", variable_of(NOS_INTEGER, "n", 1, "\0\0\0\x80", 4), "n integer -2147483648\n");
    print("nought", variable_of(NOS_INTEGER, "n", 1, "\0\0\0\0", 4), "n integer 0\n");
    print("a name that would be a remark", string_of("#a#", "#b"), "\\x23a# string #b\n");
    print("a name that is no more than that", string_of("#", ""), "\\x23 string\n");
    print("a backslash in a name", string_of("\\x23", "\\\\"), "\\\\x23 string \\\\\\\\\n");
    print("spaces", string_of("s", "  a  b  "), "s string \\x20 a  b \\x20\n");
    print("a space alone", string_of("s", " "), "s string \\x20\n");
    print("line ends", variable_of(NOS_MACRO, "s", 1, "\0\n\r\t\x7F\x80\xFF", 7), "s macro \\x00\\x0A\\x0D\\x09\\x7F\\x80\\xFF\n");
}

/* A byte of a value in the text form: `at_an_end` where it stands first or last. */
static void append(char *line, size_t byte, bool at_an_end)
{
    size_t length = strlen(line);
    if (byte == '\\')
        strcat(line, "\\\\");
    else if (byte > 126 || byte < 32 || (byte == 32 && at_an_end))
        snprintf(line + length, 8, "\\x%02X", (unsigned)byte);
    else
        snprintf(line + length, 2, "%c", (int)byte);
}

/* Every byte alone, in the middle and at both ends of a value; all values of a name's byte; and the longest lines. */
static void printing_every_byte(void)
{
    for (size_t byte = 0; byte < 256; byte++) {
        const uint8_t value[] = {(uint8_t)byte, 'm', (uint8_t)byte, (uint8_t)byte}, name[] = {'a', (uint8_t)byte};
        char line[64] = "n string ", alone[64] = "n macro ", named[64] = "a";
        append(line, byte, true);
        strcat(line, "m");
        append(line, byte, false);
        append(line, byte, true);
        print("a byte in a value", variable_of(NOS_STRING, "n", 1, value, 4), strcat(line, "\n"));
        append(alone, byte, true);
        print("a byte alone", variable_of(NOS_MACRO, "n", 1, value, 1), strcat(alone, "\n"));
        append(named, byte, false);
        if (is_of_a_name(byte)) print("a byte in a name", variable_of(NOS_STRING, name, 2, NULL, 0), strcat(named, " string\n"));
    }
    static char value[255], name[32], longest[2000];
    memset(value, 7, sizeof value);
    memset(name, '\\', sizeof name);
    name[0] = '#';
    strcpy(longest, "\\x23");
    for (size_t i = 1; i < sizeof name; i++) strcat(longest, "\\\\");
    strcat(longest, " string ");
    for (size_t i = 0; i < sizeof value; i++) strcat(longest, "\\x07");
    print("the longest line", variable_of(NOS_STRING, name, sizeof name, value, sizeof value), strcat(longest, "\n"));
}

/* What no good table has, has no line. */
static void printing_nothing(void)
{
    static const uint8_t value[256] = {0};
    const struct table_variable none[] = {
        variable_of(3, "a", 1, NULL, 0),          variable_of(256, "a", 1, NULL, 0),    variable_of(NOS_STRING, NULL, 0, NULL, 0),
        variable_of(NOS_STRING, "a b", 3, "", 0), variable_of(NOS_INTEGER, "a", 1, value, 3),
        variable_of(NOS_MACRO, "a", 1, value, 256),
    };
    for (size_t i = 0; i < sizeof none / sizeof none[0]; i++) {
        char out[8] = ".......";
        check(table_print(&none[i], out, sizeof out) == 0, "no line", "what no table has is not printed");
        check(strcmp(out, ".......") == 0, "no line", "no byte is written");
    }
}

/* The plain list that random changes are held to. */
struct entry {
    uint32_t kind;
    uint8_t name[40], value[300];
    size_t name_length, value_length;
};
static struct entry list[256];
static size_t entries;

static size_t entry_length(const struct entry *entry) { return HEAD + entry->name_length + entry->value_length; }

/* The bytes of the list's first entries, also to an array. */
static size_t length_of(size_t count, uint8_t *to)
{
    size_t length = 0;
    for (size_t i = 0; i < count; i++) {
        if (to != NULL) {
            const uint8_t head[] = {'V', 'R', (uint8_t)list[i].kind, (uint8_t)list[i].name_length, (uint8_t)list[i].value_length};
            memcpy(to + length, head, HEAD);
            memcpy(to + length + HEAD, list[i].name, list[i].name_length);
            memcpy(to + length + HEAD + list[i].name_length, list[i].value, list[i].value_length);
        }
        length += entry_length(&list[i]);
    }
    return length;
}

static int small(uint8_t byte) { return byte >= 'A' && byte <= 'Z' ? byte + 32 : byte; }

/* The entry of an equal name, or the number of entries. */
static size_t find(const struct entry *entry)
{
    for (size_t i = 0; i < entries; i++) {
        size_t same = 0;
        while (same < entry->name_length && small(entry->name[same]) == small(list[i].name[same])) same++;
        if (same == entry->name_length && same == list[i].name_length) return i;
    }
    return entries;
}

static bool is_good(const struct entry *entry)
{
    for (size_t i = 0; i < entry->name_length; i++)
        if (!is_of_a_name(entry->name[i])) return false;
    return entry->kind <= 2 && entry->name_length >= 1 && entry->name_length <= 32 && entry->value_length <= 255
        && (entry->kind != 1 || entry->value_length == 4);
}

static uint32_t state;

static uint32_t random_below(uint32_t limit)
{
    state ^= state << 13;
    state ^= state >> 17;
    state ^= state << 5;
    return state % limit;
}

/* How a sequence of changes is made: over a room, of so many names, with values of these lengths; `unsets` of 16 take a variable
 * out. */
struct plan {
    uint32_t seed;
    size_t room;
    uint32_t names, shortest, longest, unsets;
    size_t steps;
};

/* A name in letters of either case, and any value; one in 16 has a fault. */
static struct entry random_entry(const struct plan *plan)
{
    bool is_integer = plan->shortest <= 4 && random_below(8) == 0;
    struct entry entry = {is_integer ? 1 : 2 * random_below(2), {0}, {0}, 0, 4};
    entry.name_length = (size_t)snprintf((char *)entry.name, sizeof entry.name, "name$%" PRIu32, random_below(plan->names));
    for (size_t i = 0; i < 4; i++)
        if (random_below(2) == 0) entry.name[i] = (uint8_t)(entry.name[i] - 32);
    if (!is_integer) entry.value_length = plan->shortest + random_below(plan->longest - plan->shortest + 1);
    for (size_t i = 0; i < entry.value_length; i++) entry.value[i] = (uint8_t)random_below(256);
    switch (random_below(64)) {
    case 0: entry.kind = 3 + random_below(600); break;
    case 1: entry.name[random_below((uint32_t)entry.name_length)] = (uint8_t)random_below(256); break;
    case 2: entry.value_length = random_below(300); break;
    case 3: entry.name_length = random_below(40); break;
    }
    return entry;
}

/* Sets an entry in the table and in the list; what the table answers, where, and its bytes go by the list. */
static void set_random(const struct entry *entry)
{
    struct table_variable variable = variable_of(entry->kind, entry->name, entry->name_length, entry->value, entry->value_length);
    size_t i = find(entry), place = length_of(i, NULL), length = length_of(entries, NULL);
    size_t need = length + entry_length(entry) - (i < entries ? entry_length(&list[i]) : 0);
    if (!is_good(entry) || i == 256) {
        refuse_set("a random variable", variable, NOS_BAD_TABLE, place, 0);
    } else if (need > 65535) {
        refuse_set("a random variable", variable, NOS_OVER_LENGTH, 0, 0);
    } else if (need > table.room) {
        refuse_set("a random variable", variable, NOS_NO_ROOM, 0, need);
    } else {
        list[i] = *entry;
        if (i == entries) entries++;
        length = length_of(entries, wanted);
        set("a random variable", variable, place, wanted, length);
    }
}

static void unset_random(const struct entry *entry)
{
    size_t i = find(entry), place = length_of(i, NULL), length_before = length_of(entries, NULL);
    if (i == entries) {
        refuse_unset("a random name", entry->name, entry->name_length, NOS_UNKNOWN_NAME, 0);
        return;
    }
    memmove(list + i, list + i + 1, (entries - i - 1) * sizeof list[0]);
    entries--;
    memcpy(as_it_was, paper, sizeof paper);
    struct table_change change = table_unset(&table, entry->name, entry->name_length);
    size_t length = length_of(entries, wanted);
    expect_made("a random name", change, place, wanted, length, length_before);
}

/* What the sequences must have met, all together: 256 variables, a 257th, 65,536 bytes, too little room, a name that is not there. */
static void random_changes(void)
{
    static const struct plan plans[] = {
        {1, 200, 8, 0, 40, 6, 3000}, {2, PAPER, 30, 0, 255, 8, 1500}, {3, 2500, 300, 0, 0, 3, 1500}, {4, PAPER, 400, 0, 12, 1, 1000},
        {5, PAPER, 300, 240, 255, 1, 1000}, {6, 65535, 600, 250, 255, 1, 1000},
    };
    memset(met, 0, sizeof met);
    for (size_t i = 0; i < sizeof plans / sizeof plans[0]; i++) {
        size_t most = 0;
        state = plans[i].seed;
        entries = 0;
        begin(plans[i].room);
        for (size_t step = 0; step < plans[i].steps; step++) {
            struct entry entry = random_entry(&plans[i]);
            if (random_below(16) < plans[i].unsets) unset_random(&entry); else set_random(&entry);
            if (entries > most) most = entries;
        }
        printf("%zu random changes, room %zu: up to %zu variables, %zu bytes at the end\n", plans[i].steps, plans[i].room, most,
               table.length);
        check(most == 256 || i != 3, "the test itself", "a table was full");
    }
    printf("of them %zu were made; refused by 1 were %zu, by 10 %zu, by 13 %zu, by 18 %zu\n", met[NOS_ACCEPTED], met[NOS_NO_ROOM],
           met[NOS_UNKNOWN_NAME], met[NOS_BAD_TABLE], met[NOS_OVER_LENGTH]);
    check(met[NOS_NO_ROOM] > 50 && met[NOS_UNKNOWN_NAME] > 50 && met[NOS_BAD_TABLE] > 50 && met[NOS_OVER_LENGTH] > 50,
          "the test itself", "every refusal was met often");
}

int main(void)
{
    making();
    replacing();
    unsetting();
    in_the_table();
    on_nothing();
    rooms();
    names();
    records();
    bad_tables();
    most_records();
    most_bytes();
    walking();
    integers();
    printing();
    printing_every_byte();
    printing_nothing();
    random_changes();
    printf("%zu changes made, %zu refused with no byte changed, %zu lines printed, nothing is off\n", changes, refusals, lines);
    return 0;
}
