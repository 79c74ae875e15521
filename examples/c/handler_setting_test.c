/* The handler's tests of &24 OS_SetVarVal: what it creates, changes and deletes, and what it refuses. */
#include <stdio.h>
#include <string.h>

#include "handler_variables_test.h"

/* New variables come last, under the name as it is given. Each type of value. */
static void creating(void)
{
    static const struct variable_test list[] = {
        IS_SET("a string", 0x24, "New\r", NULL, "a|Jb<65> <farm>\r", 15, 0, "New", 0, ALL "VR\x00\x03\x08" "Newa\nbA Ash"),
        IS_SET("a quoted string", X + 0x24, "nEW ", NULL, "  \" a\"\n", 6, 0, "nEW", 0, ALL "VR\x00\x03\x02" "nEW a"),
        IS_SET("a string of nothing", 0x24, "New\r", NULL, "\r", 0, 0, "New", 0, ALL "VR\x00\x03\x00" "New"),
        IS_SET("an end that is counted", 0x24, "New\r", NULL, "ab\rcd\r", 3, 0, "New", 0, ALL "VR\x00\x03\x02" "Newab"),
        IS_SET("an end before R1+R2", X + 0x24, "New\r", NULL, "ab\ncd\r", 5, 0, "New", 0, ALL "VR\x00\x03\x02" "Newab"),
        IS_SET("a zero byte as the end", 0x24, "New\r", NULL, "ab\0", 2, 0, "New", 0, ALL "VR\x00\x03\x02" "Newab"),
        IS_SET("control characters in a string", 0x24, "New\r", NULL, "\1\x7F\xFF\r", 3, 0, "New", 0,
               ALL "VR\x00\x03\x03" "New\1\x7F\xFF"),
        IS_SET("an integer", X + 0x24, "New\r", NULL, "\x00\x0A\x0D\x80", 4, 1, "New", 1, ALL "VR\x01\x03\x04" "New\x00\x0A\x0D\x80"),
        IS_SET("a macro", 0x24, "New\r", NULL, " <Nobody>|\r", 10, 2, "New", 2, ALL "VR\x02\x03\x0A" "New <Nobody>|"),
        IS_SET("a macro of nothing", X + 0x24, "New\r", NULL, "\n", 0, 2, "New", 2, ALL "VR\x02\x03\x00" "New"),
        IS_SET("an expression", 0x24, "New\r", NULL, "sum*2+year\r", 10, 3, "New", 1, ALL "VR\x01\x03\x04" "New\x01\xFE\xFF\xFF"),
        IS_SET("the lowest number", X + 0x24, "New\r", NULL, "2147483647+1\n", 12, 3, "New", 1,
               ALL "VR\x01\x03\x04" "New\x00\x00\x00\x80"),
        IS_SET("bytes as they are", 0x24, "New\r", NULL, "\"<x>|\0\r\n\xFF", 9, 4, "New", 4, ALL "VR\x00\x03\x09" "New\"<x>|\0\r\n\xFF"),
        IS_SET("no bytes", X + 0x24, "New\r", NULL, "", 0, 4, "New", 4, ALL "VR\x00\x03\x00" "New"),
        IS_SET("some of the bytes", 0x24, "New\r", NULL, "abcdef", 3, 4, "New", 4, ALL "VR\x00\x03\x03" "Newabc"),
        IS_SET("a name of 32 bytes", 0x24, "nnnnnnnnnnnnnnnnnnnnnnnnnnnnnnnn\r", NULL, "", 0, 4, "nnnnnnnnnnnnnnnnnnnnnnnnnnnnnnnn", 4,
               ALL "VR\x00\x20\x00" "nnnnnnnnnnnnnnnnnnnnnnnnnnnnnnnn"),
        IS_SET("a name of the house", 0x24, "yEAR\r", NULL, "1990\r", 4, 3, "Year", 1, ALL "VR\x01\x04\x04" "Year\xC6\x07\x00\x00"),
    };
    RUN_LIST(list);
}

/* A variable that is there keeps its place and its name, and gets the new kind. */
static void changing(void)
{
    static const struct variable_test list[] = {
        IS_SET("a longer string", 0x24, "fARM\r", NULL, "Elm Hill\r", 8, 0, "Farm", 0, "VR\x00\x04\x08" "FarmElm Hill" SUM PAGE LOOP),
        IS_SET("of itself", X + 0x24, "Farm\r", NULL, "<farm> and <farm>\r", 17, 0, "Farm", 0,
               "VR\x00\x04\x0B" "FarmAsh and Ash" SUM PAGE LOOP),
        IS_SET("another kind", 0x24, "sum\r", NULL, "<Farm>\r", 6, 2, "Sum", 2, FARM "VR\x02\x03\x06" "Sum<Farm>" PAGE LOOP),
        IS_SET("a sum of itself", 0x24, "Sum\r", NULL, "Sum + 1\r", 7, 3, "Sum", 1, FARM "VR\x01\x03\x04" "Sum\x1F\xFB\xFF\xFF" PAGE LOOP),
        IS_SET("the first match", X + 0x24, "*\r", NULL, "x", 1, 4, "Farm", 4, "VR\x00\x04\x01" "Farmx" SUM PAGE LOOP),
        IS_SET("a match of the house", 0x24, "*\r", "Farm", "x", 1, 4, "Head", 4, ALL "VR\x00\x04\x01" "Headx"),
        IS_SET("the next match", X + 0x24, "*\r", "HEAD", "x", 1, 4, "Loop", 4, FARM SUM PAGE "VR\x00\x04\x01" "Loopx"),
        IS_SET("the last match", 0x24, "#u#\r", "a", "7\r", 1, 3, "Sum", 1, FARM "VR\x01\x03\x04" "Sum\x07\x00\x00\x00" PAGE LOOP),
        IS_SET("a plain name, R3 at it", X + 0x24, "sum\r", "Sum", "", 0, 4, "Sum", 4, FARM "VR\x00\x03\x00" "Sum" PAGE LOOP),
        IS_SET("a plain name, R3 at another", 0x24, "sum\r", "Zoo", "", 0, 4, "Sum", 4, FARM "VR\x00\x03\x00" "Sum" PAGE LOOP),
        IS_SET("a new name, R3 at another", X + 0x24, "New\r", "Zoo", "", 0, 4, "New", 4, ALL "VR\x00\x03\x00" "New"),
        NOT_SET("no further match", 0x24, "#u#\r", "Sum", "7\r", 1, 3, 10, 0, UNKNOWN),
        NOT_SET("no further match, a bad value", X + 0x24, "*\r", "Year", "|1\r", 2, 0, 10, 0, UNKNOWN),
    };
    RUN_LIST(list);
}

/* Of the machine's own variables alone; R1, at FAR, and R4 are not looked at. */
static void deleting(void)
{
    static const struct variable_test list[] = {
        IS_DELETED("the first", 0x24, "fARM\r", NULL, FAR, 0, "Farm", SUM PAGE LOOP),
        IS_DELETED("one in the middle", X + 0x24, "Sum ", NULL, BIT_31, 16, "Sum", FARM PAGE LOOP),
        IS_DELETED("the last", 0x24, "Loop\r", NULL, FAR, 99, "Loop", FARM SUM PAGE),
        IS_DELETED("a match", X + 0x24, "*\r", NULL, FAR, 3, "Farm", SUM PAGE LOOP),
        IS_DELETED("the next, not the house's", 0x24, "*\r", "Farm", FAR, 0, "Loop", FARM SUM PAGE),
        IS_DELETED("after a name that is gone", X + 0x24, "*\r", "Gone", FAR, 0, "Loop", FARM SUM PAGE),
        IS_DELETED("the last match", 0x24, "*\r", "Page", FAR, 0, "Sum", FARM PAGE LOOP),
        IS_DELETED("a plain name, R3 at it", X + 0x24, "sum\r", "Sum", FAR, 0, "Sum", FARM PAGE LOOP),
        NOT_SET("no further match to delete", 0x24, "*\r", "Sum", "", FAR, 0, 10, 0, UNKNOWN),
        NOT_SET("none to delete", X + 0x24, "Barn\r", NULL, "", FAR, 0, 10, 0, UNKNOWN),
        NOT_SET("one of the house", 0x24, "Year\r", NULL, "", FAR, 0, 10, 0, UNKNOWN),
        NOT_SET("a match of the house alone", X + 0x24, "Y*\r", NULL, "", BIT_31, 0, 10, 0, UNKNOWN),
        NOT_SET("no name to delete", 0x24, "\r", NULL, "", FAR, 0, 10, 0, UNKNOWN),
    };
    RUN_LIST(list);
}

/* A name that the host has given wildcards is matched like any other, and may come before the one of R3. */
static void starred_names(void)
{
    static const struct variable_test list[] = {
        NOT_SET("no match after a starred name", 0x24, "a*\r", "a*", "", FAR, 0, 10, 0, UNKNOWN),
        NOT_SET("none to be changed after it", X + 0x24, "a*\r", "a*", "x\r", 1, 0, 10, 0, UNKNOWN),
        IS_DELETED("the starred name", 0x24, "a*\r", NULL, FAR, 0, "a*", ALL),
    };
    begin();
    check(table_set_string(&own, "a*", "").number == NOS_ACCEPTED, "the test itself", "the variable is set");
    for (size_t i = 0; i < sizeof list / sizeof list[0]; i++) lay_and_run(&list[i], i == 1);
}

/* Types, names and values that are none, and which comes first. */
static void bad_settings(void)
{
    static const struct variable_test list[] = {
        NOT_SET("type 5", 0x24, "New\r", NULL, "1\r", 1, 5, BAD_TYPE, 0, "Bad variable type"),
        NOT_SET("a code variable", X + 0x24, "New\r", NULL, "1\r", 1, 16, BAD_TYPE, 0, "Bad variable type"),
        NOT_SET("the largest type, a bad name", 0x24, "<\r", NULL, "1\r", 1, FAR, BAD_TYPE, 0, "Bad variable type"),
        NOT_SET("a type before a value", X + 0x24, "New\r", NULL, "1\r", 0x7FFFFFFF, 5, BAD_TYPE, 0, "Bad variable type"),
        NOT_SET("an integer of 3 bytes", 0x24, "New\r", NULL, "\1\2\3\4", 3, 1, BAD_TYPE, 0, "Bad variable type"),
        NOT_SET("an integer of 5", X + 0x24, "Sum\r", NULL, "\1\2\3\4\5", 5, 1, BAD_TYPE, 0, "Bad variable type"),
        NOT_SET("an integer of none", 0x24, "Sum\r", NULL, "\1\2\3\4", 0, 1, BAD_TYPE, 0, "Bad variable type"),
        NOT_SET("an integer of 260", X + 0x24, "Sum\r", NULL, "\1\2\3\4", 260, 1, BAD_TYPE, 0, "Bad variable type"),
        NOT_SET("a bad name, a short integer", 0x24, "a\"\r", NULL, "\1\2\3\4", 3, 1, BAD_NAME, 0, "Bad name"),
        NOT_SET("wildcards that match nothing", X + 0x24, "z*\r", NULL, "x\r", 1, 0, BAD_NAME, 0, "Bad name"),
        NOT_SET("a byte for any that is not there", 0x24, "New#\r", NULL, "x\r", 1, 2, BAD_NAME, 0, "Bad name"),
        NOT_SET("no name", 0x24, "\r", NULL, "x\r", 1, 0, BAD_NAME, 0, "Bad name"),
        NOT_SET("a quote in a name", X + 0x24, "a\"\r", NULL, "x\r", 1, 0, BAD_NAME, 0, "Bad name"),
        NOT_SET("a bracket in a name", 0x24, "<a>\r", NULL, "|1\r", 2, 0, BAD_NAME, 0, "Bad name"),
        NOT_SET("a byte over 126 in a name", X + 0x24, "a\x7F\r", NULL, "x\r", 1, 3, BAD_NAME, 0, "Bad name"),
        NOT_SET("a name of 33 bytes", 0x24, "nnnnnnnnnnnnnnnnnnnnnnnnnnnnnnnnn\r", NULL, "x", 1, 4, BAD_NAME, 0, "Bad name"),
        NOT_SET("a string that goes on", 0x24, "New\r", NULL, "abc\r", 2, 0, BAD_VALUE, 0, "Bad string"),
        NOT_SET("a string of nothing that goes on", X + 0x24, "New\r", NULL, "abc\r", 0, 0, BAD_VALUE, 0, "Bad string"),
        NOT_SET("a macro that goes on", 0x24, "New\r", NULL, "abc\r", 2, 2, BAD_VALUE, 0, "Bad macro value"),
        NOT_SET("an expression that goes on", X + 0x24, "New\r", NULL, "123\r", 2, 3, BAD_VALUE, 0, "Bad expression"),
        NOT_SET("the same, a bad name", 0x24, "a\"\r", NULL, "123\r", 2, 3, BAD_VALUE, 0, "Bad expression"),
    };
    RUN_LIST(list);
}

/* Whatever cannot be translated or evaluated has one message, and its own number. */
static void bad_texts(void)
{
    static const struct variable_test list[] = {
        NOT_SET("a bad code", 0x24, "New\r", NULL, "a|1\r", 3, 0, 7, 0, "Bad string"),
        NOT_SET("an open quote", X + 0x24, "New\r", NULL, "\"a\r", 2, 0, 8, 0, "Bad string"),
        NOT_SET("an open reference", 0x24, "Farm\r", NULL, "a<\r", 2, 0, 9, 0, "Bad string"),
        NOT_SET("a large number", X + 0x24, "New\r", NULL, "<4294967296>\r", 12, 0, 4, 0, "Bad string"),
        NOT_SET("a code over 255", 0x24, "New\r", NULL, "<256>\r", 5, 0, 21, 0, "Bad string"),
        NOT_SET("an unknown name", 0x24, "New\r", NULL, "<New>\r", 5, 0, 10, 0, "Bad string"),
        NOT_SET("a macro in itself", X + 0x24, "Farm\r", NULL, "<loop>\r", 6, 0, 11, 0, "Bad string"),
        NOT_SET("no expression", 0x24, "New\r", NULL, "\r", 0, 3, 15, 0, "Bad expression"),
        NOT_SET("an expression with a string", X + 0x24, "New\r", NULL, "\"HI\"\r", 4, 3, 15, 0, "Bad expression"),
        NOT_SET("over zero", 0x24, "New\r", NULL, "1/0\r", 3, 3, 16, 0, "Bad expression"),
        NOT_SET("no digit", X + 0x24, "New\r", NULL, "&\r", 1, 3, 2, 0, "Bad expression"),
        NOT_SET("a bad base", 0x24, "New\r", NULL, "37_1\r", 4, 3, 3, 0, "Bad expression"),
        NOT_SET("over 32 bits", X + 0x24, "New\r", NULL, "4294967296\r", 10, 3, 4, 0, "Bad expression"),
        NOT_SET("an unknown name in it", 0x24, "New\r", NULL, "New+1\r", 5, 3, 10, 0, "Bad expression"),
        NOT_SET("a string variable", X + 0x24, "Sum\r", NULL, "farm+1\r", 6, 3, 17, 0, "Bad expression"),
        NOT_SET("17 brackets", 0x24, "New\r", NULL, "(((((((((((((((((1\r", 18, 3, 11, 0, "Bad expression"),
    };
    static const struct variable_test spent[] = {
        NOT_SET("two look-ups of one", 0x24, "New\r", NULL, "<year><year>\r", 12, 0, 12, 0, "Bad string"),
        NOT_SET("two look-ups of one", X + 0x24, "New\r", NULL, "year+year\r", 9, 3, 12, 0, "Bad expression"),
        IS_SET("one of one", 0x24, "New\r", NULL, "<year>\r", 6, 0, "New", 0, ALL "VR\x00\x03\x04" "New1989"),
    };
    RUN_LIST(list);
    for (size_t i = 0; i < 3; i++) {
        begin();
        machine.allowance = 1;
        lay_and_run(&spent[i], false);
    }
}

/* Every control character but the three that end a string: bad in a macro alone. */
static void control_characters(void)
{
    static const struct variable_test bad = NOT_SET("a control character in a macro", 0x24, "New\r", NULL, "a?b\r", 3, 2, BAD_VALUE, 0,
                                                    "Bad macro value");
    static const struct variable_test ended = IS_SET("an end in a macro", X + 0x24, "New\r", NULL, "a?b\r", 3, 2, "New", 2,
                                                     ALL "VR\x02\x03\x01" "Newa");
    static const struct variable_test others[] = {
        IS_SET("a space in a macro", 0x24, "New\r", NULL, "a b\r", 3, 2, "New", 2, ALL "VR\x02\x03\x03" "Newa b"),
        IS_SET("a byte of 128 in a macro", 0x24, "New\r", NULL, "a\x80z\r", 3, 2, "New", 2, ALL "VR\x02\x03\x03" "Newa\x80z"),
        IS_SET("a byte of 255 in a macro", 0x24, "New\r", NULL, "a\xFFz\r", 3, 2, "New", 2, ALL "VR\x02\x03\x03" "Newa\xFFz"),
    };
    for (unsigned byte = 0; byte < 128; byte += byte == 31 ? 96 : 1) {
        const struct variable_test *variable = byte == 0 || byte == 10 || byte == 13 ? &ended : &bad;
        uint8_t control = (uint8_t)byte;
        begin();
        lay(variable);
        add(VALUE + 1, &control, 1);
        run_laid(variable, 0, true);
    }
    RUN_LIST(others);
}

/* Values at memory's end, and beyond. */
static void set_at_the_end(void)
{
    static const struct variable_test list[] = {
        {NULL, NULL, 0, 4, 4, "ab", ALL "VR\x00\x02\x03" "abab\r", OWN + 10,
         {"name and value in the last bytes", 0x24, "ab\r", SIZE - 3, SIZE - 3, SIZE - 3, 3, DONE, SIZE - 3, SIZE - 3, 3, 0, NULL, 0, 0}},
        {NULL, NULL, 0, 0, 0, "ab", ALL "VR\x00\x02\x02" "abab", OWN + 9,
         {"the same, a string", X + 0x24, "ab\r", SIZE - 3, SIZE - 3, SIZE - 3, 2, DONE, SIZE - 3, SIZE - 3, 2, 0, NULL, 0, 0}},
        {NULL, NULL, 0, 0, 0, "ab", ALL "VR\x00\x02\x02" "abab", OWN + 9,
         {"one that ends before", 0x24, "ab\r", SIZE - 3, SIZE - 3, SIZE - 3, 99, DONE, SIZE - 3, SIZE - 3, 99, 0, NULL, 0, 0}},
        {NULL, NULL, 0, 4, 4, "ab", ALL "VR\x00\x02\x00" "ab", OWN + 7,
         {"no bytes at the end", X + 0x24, "ab\r", TEXT, TEXT, SIZE, 0, DONE, TEXT, SIZE, 0, 0, NULL, 0, 0}},
        NO_MEMORY("bytes that end behind them", 0x24, "ab\r", SIZE - 3, SIZE - 3, SIZE - 3, 4, 4),
        NO_MEMORY("an integer that does", X + 0x24, "ab\r", SIZE - 3, SIZE - 3, SIZE - 3, 4, 1),
        NO_MEMORY("a string that does", 0x24, "ab\r", SIZE - 3, SIZE - 3, SIZE, 0, 0),
        NO_MEMORY("a macro that does", X + 0x24, "ab\r", SIZE - 3, SIZE - 3, SIZE + 1, 0, 2),
        NO_MEMORY("an expression that does", 0x24, "ab\r", SIZE - 3, SIZE - 3, FAR, 1, 3),
        NO_MEMORY("bytes that wrap around", X + 0x24, "ab\r", TEXT, TEXT, FAR, 8, 4),
        NO_MEMORY("a name that memory cuts off", 0x24, "ab", SIZE - 2, SIZE - 2, VALUE, 0, 4),
        NO_MEMORY("the same, a bad type", X + 0x24, "ab", SIZE - 2, SIZE - 2, VALUE, 0, 16),
        NO_MEMORY("the same, to be deleted", 0x24, "ab", SIZE - 2, SIZE - 2, VALUE, FAR, 0),
        NO_MEMORY("a name behind memory", X + 0x24, NULL, 0, SIZE, VALUE, 0, 4),
    };
    RUN_LIST(list);
    static const struct variable_test cut = NO_MEMORY("a string that memory cuts off", 0x24, "a\r", TEXT, TEXT, SIZE - 2, 2, 0);
    begin();
    lay(&cut);
    add(SIZE - 2, "ab", 2);
    run_laid(&cut, 0, true);
}

/* A call whose value is so many letters v and a return, from BUFFER on. */
static void run_long(const struct test *test, uint32_t r4, uint32_t length, const char *own_after, size_t own_length)
{
    bool is_set = own_after != NULL;
    const struct variable_test variable = {NULL, NULL, 0, r4, r4, is_set ? "v" : NULL, own_after, own_length, *test};
    begin();
    lay(&variable);
    memset(memory + BUFFER, 'v', length);
    memory[BUFFER + length] = '\r';
    add(BUFFER, memory + BUFFER, length + 1);
    run_laid(&variable, 0, true);
}

/* 255 bytes and no more, by the three types that copy or translate; texts that are too long to be read. */
static void long_values(void)
{
    static const uint32_t types[] = {0, 2, 4};
    static char after[OWN + 6 + 255];
    memcpy(after, own_bytes, OWN);
    memset(after + OWN, 'v', 6 + 255);
    for (size_t i = 0; i < 3; i++) {
        const struct test longest = {"a value of 255 bytes", 0x24, "v\r", TEXT, TEXT, BUFFER, 255, DONE, TEXT, BUFFER, 255, 0, NULL, 0, 0};
        const struct test longer = FAILS("a value of 256", X + 0x24, "v\r", TEXT, TEXT, BUFFER, 256, VALUE_TOO_LONG, 0,
                                         "Variable value too long");
        const char head[] = {86, 82, (char)(types[i] == 2 ? 2 : 0), 1, (char)255};
        memcpy(after + OWN, head, 5);
        run_long(&longest, types[i], 255, after, sizeof after);
        run_long(&longer, types[i], 256, NULL, 0);
    }
    static const struct test most = FAILS("65,535 bytes of string", 0x24, "v\r", TEXT, TEXT, BUFFER, NOS_LONGEST, VALUE_TOO_LONG, 0,
                                          "Variable value too long");
    static const struct test more = FAILS("65,536 bytes of string", X + 0x24, "v\r", TEXT, TEXT, BUFFER, NOS_LONGEST + 1, 18, 0, LONG);
    static const struct test sum = FAILS("65,536 bytes of expression", 0x24, "v\r", TEXT, TEXT, BUFFER, NOS_LONGEST + 1, 18, 0, LONG);
    static const struct test bytes = FAILS("65,536 bytes as they are", X + 0x24, "v\r", TEXT, TEXT, BUFFER, NOS_LONGEST + 1,
                                           VALUE_TOO_LONG, 0, "Variable value too long");
    run_long(&most, 0, NOS_LONGEST, NULL, 0);
    run_long(&more, 0, NOS_LONGEST + 1, NULL, 0);
    run_long(&sum, 3, NOS_LONGEST + 1, NULL, 0);
    run_long(&bytes, 4, NOS_LONGEST + 1, NULL, 0);
}

/* A table in a buffer that is too small, or just large enough; the host finds the need. */
static void rooms(void)
{
    static const struct { size_t room; struct variable_test variable; } list[] = {
        {OWN + 9, NOT_SET("one byte too few", 0x24, "New\r", NULL, "ab", 2, 4, 1, OWN + 10, "No room for variable")},
        {OWN + 10, IS_SET("just enough", X + 0x24, "New\r", NULL, "ab", 2, 4, "New", 4, ALL "VR\x00\x03\x02" "Newab")},
        {OWN, NOT_SET("no room for one byte more", X + 0x24, "Farm\r", NULL, "Ashy\r", 4, 0, 1, OWN + 1, "No room for variable")},
        {OWN, IS_SET("the same length", 0x24, "Farm\r", NULL, "Elm\r", 3, 0, "Farm", 0, "VR\x00\x04\x03" "FarmElm" SUM PAGE LOOP)},
        {OWN, NOT_SET("a long value, no room", 0x24, "New\r", NULL, "a|1\r", 3, 0, 7, 0, "Bad string")},
        {OWN, IS_DELETED("none needed", X + 0x24, "Farm\r", NULL, FAR, 0, "Farm", SUM PAGE LOOP)},
    };
    for (size_t i = 0; i < sizeof list / sizeof list[0]; i++) {
        begin();
        own.room = list[i].room;
        lay_and_run(&list[i].variable, i % 2 == 0);
    }
}

/* Tables that can have no more, whatever their room. */
static void full_tables(void)
{
    static const struct variable_test full = NOT_SET("a 257th variable", 0x24, "New\r", NULL, "", 0, 4, TABLE_FULL, 0,
                                                     "No room for variable");
    begin();
    for (unsigned i = 4; i < 256; i++) {
        char name[24];
        snprintf(name, sizeof name, "n%03u", i);
        check(table_set_string(&own, name, "").number == NOS_ACCEPTED, "the test itself", "256 variables");
    }
    lay_and_run(&full, true);
}

/* 65,535 bytes of table, of which 63 are left for the last variable, and one more. */
static void largest_tables(void)
{
    static uint8_t value[255];
    static char after[NOS_LONGEST];
    static const char letters[] = "abcdefghijklmnopqrstuvwxyzabcdefghijklmnopqrstuvwxyzabc";
    struct variable_test enough = IS_SET("65,535 bytes of table", 0x24, "Last\r", NULL, letters, 54, 4, "Last", 4, "");
    const struct variable_test more = NOT_SET("65,536 bytes of table", X + 0x24, "Last\r", NULL, letters, 55, 4, TABLE_FULL, 0,
                                              "No room for variable");
    begin();
    own.length = 0;
    for (unsigned i = 0; i < 248; i++) {
        char name[24];
        snprintf(name, sizeof name, "n%03u", i);
        const struct table_variable variable = {NOS_STRING, (const uint8_t *)name, 4, value, sizeof value, 0};
        check(table_set(&own, &variable).number == NOS_ACCEPTED, "the test itself", "248 variables of 264 bytes");
    }
    memcpy(after, own.bytes, own.length);
    memcpy(after + own.length, "VR\x00\x04\x36" "Last", 9);
    memcpy(after + own.length + 9, letters, 54);
    enough.own = after;
    enough.own_length = sizeof after;
    lay_and_run(&more, true);
    lay_and_run(&enough, false);
    lay_and_run(&more, true);
}

/* Over tables that are refused. Where a variable is deleted, the house's table is not read. */
static void tables(void)
{
    static const struct variable_test refused[] = {
        NOT_SET("over bad tables", 0x24, "Farm\r", NULL, "a\r", 1, 0, 0, 0, ""),
        NOT_SET("over bad tables, wildcards", X + 0x24, "*\r", NULL, "a", 1, 4, 0, 0, ""),
        NOT_SET("over bad tables, no match", 0x24, "z*\r", NULL, "a\r", 1, 2, 0, 0, ""),
        NOT_SET("over bad tables, a bad string", X + 0x24, "New\r", NULL, "|1\r", 2, 0, 0, 0, ""),
    };
    static const struct variable_test deleted = IS_DELETED("over a bad house", 0x24, "Farm\r", NULL, FAR, 0, "Farm", SUM PAGE LOOP);
    static const struct variable_test not_deleted = {
        NULL, NULL, 0, 0, 0, NULL, NULL, 0,
        {"to be deleted from a bad table", X + 0x24, "Farm\r", TEXT, TEXT, VALUE, FAR,
         FAILED(X + 0x24, 13, NOS_IN_THE_FARM, 0, "Bad table"), 0, 0, 0, 0, NULL, 0, 0}};
    for (size_t i = 0; i < sizeof refused / sizeof refused[0]; i++) run_over_bad_tables(&refused[i]);
    begin();
    machine.house_length = SHARED - 1;
    lay_and_run(&deleted, true);
    begin();
    own.length = OWN - 1;
    lay_and_run(&not_deleted, false);
}

/* A machine without a table of its own can set nothing. */
static void no_table(void)
{
    static const struct variable_test list[] = {
        NOT_SET("no table of its own", 0x24, "New\r", NULL, "ab", 2, 4, 1, 10, "No room for variable"),
        NOT_SET("no table, a name of the house", X + 0x24, "Year\r", NULL, "7\r", 1, 3, 1, 13, "No room for variable"),
        NOT_SET("no table to delete from", 0x24, "Year\r", NULL, "", FAR, 0, 10, 0, UNKNOWN),
    };
    for (size_t i = 0; i < 3; i++) {
        begin();
        machine.farm = NULL;
        lay_and_run(&list[i], i == 1);
    }
}

/* R3 that is no name of memory: wildcards need one, a plain name does not. */
static void contexts(void)
{
    static const struct variable_test list[] = {
        NO_MEMORY("R3 far behind memory, to be set", X + 0x24, "F*\r", TEXT, TEXT, VALUE, 0, 4),
        NO_MEMORY("R3 far behind it, to be deleted", 0x24, "F*\r", TEXT, TEXT, VALUE, FAR, 0),
        IS_SET("the same, a plain name set", 0x24, "Sum\r", NULL, "", 0, 4, "Sum", 4, FARM "VR\x00\x03\x00" "Sum" PAGE LOOP),
        IS_SET("the same, a new one", X + 0x24, "New\r", NULL, "", 0, 4, "New", 4, ALL "VR\x00\x03\x00" "New"),
        IS_DELETED("the same, a plain name deleted", X + 0x24, "Sum\r", NULL, FAR, 0, "Sum", FARM PAGE LOOP),
    };
    for (size_t i = 0; i < sizeof list / sizeof list[0]; i++) {
        begin();
        lay(&list[i]);
        run_laid(&list[i], FAR, i % 2 == 0);
    }
}

/* What is set is read, translated and evaluated; what is deleted shows the house's again. */
static void one_after_the_other(void)
{
#define ELM "VR\x00\x04\x03" "FarmElm"
#define SEVEN "VR\x01\x03\x04" "Sum\x07\x00\x00\x00"
    static const struct variable_test list[] = {
        IS_SET("set, then read", 0x24, "farm\r", NULL, "Elm\r", 3, 0, "Farm", 0, ELM SUM PAGE LOOP),
        FOUND("the macro of the house with it", 0x23, "Head\r", NULL, 64, 3, "Head", 2, "Elm!"),
        IS_SET("a number set", X + 0x24, "sum\r", NULL, "7\r", 1, 3, "Sum", 1, ELM SEVEN PAGE LOOP),
        {NULL, NULL, 0, 0, 0, NULL, NULL, 0,
         {"both translated", 0x27, "<Head><Sum>\r", TEXT, TEXT, BUFFER, 64, DONE, TEXT + 12, BUFFER, 5, 0, "Elm!7\r", BUFFER, 6}},
        {NULL, NULL, 0, 0, 0, NULL, NULL, 0,
         {"and evaluated", 0x2D, "year+sum\r", TEXT, TEXT, BUFFER, 64, DONE, TEXT, 0, 1996, 0, NULL, 0, 0}},
        IS_DELETED("deleted", 0x24, "F*\r", NULL, FAR, 0, "Farm", SEVEN PAGE LOOP),
        FOUND("the house's again", X + 0x23, "F*\r", NULL, 64, 0, "Farm", 0, "?"),
        NOT_SET("not to be deleted", 0x24, "F*\r", NULL, "", FAR, 0, 10, 0, UNKNOWN),
    };
    begin();
    for (size_t i = 0; i < sizeof list / sizeof list[0]; i++) lay_and_run(&list[i], i % 2 == 0);
}

/* A name may be a number. It is set and read like any other, but in a reference it is that number. */
static void numbers_for_names(void)
{
#define NUMBERED ALL "VR\x00\x03\x01" "256x"
    static const struct variable_test list[] = {
        IS_SET("a number for a name", 0x24, "256\r", NULL, "x\r", 1, 0, "256", 0, NUMBERED),
        FOUND("the same read", X + 0x23, "256\r", NULL, 64, 3, "256", 0, "x"),
        NOT_READ("the same in a reference", 0x27, "<256>\r", NULL, 64, 0, 21, 0, "Code over 255"),
        IS_SET("the same in a macro", X + 0x24, "m\r", NULL, "<256>\r", 5, 2, "m", 2, NUMBERED "VR\x02\x01\x05" "m<256>"),
        NOT_READ("that macro", X + 0x27, "a<m>\r", NULL, 64, 0, 21, 0, "Code over 255"),
    };
    begin();
    for (size_t i = 0; i < sizeof list / sizeof list[0]; i++) lay_and_run(&list[i], i % 2 == 0);
}

/* A program that hands R3 on from call to call deletes each of its own variables once, in the order of names. */
static void deleting_all(void)
{
    static const char *const names[] = {"Farm", "Loop", "Page", "Sum"};
    struct registers registers = {{TEXT, FAR, FAR, 0}, false, false};
    begin();
    lay_out("*\r", TEXT);
    for (size_t i = 0; i < 4; i++) {
        check(handle_swi(&machine, X + 0x24, &registers).ending == SERVED, names[i], "the variable is deleted");
        check(registers.r[3] == NAMES && strcmp((const char *)memory + NAMES, names[i]) == 0, names[i], "its name");
    }
    check(handle_swi(&machine, X + 0x24, &registers).ending == RETURNED && own.length == 0, "the end", "the loop ends in an error");
    puts("&20024 in a loop: Farm Loop Page Sum deleted, and then an error");
}

void setting(void)
{
    creating();
    changing();
    deleting();
    starred_names();
    bad_settings();
    bad_texts();
    control_characters();
    set_at_the_end();
    long_values();
    rooms();
    full_tables();
    largest_tables();
    tables();
    no_table();
    contexts();
    one_after_the_other();
    numbers_for_names();
    deleting_all();
}
