/* The handler's tests of &23 OS_ReadVarVal, and the paper on which they and those of &24 keep the machine's own table. */
#include <stdio.h>
#include <string.h>

#include "handler_variables_test.h"

static uint8_t paper[MARGIN + PAPER + MARGIN], paper_before[sizeof paper];
struct table own;
struct machine machine;

void begin(void)
{
    machine = usual;
    machine.farm = &own;
    for (size_t i = 0; i < sizeof paper; i++) paper[i] = (uint8_t)(0x80 + i % 109);
    memcpy(paper + MARGIN, own_bytes, OWN);
    own = table_make(paper + MARGIN, PAPER);
    own.length = OWN;
}

void lay(const struct variable_test *variable)
{
    lay_out(variable->test.text, variable->test.text_at);
    if (variable->before != NULL) add(NAMES, variable->before, strlen(variable->before) + 1);
    if (variable->value_length > 0) add(VALUE, variable->value, variable->value_length);
}

/* The table on the paper is this one, and every byte that was in no table, before the call or after it, is as it was. */
static void check_own(const char *what, const void *bytes, size_t length, size_t length_before)
{
    size_t rest = MARGIN + (length > length_before ? length : length_before);
    check(own.length == length && memcmp(paper + MARGIN, bytes, length) == 0, what, "the machine's own table");
    check(memcmp(paper, paper_before, MARGIN) == 0, what, "the bytes before it are as they were");
    check(memcmp(paper + rest, paper_before + rest, sizeof paper - rest) == 0, what, "the bytes after it are as they were");
}

void run_laid(const struct variable_test *variable, uint32_t r3, bool carry)
{
    bool finds = variable->found != NULL;
    struct more more = {r3, variable->r4, finds ? machine.name_at : r3, finds ? variable->out4 : variable->r4, variable->found};
    size_t length_before = own.length;
    memcpy(paper_before, paper, sizeof paper);
    run_with(&machine, &variable->test, &more, carry);
    if (variable->own != NULL)
        check_own(variable->test.what, variable->own, variable->own_length, length_before);
    else
        check(own.length == length_before && memcmp(paper, paper_before, sizeof paper) == 0, variable->test.what, "no table has changed");
}

void lay_and_run(const struct variable_test *variable, bool carry)
{
    lay(variable);
    run_laid(variable, variable->before != NULL ? NAMES : 0, carry);
}

void run_list(const struct variable_test *list, size_t count)
{
    for (size_t i = 0; i < count; i++) {
        begin();
        lay_and_run(&list[i], i % 2 == 0);
    }
}

void run_over_bad_tables(const struct variable_test *variable)
{
    static const struct { size_t own_length, house_length; struct served served; } bad[] = {
        {OWN - 1, SHARED, FAILED(0, 13, NOS_IN_THE_FARM, 0, "Bad table")},
        {OWN, SHARED - 1, FAILED(0, 13, NOS_IN_THE_HOUSE, 0, "Bad table")},
        {OWN - 1, SHARED - 1, FAILED(0, 13, NOS_IN_THE_FARM, 0, "Bad table")},
        {sizeof too_long, SHARED - 1, FAILED(0, 18, NOS_IN_THE_FARM, 0, LONG)},
        {OWN - 1, sizeof too_long, FAILED(0, 18, NOS_IN_THE_HOUSE, 0, LONG)},
    };
    for (size_t i = 0; i < sizeof bad / sizeof bad[0]; i++) {
        struct variable_test over = *variable;
        over.test.served = bad[i].served;
        if (over.test.swi & X) over.test.served.ending = RETURNED;
        begin();
        own.length = bad[i].own_length;
        machine.house_length = bad[i].house_length;
        if (machine.house_length > SHARED) machine.house = too_long;
        lay_and_run(&over, i % 2 == 0);
    }
}

static void values(void)
{
    static const struct variable_test list[] = {
        FOUND("a string", 0x23, "Farm\r", NULL, 64, 0, "Farm", 0, "Ash"),
        FOUND("a string expanded", X + 0x23, "Farm ", NULL, 64, 3, "Farm", 0, "Ash"),
        FOUND("other letters", 0x23, "fARM\n", NULL, 64, 0, "Farm", 0, "Ash"),
        FOUND("an integer", X + 0x23, "Sum\r", NULL, 64, 0, "Sum", 1, "\x1E\xFB\xFF\xFF"),
        FOUND("an integer, another R4", 0x23, "Sum\r", NULL, 64, 16, "Sum", 1, "\x1E\xFB\xFF\xFF"),
        FOUND("an integer expanded", 0x23, "sum\r", NULL, 64, 3, "Sum", 1, "-1250"),
        FOUND("a macro", 0x23, "Page\r", NULL, 64, 2, "Page", 2, "<Year>"),
        FOUND("a macro expanded", X + 0x23, "Page\r", NULL, 64, 3, "Page", 2, "1989"),
        FOUND("a macro of the house", 0x23, "head\r", NULL, 64, 4, "Head", 2, "<Farm>!"),
        FOUND("the same expanded", X + 0x23, "HEAD\r", NULL, 64, 3, "Head", 2, "Ash!"),
        FOUND("an integer of the house", 0x23, "Year\r", NULL, 64, 0xAB04, "Year", 1, "\xC5\x07\x00\x00"),
        FOUND("the same expanded", X + 0x23, "Year\r", NULL, 64, 3, "Year", 1, "1989"),
        FOUND("just enough, a string", 0x23, "Farm\r", NULL, 3, 0, "Farm", 0, "Ash"),
        FOUND("just enough, an integer", 0x23, "Sum\r", NULL, 4, 0, "Sum", 1, "\x1E\xFB\xFF\xFF"),
        FOUND("just enough, its digits", 0x23, "Sum\r", NULL, 5, 3, "Sum", 1, "-1250"),
        FOUND("just enough, a macro", 0x23, "Page\r", NULL, 6, 0, "Page", 2, "<Year>"),
        FOUND("just enough, its translation", X + 0x23, "Head\r", NULL, 4, 3, "Head", 2, "Ash!"),
        NOT_READ("too short, a string", 0x23, "Farm\r", NULL, 2, 0, 1, 3, "Buffer overflow"),
        NOT_READ("too short, an integer", X + 0x23, "Sum\r", NULL, 3, 0, 1, 4, "Buffer overflow"),
        NOT_READ("too short, its digits", 0x23, "Sum\r", NULL, 4, 3, 1, 5, "Buffer overflow"),
        NOT_READ("too short, a macro", X + 0x23, "Page\r", NULL, 5, 0, 1, 6, "Buffer overflow"),
        NOT_READ("too short, its translation", 0x23, "Head\r", NULL, 3, 3, 1, 4, "Buffer overflow"),
        NOT_READ("no buffer", X + 0x23, "Farm\r", NULL, 0, 0, 1, 3, "Buffer overflow"),
        FOUND("a macro in itself", 0x23, "Loop\r", NULL, 64, 0, "Loop", 2, "<Loop>"),
        NOT_READ("the same expanded", 0x23, "Loop\r", NULL, 64, 3, 11, 0, "Bad string"),
        NOT_READ("the same, no buffer", X + 0x23, "Loop\r", NULL, 0, 3, 11, 0, "Bad string"),
        NOT_READ("no such variable", 0x23, "Barn\r", NULL, 64, 0, 10, 0, UNKNOWN),
        NOT_READ("no such variable, no buffer", X + 0x23, "Barn\r", NULL, 0, 3, 10, 0, UNKNOWN),
        NOT_READ("a beginning of a name", X + 0x23, "Far\r", NULL, 64, 0, 10, 0, UNKNOWN),
        NOT_READ("a name and more", 0x23, "Farm!\r", NULL, 64, 0, 10, 0, UNKNOWN),
        NOT_READ("no name", 0x23, "\rFarm", NULL, 64, 0, 10, 0, UNKNOWN),
        NOT_READ("spaces before a name", X + 0x23, " Farm\r", NULL, 64, 0, 10, 0, UNKNOWN),
    };
    RUN_LIST(list);
}

/* R2 asks. The buffer, at FAR, is not looked at, and nothing is expanded. */
static void asking(void)
{
    static const struct variable_test list[] = {
        IS_THERE("is it there", 0x23, "farm\r", NULL, FAR, 0, "Farm", 0),
        IS_THERE("is it there", X + 0x23, "Year\r", NULL, BIT_31, 3, "Year", 1),
        IS_THERE("a macro in itself is there", 0x23, "Loop\r", NULL, FAR, 3, "Loop", 2),
        IS_THERE("one of these is there", X + 0x23, "*a*\r", NULL, FAR, 0, "Farm", 0),
        IS_THERE("the next of these is there", 0x23, "*a*\r", "Farm", FAR, 0, "Head", 2),
        IS_NOT("it is not there", 0x23, "Barn\r", NULL, FAR, 0),
        IS_NOT("it is not there", X + 0x23, "Barn\r", NULL, BIT_31, 3),
        IS_NOT("none of these is there", 0x23, "z*\r", NULL, FAR, 0),
        IS_NOT("no further one is there", X + 0x23, "*a*\r", "Year", FAR, 0),
        IS_NOT("no further one of a plain name", 0x23, "farm\r", "Farm", FAR, 0),
        IS_NOT("no name", X + 0x23, "\r", NULL, FAR, 0),
    };
    RUN_LIST(list);
}

/* Names in their order, whatever table they are of: Farm, Head, Loop, Page, Sum, Year. */
static void wildcards(void)
{
    static const struct variable_test list[] = {
        FOUND("the first of all", 0x23, "*\r", NULL, 64, 0, "Farm", 0, "Ash"),
        FOUND("the second", X + 0x23, "*\r", "Farm", 64, 0, "Head", 2, "<Farm>!"),
        FOUND("the third", 0x23, "*\r", "Head", 64, 0, "Loop", 2, "<Loop>"),
        FOUND("the fourth", X + 0x23, "*\r", "lOOP", 64, 0, "Page", 2, "<Year>"),
        FOUND("the fifth", 0x23, "*\r", "Page", 64, 0, "Sum", 1, "\x1E\xFB\xFF\xFF"),
        FOUND("the last", X + 0x23, "*\r", "SUM", 64, 3, "Year", 1, "1989"),
        NOT_READ("and no more", X + 0x23, "*\r", "Year", 64, 0, 10, 0, UNKNOWN),
        FOUND("after a name that is not there", 0x23, "*\r", "G", 64, 3, "Head", 2, "Ash!"),
        FOUND("after a longer one", 0x23, "*\r", "FarmX", 64, 3, "Head", 2, "Ash!"),
        FOUND("after a shorter one", X + 0x23, "*\r", "Far", 64, 0, "Farm", 0, "Ash"),
        FOUND("after none, R3 pointing to its end", 0x23, "*\r", "", 64, 0, "Farm", 0, "Ash"),
        NOT_READ("after all", 0x23, "*\r", "Zoo", 64, 0, 10, 0, UNKNOWN),
        FOUND("a byte each", 0x23, "###\r", NULL, 64, 3, "Sum", 1, "-1250"),
        FOUND("of an ending", X + 0x23, "*R\r", NULL, 64, 3, "Year", 1, "1989"),
        FOUND("of a beginning", 0x23, "p* ", NULL, 64, 0, "Page", 2, "<Year>"),
        FOUND("of a middle", 0x23, "#oo#\r", NULL, 64, 0, "Loop", 2, "<Loop>"),
        NOT_READ("one byte too many", X + 0x23, "Farm#\r", NULL, 64, 0, 10, 0, UNKNOWN),
        FOUND("no byte for a star", 0x23, "Farm*\r", NULL, 64, 0, "Farm", 0, "Ash"),
        NOT_READ("of nothing", 0x23, "*x*\r", NULL, 64, 0, 10, 0, UNKNOWN),
        NOT_READ("too short a buffer", 0x23, "*\r", NULL, 2, 0, 1, 3, "Buffer overflow"),
        NOT_READ("a macro in itself", X + 0x23, "L*\r", NULL, 64, 3, 11, 0, "Bad string"),
        FOUND("a plain name, R3 at another", X + 0x23, "Farm\r", "Sum", 64, 0, "Farm", 0, "Ash"),
        NOT_READ("a plain name, R3 at it", 0x23, "farm\r", "Farm", 64, 0, 10, 0, UNKNOWN),
    };
    RUN_LIST(list);
}

/* Over one variable, and no house: whether a name with wildcards matches. */
static void match(const char *wild, const char *name, bool matches)
{
    char what[80], text[80];
    snprintf(what, sizeof what, "%s of %s", wild, name);
    snprintf(text, sizeof text, "%s\r", wild);
    const struct variable_test there = IS_THERE(what, X + 0x23, text, NULL, FAR, 0, name, 0);
    const struct variable_test none = IS_NOT(what, X + 0x23, text, NULL, FAR, 0);
    begin();
    machine.house_length = 0;
    own.length = 0;
    check(table_set_string(&own, name, "").number == NOS_ACCEPTED, "the test itself", "the variable is set");
    lay_and_run(matches ? &there : &none, true);
}

static void matching(void)
{
    static const char *const yes[][2] = {
        {"*", "a"}, {"**", "a"}, {"***", "abc"}, {"#", "a"}, {"#*", "a"}, {"*#", "a"}, {"#*#", "ab"}, {"*ab", "aab"}, {"*ab", "abab"},
        {"a*a", "aa"}, {"a*b*c", "abbc"}, {"a*b*c", "acbc"}, {"*a*b*", "xxaxxbxx"}, {"*#b", "aab"}, {"a*#b", "acb"}, {"A*Z", "a0z"},
        {"a*Z", "A0z"}, {"*$*", "Farm$Name"}, {"*aab", "aaaaaaaaaaaaaaaaaaaaaaaaaaaaaaab"}, {"a**********b", "ab"}, {"#a", "*a"},
        {"*a", "#a"}, {"*", "*"}, {"a*b", "a*b"},
    };
    static const char *const no[][2] = {
        {"#", "ab"}, {"##", "a"}, {"#*#", "a"}, {"*ab", "aba"}, {"a*a", "a"}, {"a*b*c", "acb"}, {"*a*b*", "xxbxxaxx"}, {"*#b", "b"},
        {"a*#b", "ab"}, {"*$*", "FarmName"}, {"@#", "`a"}, {"[*", "{a"}, {"a*", "#a"},
        {"*a*a*a*a*a*a*a*b", "aaaaaaaaaaaaaaaaaaaaaaaaaaaaaaaa"},
    };
    for (size_t i = 0; i < sizeof yes / sizeof yes[0]; i++) match(yes[i][0], yes[i][1], true);
    for (size_t i = 0; i < sizeof no / sizeof no[0]; i++) match(no[i][0], no[i][1], false);
}

/* Every byte of at most 32 ends a name, and no other. */
static void ends(void)
{
    static const struct variable_test there = IS_THERE("a name up to a byte of 32", 0x23, "Farm?\r", NULL, FAR, 0, "Farm", 0);
    static const struct variable_test none = IS_NOT("a name beyond another byte", 0x23, "Farm?\r", NULL, FAR, 0);
    for (unsigned byte = 0; byte < 256; byte += byte < 34 ? 1 : 31) {
        uint8_t end = (uint8_t)byte;
        begin();
        lay(&there);
        add(TEXT + 4, &end, 1);
        run_laid(byte <= 32 ? &there : &none, 0, false);
    }
}

/* Macros that cannot be translated are bad strings, under the number of the refusal. */
static void bad_macros(void)
{
    static const struct { const char *value; uint32_t refusal; } list[] = {
        {"a<", 9}, {"<4294967296>", 4}, {"<256>", 21}, {"<Nobody>", 10}, {"a|1", 7}, {"\"a", 8}, {"<m>", 11}, {"<Year><Year>", 12},
    };
    for (size_t i = 0; i < sizeof list / sizeof list[0]; i++) {
        const struct variable_test expanded = NOT_READ(list[i].value, 0x23, "m\r", NULL, 64, 3, list[i].refusal, 0, "Bad string");
        const struct variable_test asked = IS_THERE(list[i].value, X + 0x23, "m\r", NULL, FAR, 3, "m", 2);
        begin();
        check(table_set_macro(&own, "m", list[i].value).number == NOS_ACCEPTED, "the test itself", "the macro is set");
        if (list[i].refusal == 12) machine.allowance = 1;
        lay_and_run(&expanded, true);
        lay_and_run(&asked, false);
    }
}

/* The name and the buffer at memory's end, and beyond. */
static void read_at_the_end(void)
{
    static const struct variable_test list[] = {
        {NULL, NULL, 0, 0, 0, "Farm", NULL, 0,
         {"a name in the last bytes", 0x23, "Farm\r", SIZE - 5, SIZE - 5, BUFFER, 8, DONE, SIZE - 5, BUFFER, 3, 0, "Ash", BUFFER, 3}},
        NO_MEMORY("a name that memory cuts off", 0x23, "Farm", SIZE - 4, SIZE - 4, BUFFER, 8, 0),
        NO_MEMORY("a name behind memory", X + 0x23, NULL, 0, SIZE, BUFFER, 8, 0),
        NO_MEMORY("a name far behind it", 0x23, NULL, 0, FAR, BUFFER, FAR, 0),
        {NULL, NULL, 0, 0, 0, "Farm", NULL, 0,
         {"into the last bytes", X + 0x23, "Farm\r", TEXT, TEXT, SIZE - 3, 3, DONE, TEXT, SIZE - 3, 3, 0, "Ash", SIZE - 3, 3}},
        NO_MEMORY("a buffer that ends behind them", 0x23, "Farm\r", TEXT, TEXT, SIZE - 3, 4, 0),
        NO_MEMORY("the same, no such variable", X + 0x23, "Barn\r", TEXT, TEXT, SIZE - 3, 4, 0),
        NO_MEMORY("a buffer that wraps around", 0x23, "Farm\r", TEXT, TEXT, FAR, 8, 0),
        NO_MEMORY("the largest buffer", X + 0x23, "Farm\r", TEXT, TEXT, BUFFER, 0x7FFFFFFF, 0),
        {NULL, NULL, 0, 3, 2, "Head", NULL, 0,
         {"over its name", X + 0x23, "Head\r", TEXT, TEXT, TEXT, 8, DONE, TEXT, TEXT, 4, 0, "Ash!", TEXT, 4}},
    };
    RUN_LIST(list);
}

/* R3 at memory's end, and beyond: a name with wildcards needs it, a plain one does not. The last bytes of memory end no name. */
static void contexts(void)
{
    static const struct { uint32_t r3; struct variable_test variable; } list[] = {
        {SIZE - 5, FOUND("R3 in the last bytes", 0x23, "*\r", NULL, 64, 0, "Head", 2, "<Farm>!")},
        {SIZE - 5, NOT_READ("the same and a plain name", 0x23, "Farm\r", NULL, 64, 0, 10, 0, UNKNOWN)},
        {TEXT + 2, FOUND("R3 behind the wildcards", 0x23, "*\rHead\r", NULL, 64, 0, "Loop", 2, "<Loop>")},
        {SIZE, NO_MEMORY("R3 behind memory", X + 0x23, "*\r", TEXT, TEXT, BUFFER, 8, 0)},
        {FAR, NO_MEMORY("R3 far behind it", 0x23, "*\r", TEXT, TEXT, BUFFER, FAR, 0)},
        {SIZE, FOUND("R3 behind memory, a plain name", 0x23, "Farm\r", NULL, 64, 0, "Farm", 0, "Ash")},
        {FAR, FOUND("R3 far behind it, a plain name", X + 0x23, "Farm\r", NULL, 64, 0, "Farm", 0, "Ash")},
    };
    for (size_t i = 0; i < sizeof list / sizeof list[0]; i++) {
        begin();
        lay(&list[i].variable);
        if (list[i].r3 == SIZE - 5) add(SIZE - 5, "Farm\r", 5);
        run_laid(&list[i].variable, list[i].r3, i % 2 == 0);
    }
    static const struct variable_test cut = NO_MEMORY("R3 that memory cuts off", 0x23, "*\r", TEXT, TEXT, BUFFER, 8, 0);
    begin();
    lay(&cut);
    add(SIZE - 4, "Farm", 4);
    run_laid(&cut, SIZE - 4, false);
}

/* Over tables that are refused, and over those that are not there. */
static void tables(void)
{
    static const struct variable_test refused[] = {
        NOT_READ("over bad tables", 0x23, "Farm\r", NULL, 64, 0, 0, 0, ""),
        NOT_READ("over bad tables, to ask", X + 0x23, "Farm\r", NULL, FAR, 0, 0, 0, ""),
        NOT_READ("over bad tables, wildcards", 0x23, "*\r", NULL, 64, 0, 0, 0, ""),
        NOT_READ("over bad tables, no variable", X + 0x23, "Barn\r", NULL, 0, 3, 0, 0, ""),
    };
    static const struct variable_test shown = FOUND("the house alone", 0x23, "F*\r", NULL, 64, 0, "Farm", 0, "?");
    static const struct variable_test none = NOT_READ("no tables", X + 0x23, "*\r", NULL, 64, 0, 10, 0, UNKNOWN);
    for (size_t i = 0; i < sizeof refused / sizeof refused[0]; i++) run_over_bad_tables(&refused[i]);
    begin();
    machine.farm = NULL;
    lay_and_run(&shown, true);
    machine.house = NULL;
    machine.house_length = 0;
    lay_and_run(&none, false);
}

/* The place for names is the host's to lend, and not 0. Calls that find no names do without. */
static void places(void)
{
    static const struct variable_test no_place[] = {
        {NULL, NULL, 0, 0, 0, NULL, NULL, 0,
         {"no place for names", 0x23, "Farm\r", TEXT, TEXT, BUFFER, 64, ENDED(NO_BLOCK), 0, 0, 0, 0, NULL, 0, 0}},
        {NULL, NULL, 0, 4, 4, NULL, NULL, 0,
         {"no place for names", X + 0x24, "Farm\r", TEXT, TEXT, VALUE, 0, ENDED(NO_BLOCK), 0, 0, 0, 0, NULL, 0, 0}},
    };
    static const struct variable_test at_the_end = FOUND("names at memory's end", 0x23, "farm\r", NULL, 64, 0, "Farm", 0, "Ash");
    static const struct variable_test without = {
        NULL, NULL, 0, 0xAB04, 0, NULL, NULL, 0,
        {"without a place for names", 0x28, NULL, 0, 96, BUFFER, 64, DONE, 96, BUFFER, 2, 0, "96", BUFFER, 2}};
    static const uint32_t bad[] = {0, SIZE - NAME_ROOM + 1, SIZE, FAR};
    for (size_t i = 0; i < 4; i++) {
        begin();
        machine.name_at = bad[i];
        lay_and_run(&no_place[0], true);
        lay_and_run(&no_place[1], false);
        lay_and_run(&without, true);
    }
    machine.name_at = SIZE - NAME_ROOM;
    lay_and_run(&at_the_end, false);
}

/* The loop of the book's application note: the program hands R3 on from call to call, and each name comes once, in the order of names. */
static void listing(void)
{
    static const char *const names[] = {"Farm", "Head", "Loop", "Page", "Sum", "Year"};
    struct registers registers = {{TEXT, BUFFER, 0, 0}, false, false};
    begin();
    lay_out("*\r", TEXT);
    for (size_t i = 0; i < 6; i++) {
        registers.r[2] = 64;
        check(handle_swi(&machine, X + 0x23, &registers).ending == SERVED, names[i], "the variable is found");
        check(registers.r[3] == NAMES && strcmp((const char *)memory + NAMES, names[i]) == 0, names[i], "its name");
    }
    registers.r[2] = 64;
    check(handle_swi(&machine, X + 0x23, &registers).ending == RETURNED && registers.overflow, "the end", "the loop ends in an error");
    puts("&20023 in a loop: Farm Head Loop Page Sum Year, and then an error");
}

void reading(void)
{
    values();
    asking();
    wildcards();
    matching();
    ends();
    bad_macros();
    read_at_the_end();
    contexts();
    tables();
    places();
    listing();
}
