/* The clerk's headings: variables in the farm's table and the house's, texts that name them, and sums over them. */
#include <inttypes.h>
#include <stdio.h>
#include <string.h>

#include "clerk.h"

/* MOST is the most that any translation needs: 1,024 names of one letter and three bytes of text, each giving 255 bytes. */
enum { SLIP = 64, MOST = NOS_LONGEST + 1024 * 252 };

struct variable {
    uint8_t kind;
    const char *name, *value;
    size_t length, place;
};

/* Farm$Name and Balance stand in both tables, and a macro of each has names of the other. */
static const struct variable of_the_farm[] = {
    {NOS_STRING, "Farm$Name", "Lower Ash", 9, 0},
    {NOS_INTEGER, "Balance", "\x1E\xFB\xFF\xFF", 4, 23}, /* -1250 */
    {NOS_MACRO, "Page", "<heading> <unit>", 16, 39},
    {NOS_MACRO, "Again", "<again>", 7, 64},
};
static const struct variable of_the_house[] = {
    {NOS_STRING, "Farm$Name", "Unnamed", 7, 0},
    {NOS_MACRO, "Heading", "<farm$name>: <balance>", 22, 21},
    {NOS_STRING, "Balance", "none", 4, 55},
    {NOS_MACRO, "Owner", "of <Nobody>", 11, 71},
    {NOS_STRING, "Unit", "kg", 2, 92},
    {NOS_INTEGER, "Year", "\xC5\x07\x00\x00", 4, 103}, /* 1989 */
    {NOS_STRING, "Remark", "", 0, 116},
    {NOS_MACRO, "Slip", "see <256>", 9, 127},
    {NOS_STRING, "256", "not by a reference", 18, 145},
    {NOS_STRING, "256th", "no number", 9, 171},
};
enum { FARM = sizeof of_the_farm / sizeof of_the_farm[0], HOUSE = sizeof of_the_house / sizeof of_the_house[0] };

static const char *const kinds[] = {"a string", "an integer", "a macro"};

static uint8_t farm[128], house[256];
static struct nos_tables tables = {farm, 0, house, 0, NULL, 0, 0};
static uint8_t slip[2 * MARGIN + SLIP];
static uint8_t longest[NOS_LONGEST + 1];

/* Writes a record; its length. */
static size_t put_record(uint8_t *at, uint8_t kind, const char *name, const void *value, size_t length)
{
    size_t name_length = strlen(name);
    const uint8_t head[] = {86, 82, kind, (uint8_t)name_length, (uint8_t)length};
    memcpy(at, head, sizeof head);
    memcpy(at + sizeof head, name, name_length);
    memcpy(at + sizeof head + name_length, value, length);
    return sizeof head + name_length + length;
}

static struct nos_checked check_table(const uint8_t *table, size_t length)
{
    struct nos_checked answer = nos_check_table(table, length);
    check(answer.place <= length, "the place is in the table");
    check(answer.number == NOS_ACCEPTED ? answer.place == 0 : answer.records == 0,
          "a good table has the place 0, a refused one no number of records");
    return answer;
}

static void expect_bad(size_t length, size_t place, const char *how)
{
    struct nos_checked answer = check_table(farm, length);
    check(answer.number == NOS_BAD_TABLE && answer.place == place, how);
    printf("%s: refused %" PRIu32 " at %zu, %s\n", how, answer.number, answer.place, nos_words(answer.number));
}

/* Builds a table of variables; its length. */
static size_t build(uint8_t *table, const struct variable *variables, size_t count, const char *whose)
{
    size_t length = 0;
    for (size_t i = 0; i < count; i++) {
        check(length == variables[i].place, variables[i].name);
        length += put_record(table + length, variables[i].kind, variables[i].name, variables[i].value, variables[i].length);
    }
    struct nos_checked answer = check_table(table, length);
    check(answer.number == NOS_ACCEPTED && answer.records == count, "the table is good");
    printf("%s, %zu bytes: good, %" PRIu32 " records\n", whose, length, answer.records);
    return length;
}

static void build_the_tables(void)
{
    tables.farm_length = build(farm, of_the_farm, FARM, "the farm's table");
    tables.house_length = build(house, of_the_house, HOUSE, "the house table");
    struct nos_checked empty = nos_check_table(NULL, 0);
    check(empty.number == NOS_ACCEPTED && empty.records == 0, "NULL with length 0 is a good table");
    printf("no table: good, %" PRIu32 " records\n", empty.records);
}

/* One byte of the farm's table damaged, and put right again. The place is that of the record, not of the byte. */
static void damage_the_table(void)
{
    static const struct { size_t at; uint8_t byte; size_t place; } damages[] = {
        {0, 85, 0}, {24, 83, 23}, {27, 5, 23}, {41, 3, 39}, {42, 0, 39}, {69, '<', 64},
    };
    for (size_t i = 0; i < sizeof damages / sizeof damages[0]; i++) {
        uint8_t was = farm[damages[i].at];
        char how[32];
        farm[damages[i].at] = damages[i].byte;
        snprintf(how, sizeof how, "%d for %d at %zu", damages[i].byte, was, damages[i].at);
        expect_bad(tables.farm_length, damages[i].place, how);
        farm[damages[i].at] = was;
    }
    expect_bad(tables.farm_length - 1, 64, "the last byte cut off");
    size_t more = put_record(farm + tables.farm_length, NOS_MACRO, "FARM$NAME", "", 0);
    expect_bad(tables.farm_length + more, tables.farm_length, "FARM$NAME added");
    check(check_table(farm, tables.farm_length).number == NOS_ACCEPTED, "the table is good again");
}

/* Finds a variable: the table that holds it, its record's place, its kind, and its value, which lies in that table. */
static void find(const char *name, struct nos_tables in, uint32_t counted, const struct variable *variable)
{
    struct nos_variable found = nos_look_up(bytes_of(name), strlen(name), NOS_INDEXED(in));
    check(found.number == NOS_ACCEPTED && found.counted == counted, name);
    check(found.place == variable->place && found.kind == variable->kind, name);
    check(found.start == found.place + 5 + strlen(name) && found.length == variable->length, name);
    const uint8_t *value = (found.counted == NOS_IN_THE_FARM ? in.farm : in.house) + found.start;
    check(memcmp(value, variable->value, found.length) == 0, name);
    printf("%s: %s at %zu%s, ", name, kinds[found.kind], found.place, in_words(found.counted));
    print_bytes(value, found.length);
    puts(found.length == 0 ? "nothing" : "");
}

static struct nos_tables the_house_alone(void)
{
    struct nos_tables alone = {NULL, 0, tables.house, tables.house_length, NULL, 0, 0};
    return alone;
}

/* The farm's record, whatever its kind, hides the house's with an equal name. An empty value is found like any other. */
static void look_up(void)
{
    find("Farm$Name", tables, NOS_IN_THE_FARM, &of_the_farm[0]);
    find("FARM$NAME", tables, NOS_IN_THE_FARM, &of_the_farm[0]);
    find("bALANCE", tables, NOS_IN_THE_FARM, &of_the_farm[1]);
    find("heading", tables, NOS_IN_THE_HOUSE, &of_the_house[1]);
    find("Remark", tables, NOS_IN_THE_HOUSE, &of_the_house[6]);
    find("256", tables, NOS_IN_THE_HOUSE, &of_the_house[8]);
    puts("without the farm's table:");
    find("Farm$Name", the_house_alone(), NOS_IN_THE_HOUSE, &of_the_house[0]);
    find("bALANCE", the_house_alone(), NOS_IN_THE_HOUSE, &of_the_house[2]);
}

/* Looks a name up that is not found. */
static void expect_not_found(const char *name, struct nos_tables in, const char *how, uint32_t number, uint32_t counted,
                             size_t place)
{
    struct nos_variable answer = nos_look_up(bytes_of(name), name == NULL ? 0 : strlen(name), NOS_INDEXED(in));
    check(answer.number == number && answer.counted == counted && answer.place == place, how);
    check(answer.kind == 0 && answer.start == 0 && answer.length == 0, "a refusal has no value");
    printf("%s%s: refused %" PRIu32 " at %zu%s, %s\n", name == NULL ? "no name" : name, how, answer.number, answer.place,
           in_words(answer.counted), nos_words(answer.number));
}

/* Both tables are judged first, though the farm's has the name: their lengths, then their records, and of each the farm's first. */
static void look_up_in_vain(void)
{
    static const struct nos_tables nothing = {NULL, 0, NULL, 0, NULL, 0, 0};
    struct nos_tables long_farm = tables, long_house = tables;
    long_farm.farm = long_house.house = longest;
    long_farm.farm_length = long_house.house_length = sizeof longest;
    expect_not_found("Nobody", tables, "", NOS_UNKNOWN_NAME, NOS_IN_THE_TEXT, 0);
    expect_not_found(NULL, tables, "", NOS_UNKNOWN_NAME, NOS_IN_THE_TEXT, 0);
    expect_not_found(NULL, nothing, ", no tables", NOS_UNKNOWN_NAME, NOS_IN_THE_TEXT, 0);
    expect_not_found("Certified$Fields$Diary$Entry$0001", tables, "", NOS_UNKNOWN_NAME, NOS_IN_THE_TEXT, 0);
    struct nos_variable long_name = nos_look_up(longest, sizeof longest, NOS_INDEXED(tables));
    check(long_name.number == NOS_UNKNOWN_NAME && long_name.place == 0, "a name of any length is no text");
    house[72] = 0;
    expect_not_found("Balance", tables, ", the house table being bad", NOS_BAD_TABLE, NOS_IN_THE_HOUSE, 71);
    expect_not_found("Balance", long_farm, ", the farm's table too long besides", NOS_OVER_LENGTH, NOS_IN_THE_FARM, 0);
    farm[40] = 0;
    expect_not_found("Balance", tables, ", both being bad", NOS_BAD_TABLE, NOS_IN_THE_FARM, 39);
    house[72] = 82;
    expect_not_found("Balance", tables, ", the farm's table being bad", NOS_BAD_TABLE, NOS_IN_THE_FARM, 39);
    expect_not_found("Balance", long_house, ", the house table too long besides", NOS_OVER_LENGTH, NOS_IN_THE_HOUSE, 0);
    farm[40] = 82;
}

/* Two full tables with the same names are good: the limit of 256 records holds for each. One more makes its own table bad. */
static void full_tables(void)
{
    enum { RECORD = 9, FULL = 256 * RECORD };
    static uint8_t full[FULL + RECORD];
    static const struct nos_tables both = {full, FULL, full, FULL, NULL, 0, 0}, more = {full, FULL, full, FULL + RECORD, NULL, 0, 0};
    static const struct variable last = {NOS_STRING, "n255", "", 0, FULL - RECORD};
    for (size_t i = 0; i <= 256; i++) {
        char name[24];
        snprintf(name, sizeof name, "n%03zu", i);
        put_record(full + i * RECORD, NOS_STRING, name, "", 0);
    }
    puts("256 records in each table:");
    find("n255", both, NOS_IN_THE_FARM, &last);
    expect_not_found("n256", both, "", NOS_UNKNOWN_NAME, NOS_IN_THE_TEXT, 0);
    expect_not_found("n255", more, ", one record more in the house", NOS_BAD_TABLE, NOS_IN_THE_HOUSE, FULL);
}

struct asked {
    const uint8_t *text;
    size_t length;
    struct nos_tables tables;
    uint32_t flags, allowance;
};

static struct asked ask_of(struct nos_tables in, const char *text, uint32_t flags, uint32_t allowance)
{
    struct asked a = {bytes_of(text), strlen(text), in, flags, allowance};
    return a;
}

/* Translates into the part of a paper that starts at `at`, and checks what holds of every call: no more than the need is written, a
 * refusal writes nothing, and every other byte of the paper is as it was. */
static struct nos_answer translate(struct asked a, uint8_t *paper, size_t size, size_t at, size_t room)
{
    remember(paper, size);
    struct nos_answer answer = nos_translate(a.text, a.length, NOS_INDEXED(a.tables), a.flags, a.allowance, paper + at, room);
    uint32_t number = answer.number;
    size_t need = answer.need, written = number == NOS_ACCEPTED ? need : 0;
    check(written <= room && answer.free == room - written, "no more is written than was lent, and the rest is free");
    check(number == NOS_ACCEPTED || (number == NOS_NO_ROOM ? need > room : need == 0), "a need is over the room; others have none");
    if (answer.counted == NOS_IN_THE_TEXT)
        check(answer.place <= a.length && number != NOS_BAD_TABLE, "the place is in the text");
    else
        check(number == NOS_BAD_TABLE || number == NOS_OVER_LENGTH, "only 13 and 18 have places in a table");
    check_the_rest(paper, size, at, written);
    return answer;
}

static struct nos_answer on_a_clean_slip(struct asked a, size_t room)
{
    fill(slip, sizeof slip);
    return translate(a, slip, sizeof slip, MARGIN, room);
}

/* Asks with one byte too few, again with the need that the refusal carries, and with more room than that. */
static void ask_twice(struct asked a, const char *how, const char *given, size_t length, size_t end)
{
    size_t little = length - 1;
    struct nos_answer refused = on_a_clean_slip(a, little);
    check(refused.number == NOS_NO_ROOM && refused.need == length, "one byte too few is refused, with the need");
    check(refused.place == 0, "no room has the place 0");
    struct nos_answer more = on_a_clean_slip(a, SLIP), answer = on_a_clean_slip(a, refused.need);
    check(answer.number == NOS_ACCEPTED && answer.need == length && alike(more, answer), "the need is enough");
    check(answer.place == end, "the text's end");
    check(memcmp(slip + MARGIN, given, length) == 0, given);
    print_bytes(a.text, a.length);
    printf("%s: room %zu, refused %" PRIu32 ", need %zu, no byte changed; room %zu: ", how, little, refused.number, refused.need,
           refused.need);
    print_bytes(slip + MARGIN, answer.need);
    printf(", read up to %zu\n", answer.place);
}

static void translations(void)
{
    static const struct { const char *text, *how; uint32_t flags, allowance; const char *given; size_t length, end; } lines[] = {
        {"<Farm$Name>", "", 0, 1, "Lower Ash", 9, 11},
        {"  <FARM$NAME> <balance> ", "", 0, 2, "Lower Ash -1250 ", 16, 24},
        {"<heading>", "", 0, 3, "Lower Ash: -1250", 16, 9},
        {"<PAGE>", "", 0, 5, "Lower Ash: -1250 kg", 19, 6},
        {"<Year><remark>", "", 0, 2, "1989", 4, 14},
        {"<&41><65><2_1000001>", "", 0, 0, "AAA", 3, 20},
        {"<255><&fF><36_73><000255><0>", "", 0, 0, "\xFF\xFF\xFF\xFF\x00", 5, 28},
        {"<256TH>", "", 0, 1, "no number", 9, 7},
        {"|Jrow|?|!|@|!a||", "", 0, 0, "\nrow\x7F\x80\xE1|", 8, 16},
        {"\"\"\"Ash\"\"\"  ", "", 0, 0, "\"Ash\"", 5, 11},
        {"\"|\"<Balance>\"\" |?\"", "", 0, 1, "\"-1250\" \x7F", 9, 18},
        {"row\n<not read", "", 0, 0, "row", 3, 3},
        {"\"a b\" c", " (a space ends)", NOS_SPACE_ENDS, 0, "a b", 3, 5},
        {" a b", " (a space ends)", NOS_SPACE_ENDS, 0, "a", 1, 2},
        {"|<65>", " (bars plain)", NOS_BAR_PLAIN, 0, "|A", 2, 5},
        {"\"a b\" c", " (quotes plain)", NOS_QUOTE_PLAIN, 0, "\"a b\" c", 7, 7},
        {"|<65> a", " (all other bits)", 0x1FFFFFFF, 0, "<65> a", 6, 7},
    };
    for (size_t i = 0; i < sizeof lines / sizeof lines[0]; i++)
        ask_twice(ask_of(tables, lines[i].text, lines[i].flags, lines[i].allowance), lines[i].how, lines[i].given, lines[i].length,
                  lines[i].end);
    ask_twice(ask_of(the_house_alone(), "<heading>", 0, 3), " (the house alone)", "Unnamed: none", 13, 9);
}

/* NULL pointers that no one follows. */
static void of_nothing(void)
{
    struct nos_answer nothing = nos_translate(NULL, 0, NULL, 0, NULL, 0, NULL, 0, 0, 0, 0, NULL, 0);
    check(nothing.number == NOS_ACCEPTED && nothing.counted == NOS_IN_THE_TEXT, "no text is accepted");
    check(nothing.place == 0 && nothing.need == 0 && nothing.free == 0, "with the need 0 and the end 0");
    printf("no text, no tables, no buffer: accepted, need %zu\n", nothing.need);
    struct nos_answer refused = nos_translate(bytes_of("<Heading>"), 9, NOS_INDEXED(tables), 0, 3, NULL, 0);
    check(refused.number == NOS_NO_ROOM && refused.need == 16, "no buffer is refused, with the need");
    printf("<Heading>, no buffer: refused %" PRIu32 ", %s, need %zu\n", refused.number, nos_words(refused.number), refused.need);
    struct nos_answer unknown = nos_translate(bytes_of("<Heading>"), 9, NULL, 0, NULL, 0, NULL, 0, 0, 0, 3, NULL, 0);
    check(unknown.number == NOS_UNKNOWN_NAME && unknown.need == 0, "in no table every name is unknown");
    printf("<Heading>, no tables: refused %" PRIu32 " at %zu, %s\n", unknown.number, unknown.place, nos_words(unknown.number));
}

/* Refused at every room alike: the room is looked at last. */
static void expect_refused(struct asked a, const char *what, uint32_t number, uint32_t counted, size_t place)
{
    struct nos_answer answer = on_a_clean_slip(a, SLIP);
    check(answer.number == number && answer.counted == counted && answer.place == place, what);
    check(alike(on_a_clean_slip(a, 0), answer), "with room 0 it is the same refusal");
    printf("%s: refused %" PRIu32 " at %zu%s, %s, no byte changed\n", what, answer.number, answer.place,
           in_words(answer.counted), nos_words(answer.number));
}

static void refusals(void)
{
    static const struct { const char *text; uint32_t allowance, number; size_t place; } lines[] = {
        {"a<", 9, NOS_BAD_REFERENCE, 1},
        {"row <>", 9, NOS_BAD_REFERENCE, 4},
        {"<4294967296>", 9, NOS_TOO_BIG, 0},
        {"<256>", 9, NOS_CODE_OVER_255, 0}, /* though a variable has that name */
        {"<321>", 0, NOS_CODE_OVER_255, 0}, /* a number takes no look-up. By the book this is A */
        {"see <&100>", 9, NOS_CODE_OVER_255, 4},
        {"<255><36_74> <", 9, NOS_CODE_OVER_255, 5},
        {"\"<4294967295>", 9, NOS_CODE_OVER_255, 1}, /* the open quote is met later, at the text's end */
        {"<256", 9, NOS_BAD_REFERENCE, 0},
        {"see <Slip>", 9, NOS_CODE_OVER_255, 4}, /* <256> stands in the macro; the place is that of <Slip> */
        {"see <Slip>", 0, NOS_ALLOWANCE_SPENT, 4},
        {"see <Nobody> <", 9, NOS_UNKNOWN_NAME, 4},
        {"see <Owner>", 9, NOS_UNKNOWN_NAME, 4}, /* Nobody stands in the macro; the place is that of <Owner> */
        {"-<Again>", 16, NOS_TOO_DEEP, 1},
        {"-<Again>", 15, NOS_ALLOWANCE_SPENT, 1},
        {"96 <Balance>", 0, NOS_ALLOWANCE_SPENT, 3},
        {"96 <Nobody>", 0, NOS_UNKNOWN_NAME, 3},
        {"=<Heading>", 2, NOS_ALLOWANCE_SPENT, 1},
        {"=<Page>", 4, NOS_ALLOWANCE_SPENT, 1},
        {"a||b|1", 9, NOS_BAD_CODE, 4},
        {"a|!|!b", 9, NOS_BAD_CODE, 1},
        {" \"Ash", 9, NOS_BAD_STRING, 1},
        {"\"Ash\"  b", 9, NOS_BAD_STRING, 7},
    };
    for (size_t i = 0; i < sizeof lines / sizeof lines[0]; i++) {
        char what[48];
        snprintf(what, sizeof what, "%s (allowance %" PRIu32 ")", lines[i].text, lines[i].allowance);
        expect_refused(ask_of(tables, lines[i].text, 0, lines[i].allowance), what, lines[i].number, NOS_IN_THE_TEXT,
                       lines[i].place);
    }
}

/* A number as a reference, in decimal and in hex, under all flags: up to 255 it gives its byte, and over that it gives none. */
static void check_code(uint32_t number)
{
    char texts[2][16];
    snprintf(texts[0], sizeof texts[0], "<%" PRIu32 ">", number);
    snprintf(texts[1], sizeof texts[1], "<&%" PRIX32 ">", number);
    for (uint32_t i = 0; i < 16; i++) {
        const char *text = texts[i % 2];
        struct nos_answer answer = on_a_clean_slip(ask_of(tables, text, i / 2 << 29, 0), 1);
        if (number <= 255) {
            check(answer.number == NOS_ACCEPTED && answer.place == strlen(text), text);
            check(answer.need == 1 && slip[MARGIN] == number, text);
        } else {
            check(answer.number == NOS_CODE_OVER_255 && answer.counted == NOS_IN_THE_TEXT && answer.place == 0, text);
        }
    }
}

/* The low bits of a number never make up for its other ones: 256 has those of 0, and 2 to any power from 8 on and 65 those of A. */
static void codes(void)
{
    for (uint32_t number = 0; number < 1024; number++) check_code(number);
    for (unsigned bit = 8; bit < 32; bit++) {
        check_code(1u << bit);
        check_code((1u << bit) + 65);
    }
    check_code(UINT32_MAX);
    printf("<0> to <255>, in hex too: the byte itself; from <256> on: refused %d, %s, no byte changed\n", NOS_CODE_OVER_255,
           nos_words(NOS_CODE_OVER_255));
}

/* Refusals of what is lent, before the text's own: 18 of the text, the farm's table, the house's; then 13 of the two. */
static void bad_tables(void)
{
    struct nos_tables long_house = tables, both_long = {longest, sizeof longest, longest, sizeof longest, NULL, 0, 0};
    long_house.house = longest;
    long_house.house_length = sizeof longest;
    house[22] = 83;
    expect_refused(ask_of(tables, "<", 0, 0), "< over a damaged house", NOS_BAD_TABLE, NOS_IN_THE_HOUSE, 21);
    farm[24] = 83;
    expect_refused(ask_of(tables, "<", 0, 0), "< over a damaged farm besides", NOS_BAD_TABLE, NOS_IN_THE_FARM, 23);
    expect_refused(ask_of(long_house, "<", 0, 0), "< over it and 65536 bytes of house", NOS_OVER_LENGTH, NOS_IN_THE_HOUSE, 0);
    farm[24] = house[22] = 82;
    expect_refused(ask_of(both_long, "<", 0, 0), "< over 65536 bytes of each", NOS_OVER_LENGTH, NOS_IN_THE_FARM, 0);
    struct asked long_text = {longest, sizeof longest, both_long, 0, 0};
    expect_refused(long_text, "65536 bytes of text over them", NOS_OVER_LENGTH, NOS_IN_THE_TEXT, 0);
}

/* The longest text with all look-ups that there are, each giving the longest value. */
static void the_largest(void)
{
    static uint8_t value[255], wide[5 + 1 + 255];
    memset(value, 'v', sizeof value);
    put_record(wide, NOS_STRING, "a", value, sizeof value);
    memset(longest, 'x', sizeof longest);
    for (size_t i = 0; i < 1024; i++) memcpy(longest + 3 * i, "<a>", 3);
    struct asked a = {longest, NOS_LONGEST, {NULL, 0, wide, sizeof wide, NULL, 0, 0}, 0, NOS_NO_LIMIT};
    fill(diary, sizeof diary);
    struct nos_answer refused = translate(a, diary, sizeof diary, MARGIN, MOST - 1);
    check(refused.number == NOS_NO_ROOM && refused.need == MOST, "one byte too few is refused, with the need");
    struct nos_answer answer = translate(a, diary, sizeof diary, MARGIN, refused.need);
    check(answer.number == NOS_ACCEPTED && answer.need == MOST && answer.place == NOS_LONGEST, "the need is enough");
    for (size_t i = 0; i < MOST; i++) check(diary[MARGIN + i] == (i < 1024 * 255 ? 'v' : 'x'), "every byte is there");
    printf("1024 look-ups in %u bytes: room %d, refused %" PRIu32 ", need %zu, no byte changed; room %zu: all there\n", NOS_LONGEST,
           MOST - 1, refused.number, refused.need, refused.need);
    memcpy(longest + 3 * 1024, "<a>", 3);
    expect_refused(a, "1025 look-ups (allowance 4294967295)", NOS_ALLOWANCE_SPENT, NOS_IN_THE_TEXT, 3 * 1024);
}

/* Works a sum out, and checks what holds of every call. */
static struct nos_value evaluate(const uint8_t *text, size_t length, uint32_t allowance)
{
    struct nos_value answer = nos_evaluate(text, length, NOS_TABLES(tables), allowance);
    check(answer.number == NOS_ACCEPTED || answer.value == 0, "a refused sum has no value");
    check(answer.counted == NOS_IN_THE_TEXT && answer.place <= length, "over good tables the place is in the text");
    return answer;
}

static void sums(void)
{
    static const struct { const char *text; uint32_t allowance, number; int32_t value; size_t place; } lines[] = {
        {"balance + 1250", 1, NOS_ACCEPTED, 0, 14},
        {"Year + Balance", 2, NOS_ACCEPTED, 739, 14},
        {" (12 + 3) * -96 ", 0, NOS_ACCEPTED, -1440, 16},
        {"2147483647+1", 0, NOS_ACCEPTED, INT32_MIN, 12},
        {"-7 MOD 2", 0, NOS_ACCEPTED, -1, 8},
        {"&FFFFFFFF >>> 28", 0, NOS_ACCEPTED, 15, 16},
        {"Balance < 0 AND NOT 2_1", 1, NOS_ACCEPTED, -2, 23},
        {"96 <> 1250\n/0", 0, NOS_ACCEPTED, -1, 10},
        {"12kg", 0, NOS_BAD_EXPRESSION, 0, 2},
        {"1/0+(", 0, NOS_BAD_EXPRESSION, 0, 5},
        {"----------------+1", 0, NOS_TOO_DEEP, 0, 16},
        {"1+&", 0, NOS_NO_DIGIT, 0, 3},
        {"37_1", 0, NOS_BAD_BASE, 0, 0},
        {"0+4294967296", 0, NOS_TOO_BIG, 0, 2},
        {"1+Nobody", 9, NOS_UNKNOWN_NAME, 0, 2},
        {"1+Farm$Name", 9, NOS_NOT_AN_INTEGER, 0, 2},
        {"1+Heading", 9, NOS_NOT_AN_INTEGER, 0, 2},
        {"Balance-Balance", 1, NOS_ALLOWANCE_SPENT, 0, 8},
        {"96/(Balance+1250)", 1, NOS_ZERO_DIVISOR, 0, 2},
    };
    for (size_t i = 0; i < sizeof lines / sizeof lines[0]; i++) {
        struct nos_value answer = evaluate(bytes_of(lines[i].text), strlen(lines[i].text), lines[i].allowance);
        check(answer.number == lines[i].number && answer.place == lines[i].place, lines[i].text);
        check(answer.value == lines[i].value, lines[i].text);
        print_bytes(bytes_of(lines[i].text), strlen(lines[i].text));
        if (answer.number == NOS_ACCEPTED)
            printf(": %" PRId32 ", read up to %zu\n", answer.value, answer.place);
        else
            printf(": refused %" PRIu32 " at %zu, %s\n", answer.number, answer.place, nos_words(answer.number));
    }
}

static void expect(struct nos_value answer, uint32_t number, uint32_t counted, size_t place, int32_t value, const char *claim)
{
    check(answer.number == number && answer.counted == counted && answer.place == place && answer.value == value, claim);
}

/* Sums of nothing, over nothing, and over what is too much. */
static void other_sums(void)
{
    struct nos_value nothing = nos_evaluate(NULL, 0, NULL, 0, NULL, 0, 0);
    expect(nothing, NOS_BAD_EXPRESSION, NOS_IN_THE_TEXT, 0, 0, "no text is refused at 0, with no value");
    printf("no sum: refused %" PRIu32 " at %zu, %s\n", nothing.number, nothing.place, nos_words(nothing.number));
    struct nos_value unknown = nos_evaluate(bytes_of("Balance"), 7, NULL, 0, NULL, 0, 9);
    expect(unknown, NOS_UNKNOWN_NAME, NOS_IN_THE_TEXT, 0, 0, "in no table every name is unknown");
    printf("Balance, no tables: refused %" PRIu32 " at %zu, %s\n", unknown.number, unknown.place, nos_words(unknown.number));
    struct nos_tables alone = the_house_alone();
    struct nos_value text = nos_evaluate(bytes_of("Balance"), 7, NOS_TABLES(alone), 9);
    expect(text, NOS_NOT_AN_INTEGER, NOS_IN_THE_TEXT, 0, 0, "the house has a string of that name");
    printf("Balance, the house alone: refused %" PRIu32 " at %zu, %s\n", text.number, text.place, nos_words(text.number));
    memset(longest, ' ', sizeof longest);
    longest[NOS_LONGEST - 1] = '7';
    struct nos_value most = evaluate(longest, NOS_LONGEST, 0), more = evaluate(longest, sizeof longest, 0);
    expect(most, NOS_ACCEPTED, NOS_IN_THE_TEXT, NOS_LONGEST, 7, "65535 bytes are read");
    expect(more, NOS_OVER_LENGTH, NOS_IN_THE_TEXT, 0, 0, "65536 bytes are not");
    printf("65534 spaces and 7: %" PRId32 "; the same and a space: refused %" PRIu32 "\n", most.value, more.number);
}

static void refuse_sum(struct nos_tables in, const char *how, uint32_t number, uint32_t counted, size_t place)
{
    struct nos_value answer = nos_evaluate(bytes_of("1/0"), 3, NOS_TABLES(in), 0);
    expect(answer, number, counted, place, 0, "what is lent comes before the sum's own faults");
    printf("1/0 over %s: refused %" PRIu32 " at %zu%s, %s\n", how, answer.number, answer.place, in_words(answer.counted),
           nos_words(answer.number));
}

static void sums_over_bad_tables(void)
{
    struct nos_tables long_house = tables;
    long_house.house = longest;
    long_house.house_length = sizeof longest;
    house[22] = 83;
    refuse_sum(tables, "a damaged house", NOS_BAD_TABLE, NOS_IN_THE_HOUSE, 21);
    farm[24] = 83;
    refuse_sum(tables, "a damaged farm besides", NOS_BAD_TABLE, NOS_IN_THE_FARM, 23);
    refuse_sum(long_house, "it and 65536 bytes of house", NOS_OVER_LENGTH, NOS_IN_THE_HOUSE, 0);
    farm[24] = house[22] = 82;
}

void headings(void)
{
    build_the_tables();
    damage_the_table();
    look_up();
    look_up_in_vain();
    full_tables();
    translations();
    of_nothing();
    refusals();
    codes();
    bad_tables();
    the_largest();
    sums();
    other_sums();
    sums_over_bad_tables();
}
