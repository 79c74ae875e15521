/* The clerk's index. The house table is read thousands of times for each edit, so the clerk keeps its index beside it, and builds that
 * again after every edit. Through the index names are found and texts translated as without it. */
#include <inttypes.h>
#include <stdio.h>
#include <string.h>

#include "clerk.h"
#include "tables.h"

/* A card has room for the index of a full table, and some bytes more. */
enum { SLIP = 64, RECORDS = 256, CARD = 2 * RECORDS + 3 };

static uint8_t house_bytes[TABLE_ROOM], farm_bytes[64];
static struct table house, farm;
static uint8_t card[2 * MARGIN + CARD], slip[2 * MARGIN + SLIP];
static uint8_t longest[NOS_LONGEST + 1 + CARD];

/* The house's names in the order of its index, and their places. A to Z count as a to z: "_" would come after ASHES otherwise. */
static const struct { const char *name; size_t place; } in_order[] = {
    {"7th", 94},        {"ash", 106},    {"Ash@1", 132}, {"Ash_1", 84}, {"ASHES", 53},
    {"Farm$Name", 63},  {"Heading", 11}, {"Unit", 0},    {"Zone", 118},
};
enum { NAMES = sizeof in_order / sizeof in_order[0] };

static void expect_made(struct table_change change, const char *what) { check(change.number == NOS_ACCEPTED, what); }

static void make_the_tables(void)
{
    house = table_make(house_bytes, sizeof house_bytes);
    expect_made(table_set_string(&house, "Unit", "kg"), "Unit");
    expect_made(table_set_macro(&house, "Heading", "<Farm$Name>: <Quantity> <Unit>"), "Heading");
    expect_made(table_set_string(&house, "ASHES", ""), "ASHES");
    expect_made(table_set_string(&house, "Farm$Name", "Unnamed"), "Farm$Name");
    expect_made(table_set_string(&house, "Ash_1", ""), "Ash_1");
    expect_made(table_set_integer(&house, "7th", 7), "7th");
    expect_made(table_set_string(&house, "ash", "tree"), "ash");
    expect_made(table_set_string(&house, "Zone", "north"), "Zone");
    expect_made(table_set_string(&house, "Ash@1", ""), "Ash@1");
    farm = table_make(farm_bytes, sizeof farm_bytes);
    expect_made(table_set_string(&farm, "Farm$Name", "Lower Ash"), "the farm's Farm$Name");
    expect_made(table_set_integer(&farm, "Quantity", 1048576), "Quantity");
}

/* Builds an index on a clean card, and checks what holds of every call: no more than the need is written, a refusal writes nothing, and
 * every other byte of the card is as it was. */
static struct nos_answer build_of(const uint8_t *table, size_t length, size_t room)
{
    check(room <= CARD, "a card is enough");
    fill(card, sizeof card);
    remember(card, sizeof card);
    struct nos_answer answer = nos_build_index(table, length, card + MARGIN, room);
    uint32_t number = answer.number;
    bool is_of_the_table = number == NOS_BAD_TABLE || number == NOS_OVER_LENGTH;
    size_t need = answer.need, written = number == NOS_ACCEPTED ? need : 0;
    check(written <= room && answer.free == room - written, "no more is written than was lent, and the rest is free");
    check(number == NOS_ACCEPTED || (number == NOS_NO_ROOM ? need > room : need == 0), "a need is over the room; others have none");
    check(answer.counted == (is_of_the_table ? NOS_IN_THE_HOUSE : NOS_IN_THE_TEXT), "a refusal of the table is counted in it");
    check(answer.place == 0 || number == NOS_BAD_TABLE, "only a bad record has a place");
    check_the_rest(card, sizeof card, MARGIN, written);
    return answer;
}

static struct nos_answer build(size_t room) { return build_of(house.bytes, house.length, room); }

/* The place that the card has for the record whose name is the i-th of the order. */
static size_t on_the_card(size_t i) { return card[MARGIN + 2 * i] | (size_t)card[MARGIN + 2 * i + 1] << 8; }

static void check_the_card(void)
{
    for (size_t i = 0; i < NAMES; i++) check(on_the_card(i) == in_order[i].place, in_order[i].name);
}

/* Asks with one byte too few, with more room than it takes, and with the need that the refusal carries. */
static void ask_twice(void)
{
    size_t little = 2 * NAMES - 1;
    struct nos_answer refused = build(little);
    check(refused.number == NOS_NO_ROOM && refused.need == little + 1, "one byte too few is refused, with the need");
    struct nos_answer more = build(CARD);
    check_the_card();
    struct nos_answer answer = build(refused.need);
    check_the_card();
    check(answer.number == NOS_ACCEPTED && alike(more, answer), "the need is enough, and more room gives the same");
    printf("the index of the house table: room %zu, refused %" PRIu32 ", need %zu, no byte changed; room %zu:", little, refused.number,
           refused.need, refused.need);
    for (size_t i = 0; i < NAMES; i++) printf("%s %s at %zu", i > 0 ? "," : "", in_order[i].name, on_the_card(i));
    puts("");
}

/* The tables, and on the card the index of the house's. */
static struct nos_tables with_index(void)
{
    struct nos_answer asked = build(0), answer = build(asked.need);
    check(asked.number == NOS_NO_ROOM && answer.number == NOS_ACCEPTED, "the need is enough");
    struct nos_tables tables = {farm.bytes, farm.length, house.bytes, house.length, card + MARGIN, answer.need, 1};
    return tables;
}

static struct nos_tables without_index(struct nos_tables tables)
{
    tables.index = NULL;
    tables.index_length = SIZE_MAX; /* counts for nothing */
    tables.indexed = 0;
    return tables;
}

/* Looks a name up through the index and without it: the answers are the same. */
static struct nos_variable find(const char *name, struct nos_tables in)
{
    struct nos_tables plain = without_index(in);
    struct nos_variable found = nos_look_up(bytes_of(name), strlen(name), NOS_INDEXED(in));
    struct nos_variable other = nos_look_up(bytes_of(name), strlen(name), NOS_INDEXED(plain));
    check(found.number == other.number && found.counted == other.counted && found.place == other.place, name);
    check(found.kind == other.kind && found.start == other.start && found.length == other.length, name);
    return found;
}

static void turn_letters(char *name)
{
    for (; *name != '\0'; name++)
        if ((*name >= 'A' && *name <= 'Z') || (*name >= 'a' && *name <= 'z')) *name = (char)(*name ^ 32);
}

static void look_up(void)
{
    static const char *const unknown[] = {
        "", "!", "7", "as", "ash^1", "ash_", "ASHE", "ashes1", "Heading$", "unix", "zonf", "~", "Certified$Fields$Diary$Entry$0001",
    };
    struct nos_tables tables = with_index(), alone = tables;
    alone.farm_length = 0;
    for (size_t i = 0; i < NAMES; i++) {
        char turned[16];
        snprintf(turned, sizeof turned, "%s", in_order[i].name);
        turn_letters(turned);
        struct nos_variable found = find(in_order[i].name, alone), again = find(turned, alone);
        check(found.number == NOS_ACCEPTED && found.counted == NOS_IN_THE_HOUSE, in_order[i].name);
        check(found.place == in_order[i].place && again.number == NOS_ACCEPTED && again.place == found.place, turned);
    }
    for (size_t i = 0; i < sizeof unknown / sizeof unknown[0]; i++)
        check(find(unknown[i], tables).number == NOS_UNKNOWN_NAME, unknown[i]);
    struct nos_variable hidden = find("farm$name", alone), shown = find("farm$name", tables), own = find("quantity", tables);
    check(shown.counted == NOS_IN_THE_FARM && shown.place == 0, "the farm's comes first, index or not");
    check(own.counted == NOS_IN_THE_FARM && own.place == 23, "the farm's table needs no index");
    printf("%d names found through it and %zu not, as without it; farm$name: at %zu%s, without that table at %zu%s\n", NAMES,
           sizeof unknown / sizeof unknown[0], shown.place, in_words(shown.counted), hidden.place, in_words(hidden.counted));
}

/* Translates on a clean slip, and checks that no more than the need is written, and by a refusal nothing. */
static struct nos_answer translate(const char *text, struct nos_tables in, size_t room)
{
    fill(slip, sizeof slip);
    remember(slip, sizeof slip);
    struct nos_answer answer = nos_translate(bytes_of(text), strlen(text), NOS_INDEXED(in), 0, 8, slip + MARGIN, room);
    size_t written = answer.number == NOS_ACCEPTED ? answer.need : 0;
    check(written <= room && answer.free == room - written, "no more is written than was lent, and the rest is free");
    check_the_rest(slip, sizeof slip, MARGIN, written);
    return answer;
}

/* Translates through the index and without it, with too little room and with enough: the answers and the bytes are the same. */
static void expect_given(const char *text, struct nos_tables in, const char *given)
{
    struct nos_tables plain = without_index(in);
    size_t need = strlen(given);
    struct nos_answer refused = translate(text, in, need - 1);
    check(refused.number == NOS_NO_ROOM && refused.need == need && alike(refused, translate(text, plain, need - 1)), text);
    struct nos_answer other = translate(text, plain, need);
    check(other.number == NOS_ACCEPTED && memcmp(slip + MARGIN, given, need) == 0, text);
    struct nos_answer answer = translate(text, in, need);
    check(alike(answer, other) && memcmp(slip + MARGIN, given, need) == 0, text);
    printf("%s through the index: %s\n", text, given);
}

static void translations(void)
{
    static const char *const wrong[] = {
        "see <Nobody>", "<Heading", "<Unit>|", "\"<Zone>", "<4294967296>", "<321>", "<7th><7th><Heading><Unit><7th><7th>",
    };
    struct nos_tables tables = with_index(), alone = tables;
    alone.farm_length = 0;
    expect_given("<Heading>", tables, "Lower Ash: 1048576 kg");
    expect_given("<ZONE> of <farm$name>, <7TH>", tables, "north of Lower Ash, 7");
    expect_given("<ZONE> of <farm$name>, <7TH>", alone, "north of Unnamed, 7");
    for (size_t i = 0; i < sizeof wrong / sizeof wrong[0]; i++) {
        struct nos_answer answer = translate(wrong[i], tables, SLIP), other = translate(wrong[i], without_index(tables), SLIP);
        check(answer.number != NOS_ACCEPTED && answer.counted == NOS_IN_THE_TEXT && alike(answer, other), wrong[i]);
    }
}

/* Through an index that does not fit everything is refused, at 0 in the index, at every room: names of the house, of the farm and of
 * nobody, texts that name something, name nothing, have no byte, or are wrong. */
static void check_unfit(struct nos_tables in, const char *how)
{
    static const char *const names[] = {"Unit", "Farm$Name", "Nobody", "", "321"};
    static const char *const texts[] = {"<Unit>", "row", "", "<", "<321>"};
    for (size_t i = 0; i < sizeof names / sizeof names[0]; i++) {
        struct nos_variable found = nos_look_up(bytes_of(names[i]), strlen(names[i]), NOS_INDEXED(in));
        check(found.number == NOS_BAD_INDEX && found.counted == NOS_IN_THE_INDEX && found.place == 0, how);
        check(found.kind == 0 && found.start == 0 && found.length == 0, "a refusal has no value");
        struct nos_answer answer = translate(texts[i], in, SLIP);
        check(answer.number == NOS_BAD_INDEX && answer.counted == NOS_IN_THE_INDEX && answer.place == 0 && answer.need == 0, how);
        check(alike(answer, translate(texts[i], in, 0)), "with room 0 it is the same refusal");
    }
}

static void print_unfit(const char *how)
{
    printf("%s: refused %d at 0%s, %s, no byte changed\n", how, NOS_BAD_INDEX, in_words(NOS_IN_THE_INDEX), nos_words(NOS_BAD_INDEX));
}

/* An edit makes the index stale: it is refused until it is built again. */
static void edit(const char *what, struct table_change change, struct nos_tables *tables, const char *text, const char *given)
{
    expect_made(change, what);
    tables->house_length = house.length;
    check_unfit(*tables, what);
    print_unfit(what);
    *tables = with_index();
    expect_given(text, *tables, given);
}

static void edits(void)
{
    struct nos_tables tables = with_index();
    expect_made(table_set_string(&house, "Unit", "lb"), "Unit set to lb");
    puts("Unit set to lb, which is as long: no record has another place, no name another order, and so the index fits");
    expect_given("<Unit>", tables, "lb");
    edit("Unit set to sacks", table_set_string(&house, "Unit", "sacks"), &tables, "<Heading>", "Lower Ash: 1048576 sacks");
    edit("Year added", table_set_integer(&house, "Year", 1989), &tables, "<zone> <year>", "north 1989");
    edit("ash taken out", table_unset(&house, bytes_of("ash"), 3), &tables, "<zone>", "north");
    uint8_t *letter = house.bytes + find("Zone", tables).place + 5;
    *letter = 'A';
    check_unfit(tables, "Aone would be the third");
    print_unfit("Zone renamed to Aone");
    *letter = 'z';
    expect_given("<Zone>", tables, "north");
    make_the_tables();
}

/* An index with a byte changed, with bytes missing, with more bytes than there are places, and as any `indexed` but 0 has it. */
static void damaged(void)
{
    static const uint32_t numbers[] = {2, 256, 1u << 31, UINT32_MAX};
    struct nos_tables tables = with_index();
    size_t length = tables.index_length;
    for (size_t i = 0; i < 8 * length; i++) {
        card[MARGIN + i / 8] ^= (uint8_t)(1 << i % 8);
        check_unfit(tables, "a bit of the index is changed");
        card[MARGIN + i / 8] ^= (uint8_t)(1 << i % 8);
    }
    for (tables.index_length = 0; tables.index_length <= CARD; tables.index_length++)
        if (tables.index_length != length) check_unfit(tables, "the index is shorter or longer");
    memcpy(longest, card + MARGIN, length);
    struct nos_tables longer = {NOS_TABLES(tables), longest, NOS_LONGEST + 1, 1};
    check_unfit(longer, "an index is never refused by 18");
    longer.index_length += length;
    check_unfit(longer, "16 bits of its length are not enough to judge by");
    tables.index_length = length - 1;
    for (size_t i = 0; i < sizeof numbers / sizeof numbers[0]; i++) {
        tables.indexed = numbers[i];
        check_unfit(tables, "any number but 0 says that there is an index");
    }
    tables.index_length = length;
    check(find("Unit", tables).number == NOS_ACCEPTED, "the index fits again");
    print_unfit("any bit of it changed, cut to any length, any bytes behind it");
}

/* Through indexes of several lengths, none of which fits, the answer is the same. */
static void expect_refused(struct nos_tables in, const char *how, uint32_t number, uint32_t counted, size_t place)
{
    const size_t lengths[] = {0, 1, 2 * NAMES - 2, 2 * NAMES - 1, 2 * NAMES + 2, NOS_LONGEST + 1};
    for (size_t i = 0; i < sizeof lengths / sizeof lengths[0]; i++) {
        in.index_length = lengths[i];
        struct nos_answer answer = translate("<", in, SLIP);
        struct nos_variable found = nos_look_up(bytes_of("Nobody"), 6, NOS_INDEXED(in));
        check(answer.number == number && answer.counted == counted && answer.place == place, how);
        check(found.number == number && found.counted == counted && found.place == place, how);
    }
    printf("%s: refused %" PRIu32 " at %zu%s, %s\n", how, number, place, in_words(counted), nos_words(number));
}

/* An index that does not fit comes after all that is wrong with the tables, and before what is wrong with the text or the name. */
static void in_their_order(void)
{
    struct nos_tables tables = with_index();
    memcpy(longest, tables.index, tables.index_length);
    tables.index = longest;
    expect_refused(tables, "< and Nobody through an index that does not fit", NOS_BAD_INDEX, NOS_IN_THE_INDEX, 0);
    house.bytes[12] = 83;
    expect_refused(tables, "a damaged house besides", NOS_BAD_TABLE, NOS_IN_THE_HOUSE, 11);
    farm.bytes[24] = 83;
    expect_refused(tables, "a damaged farm besides", NOS_BAD_TABLE, NOS_IN_THE_FARM, 23);
    struct nos_tables long_house = tables, long_farm = tables;
    long_house.house = long_farm.farm = longest;
    long_house.house_length = long_farm.farm_length = NOS_LONGEST + 1;
    expect_refused(long_house, "65536 bytes of house in its stead", NOS_OVER_LENGTH, NOS_IN_THE_HOUSE, 0);
    expect_refused(long_farm, "65536 bytes of farm", NOS_OVER_LENGTH, NOS_IN_THE_FARM, 0);
    long_farm.index_length = 1;
    struct nos_answer text = nos_translate(longest, NOS_LONGEST + 1, NOS_INDEXED(long_farm), 0, 8, NULL, 0);
    check(text.number == NOS_OVER_LENGTH && text.counted == NOS_IN_THE_TEXT, "the text comes first of all");
    struct nos_answer bad = build(0);
    check(bad.number == NOS_BAD_TABLE && bad.place == 11, "no index is built of a bad table, at any room");
    check(alike(bad, build(CARD)), "with more room it is the same refusal");
    check(build_of(longest, NOS_LONGEST + 1, 0).number == NOS_OVER_LENGTH, "nor of one that is too long");
    printf("to be built of a damaged house, no room: refused %" PRIu32 " at %zu%s\n", bad.number, bad.place, in_words(bad.counted));
    make_the_tables();
}

/* The i-th name of a full table: as long as names can be, and like the others but for its last digits. */
static const char *nth_name(size_t i)
{
    static char name[64];
    snprintf(name, sizeof name, "%c" "ertified$Fields$Diary$Entry$%03zu", i % 2 == 0 ? 'c' : 'C', i);
    return name;
}

/* A full table of 65,280 bytes, with its names in the opposite order, and one record more. */
static void full_table(void)
{
    enum { RECORD = 255, NAME = 32, FULL = RECORDS * RECORD };
    char value[RECORD - 5 - NAME + 1];
    memset(value, 'v', sizeof value - 1);
    value[sizeof value - 1] = '\0';
    house = table_make(house_bytes, sizeof house_bytes);
    for (size_t i = RECORDS; i > 0; i--) expect_made(table_set_string(&house, nth_name(i - 1), value), nth_name(i - 1));
    check(house.length == FULL, "every record has 255 bytes");
    struct nos_answer refused = build(2 * RECORDS - 1);
    check(refused.number == NOS_NO_ROOM && refused.need == 2 * RECORDS, "the most need that there is");
    struct nos_tables tables = with_index();
    for (size_t i = 0; i < RECORDS; i++)
        check(on_the_card(i) == (RECORDS - 1 - i) * RECORD && find(nth_name(i), tables).place == on_the_card(i), nth_name(i));
    check(find(nth_name(RECORDS), tables).number == NOS_UNKNOWN_NAME, "a name after the last");
    check(find("Certified$Fields$Diary$Entry$0000", tables).number == NOS_UNKNOWN_NAME, "a byte more than a name has");
    memcpy(house.bytes + FULL, "VR\x00\x01\x00x", 6);
    struct nos_answer more = build_of(house.bytes, FULL + 6, CARD);
    check(more.number == NOS_BAD_TABLE && more.place == FULL, "a record too many");
    printf("%d records: need %zu, and all found; a record more: refused %" PRIu32 " at %zu%s\n", RECORDS, refused.need, more.number,
           more.place, in_words(more.counted));
    make_the_tables();
}

/* NULL pointers that no one follows. */
static void of_nothing(void)
{
    struct nos_answer none = nos_build_index(NULL, 0, NULL, 0), asked = nos_build_index(house.bytes, house.length, NULL, 0);
    check(none.number == NOS_ACCEPTED && none.need == 0 && none.free == 0, "no table has an index of no bytes");
    check(asked.number == NOS_NO_ROOM && asked.need == 2 * NAMES, "no buffer is refused, with the need");
    struct nos_tables nothing = {NULL, 0, NULL, 0, NULL, 0, 1}, too_much = nothing, too_little = nothing;
    struct nos_variable unknown = nos_look_up(NULL, 0, NOS_INDEXED(nothing));
    check(unknown.number == NOS_UNKNOWN_NAME && unknown.counted == NOS_IN_THE_TEXT, "it fits no table, which has no name");
    struct nos_answer empty = nos_translate(NULL, 0, NOS_INDEXED(nothing), 0, 0, NULL, 0);
    check(empty.number == NOS_ACCEPTED && empty.need == 0, "no text is accepted");
    too_much.index = longest;
    too_much.index_length = 2;
    check_unfit(too_much, "no table has no places");
    too_little.house = house.bytes;
    too_little.house_length = house.length;
    check_unfit(too_little, "the house table has some");
    too_much.indexed = 0;
    check(nos_look_up(NULL, 0, NOS_INDEXED(too_much)).number == NOS_UNKNOWN_NAME, "where there is no index, no bytes are one");
    printf("no table, no buffer: accepted, need %zu; the house table, no buffer: refused %" PRIu32 ", need %zu\n", none.need,
           asked.number, asked.need);
}

void indexes(void)
{
    make_the_tables();
    ask_twice();
    look_up();
    translations();
    edits();
    damaged();
    in_their_order();
    full_table();
    of_nothing();
}
