/* Changes the benchmarks' inputs by chance and holds every set's answers and buffers to the first one's: an opponent that is wrong
 * somewhere would be no opponent. */
#include "inputs.h"

#include <stdio.h>
#include <stdlib.h>
#include <string.h>

enum { CHANGES = 400, WINDOW = 240, LENT = 4096, TOO_LONG = NOS_LONGEST + 1, LONGEST_NAME = 40 };

struct asked {
    uint8_t text[TOO_LONG], house[TOO_LONG], farm[TOO_LONG], index[TOO_LONG], name[LONGEST_NAME], time[2 * TIME_LENGTH];
    size_t length, house_length, farm_length, index_length, name_length, time_length, room, number_room, index_room;
    uint32_t indexed, call, value, whole, limit, flags, allowance;
};

static uint8_t odd_byte(void)
{
    static const char bytes[] = "\"\"||<<>>!!&&  0012589azAZ_$()+-*/=@[^?\r\nMODANDNOTEOR<m3><m15>,#%%%%CSYRDN24";
    uint32_t i = chance(sizeof bytes + 4);
    return i < sizeof bytes ? (uint8_t)bytes[i] : (uint8_t)chance(256);
}

/* Puts a reference to a number over some bytes of the text: one about 255, or such a one with higher bits set. */
static void put_number(struct asked *a)
{
    char mark[16];
    uint32_t number = 250 + chance(12);
    if (chance(4) == 0) number |= 1u << (8 + chance(24));
    size_t length = (size_t)snprintf(mark, sizeof mark, chance(2) ? "<%u>" : "<&%x>", number);
    if (length <= a->length) memcpy(a->text + chance((uint32_t)(a->length - length + 1)), mark, length);
}

static void change_text(struct asked *a, const struct input *in)
{
    size_t start = in->length ? chance((uint32_t)in->length) : 0;
    a->length = chance(WINDOW);
    if (a->length > in->length - start) a->length = in->length - start;
    memcpy(a->text, in->text + start, a->length);
    for (uint32_t i = chance(6); i > 0 && a->length > 0; i--) a->text[chance((uint32_t)a->length)] = odd_byte();
    if (chance(4) == 0) put_number(a);
    if (chance(32) == 0) a->length = TOO_LONG;
}

static struct nos_tables tables_of(const uint8_t *farm, size_t farm_length, const uint8_t *house, size_t house_length)
{
    return (struct nos_tables){.farm = farm, .farm_length = farm_length, .house = house, .house_length = house_length};
}

/* Where the two tables come from: now and then they are swapped, or the house's is both, so that all its names stand twice, or its
 * records are shared out, so that a macro's names stand in the other table. */
static struct nos_tables choose_tables(const struct input *in)
{
    size_t first = 0;
    switch (chance(8)) {
    case 0: return tables_of(in->house, in->house_length, in->farm, in->farm_length);
    case 1: return tables_of(in->house, in->house_length, in->house, in->house_length);
    case 2: case 3: break;
    default: return tables_of(NOS_TABLES(*in));
    }
    for (uint32_t i = chance(32); i > 0 && first < in->house_length; i--)
        first += (size_t)5 + in->house[first + 3] + in->house[first + 4];
    size_t rest = in->house_length - first;
    if (chance(2)) return tables_of(in->house, first, in->house + first, rest);
    return tables_of(in->house + first, rest, in->house, first);
}

static void change_table(uint8_t *table, size_t *table_length, const uint8_t *from, size_t length)
{
    memcpy(table, from, length);
    if (length && chance(4) == 0) table[chance((uint32_t)length)] = odd_byte();
    if (length && chance(8) == 0) length = chance((uint32_t)length);
    *table_length = chance(32) == 0 ? TOO_LONG : length;
}

/* Changes one thing about an index: a byte, its length, or two places with each other. */
static void spoil_index(struct asked *a)
{
    size_t length = a->index_length;
    if (chance(8) == 0) {
        a->index_length = TOO_LONG;
    } else if (length < 2 || chance(4) == 0) {
        a->index_length = chance((uint32_t)length + 4);
    } else if (chance(2)) {
        a->index[chance((uint32_t)length)] ^= (uint8_t)(1u << chance(8));
    } else {
        uint8_t kept[2], *one = a->index + 2 * chance((uint32_t)length / 2), *other = a->index + 2 * chance((uint32_t)length / 2);
        memcpy(kept, one, 2);
        memcpy(one, other, 2);
        memcpy(other, kept, 2);
    }
}

/* As a rule the index of the house table as it is now, or of what it was before its change; now and then that of the farm's. A table
 * that has none leaves the one from the last time. Any number but 0 says that there is an index. */
static void choose_index(struct asked *a, const struct nos_tables *from)
{
    struct nos_answer built;
    switch (chance(8)) {
    case 0: built = nos_build_index(a->farm, a->farm_length, a->index, LONGEST_INDEX); break;
    case 1: case 2: built = nos_build_index(from->house, from->house_length, a->index, LONGEST_INDEX); break;
    default: built = nos_build_index(a->house, a->house_length, a->index, LONGEST_INDEX);
    }
    if (built.number == NOS_ACCEPTED) a->index_length = built.need;
    a->index_room = chance(2) ? built.need + chance(3) : LENT;
    if (a->index_room && chance(4) == 0) a->index_room--;
    if (chance(2)) spoil_index(a);
    a->indexed = chance(16) == 0 ? 0 : 1u << chance(32);
}

/* The name of a record behind some place of a table, or where there is none the text's first bytes; now and then with a bit of one
 * byte changed, which for a letter is that of its case. */
static void choose_name(struct asked *a)
{
    int from_farm = chance(2) == 0;
    const uint8_t *name = a->text, *table = from_farm ? a->farm : a->house;
    size_t length = from_farm ? a->farm_length : a->house_length;
    a->name_length = chance(LONGEST_NAME);
    for (size_t at = length ? chance((uint32_t)length) : 0; at + 5 + LONGEST_NAME <= length; at++) {
        if (table[at] != 86 || table[at + 1] != 82) continue;
        a->name_length = table[at + 3] % LONGEST_NAME;
        name = table + at + 5;
        break;
    }
    memcpy(a->name, name, a->name_length);
    if (a->name_length && chance(2)) a->name[chance((uint32_t)a->name_length)] ^= 32;
}

/* A time of the input or any other, often with a byte at one of its ends, and now and then not five bytes. */
static void choose_time(struct asked *a, const struct input *in)
{
    for (size_t i = 0; i < sizeof a->time; i++) a->time[i] = (uint8_t)chance(256);
    if (in->count && chance(2)) memcpy(a->time, in->dates.times[chance((uint32_t)in->count)], TIME_LENGTH);
    if (chance(2)) a->time[chance(TIME_LENGTH)] = chance(2) ? 0 : 255;
    a->time_length = chance(32) == 0 ? chance(sizeof a->time + 1) : TIME_LENGTH;
}

static void change(struct asked *a, const struct input *in)
{
    struct nos_tables from = choose_tables(in);
    change_text(a, in);
    change_table(a->farm, &a->farm_length, from.farm, from.farm_length);
    change_table(a->house, &a->house_length, from.house, from.house_length);
    choose_index(a, &from);
    choose_name(a);
    choose_time(a, in);
    a->room = chance(2) ? chance(64) : LENT;
    a->number_room = chance(2) ? chance(14) : a->room; /* often about what a number takes, with its zero byte or without one */
    a->call = chance(2) ? chance(30) + 0xCE : decimal_call;
    a->call |= chance(8) == 0 ? 1u << chance(32) : 0;
    a->call |= chance(4) == 0 ? 0x20000u : 0;
    a->value = chance(UINT32_MAX) >> chance(32);
    if (chance(4) == 0) a->value = 0 - a->value;
    a->whole = chance(2);
    a->limit = chance(2) ? NOS_NO_LIMIT : chance(70000);
    a->flags = chance(2) ? 0 : chance(8) << 29;
    a->allowance = chance(2) ? 1024 : chance(8);
}

/* Everything that a set answers and leaves in a buffer, at last that which goes through an index. */
struct answers {
    struct nos_answer converted, translated, dated, built, translated_by_index;
    struct nos_number read;
    struct nos_checked checked_farm, checked_house;
    struct nos_variable found, found_by_index;
    struct nos_value evaluated, evaluated_name;
    uint8_t left[3 * LENT], left_by_index[2 * LENT];
};

static void ask_by_index(const struct calls *c, const struct asked *a, struct answers *to)
{
    memset(to->left_by_index, 0xEE, sizeof to->left_by_index);
    to->built = c->build_index(a->house, a->house_length, to->left_by_index, a->index_room);
    to->found_by_index = c->look_up(a->name, a->name_length, NOS_INDEXED(*a));
    to->translated_by_index = c->translate(a->text, a->length, NOS_INDEXED(*a), a->flags, a->allowance, to->left_by_index + LENT, a->room);
}

static void ask(const struct calls *c, const struct asked *a, struct answers *to)
{
    memset(to->left, 0xEE, sizeof to->left);
    to->converted = c->convert(a->call, a->value, to->left, a->number_room);
    to->read = c->read_unsigned(a->text, a->length, a->whole, a->limit);
    to->checked_farm = c->check_table(a->farm, a->farm_length);
    to->checked_house = c->check_table(a->house, a->house_length);
    to->found = c->look_up(a->name, a->name_length, NOS_TABLES(*a), NULL, 0, 0);
    to->translated = c->translate(a->text, a->length, NOS_TABLES(*a), NULL, 0, 0, a->flags, a->allowance, to->left + LENT, a->room);
    to->evaluated = c->evaluate(a->text, a->length, NOS_TABLES(*a), a->allowance);
    to->evaluated_name = c->evaluate(a->name, a->name_length, NOS_TABLES(*a), a->allowance);
    to->dated = c->convert_date(a->time, a->time_length, a->text, a->length, to->left + 2 * LENT, a->room);
    if (c->build_index) ask_by_index(c, a, to);
}

static int same_answer(struct nos_answer a, struct nos_answer b)
{
    return a.number == b.number && a.counted == b.counted && a.place == b.place && a.need == b.need && a.free == b.free;
}

static int same_checked(struct nos_checked a, struct nos_checked b)
{
    return a.number == b.number && a.records == b.records && a.place == b.place;
}

static int same_variable(struct nos_variable a, struct nos_variable b)
{
    return a.number == b.number && a.counted == b.counted && a.place == b.place && a.kind == b.kind && a.length == b.length
        && a.start == b.start;
}

static int same_value(struct nos_value a, struct nos_value b)
{
    return a.number == b.number && a.counted == b.counted && a.place == b.place && a.value == b.value;
}

/* The first thing that two sets differ in, or NULL. */
static const char *difference(const struct answers *a, const struct answers *b)
{
    if (!same_answer(a->converted, b->converted)) return "convert";
    if (a->read.number != b->read.number || a->read.value != b->read.value || a->read.place != b->read.place) return "read_unsigned";
    if (!same_checked(a->checked_farm, b->checked_farm)) return "check_table of the farm's";
    if (!same_checked(a->checked_house, b->checked_house)) return "check_table of the house's";
    if (!same_variable(a->found, b->found)) return "look_up";
    if (!same_answer(a->translated, b->translated)) return "translate";
    if (!same_value(a->evaluated, b->evaluated)) return "evaluate";
    if (!same_value(a->evaluated_name, b->evaluated_name)) return "evaluate of the name";
    if (!same_answer(a->dated, b->dated)) return "convert_date";
    return memcmp(a->left, b->left, sizeof a->left) == 0 ? NULL : "a buffer";
}

static const char *difference_by_index(const struct answers *a, const struct answers *b)
{
    if (!same_answer(a->built, b->built)) return "build_index";
    if (!same_variable(a->found_by_index, b->found_by_index)) return "look_up through an index";
    if (!same_answer(a->translated_by_index, b->translated_by_index)) return "translate through an index";
    return memcmp(a->left_by_index, b->left_by_index, sizeof a->left_by_index) == 0 ? NULL : "a buffer through an index";
}

static void tell(const struct asked *a)
{
    fprintf(stderr, "  call %x value %x room %zu, else %zu; flags %x allowance %u\n", a->call, a->value, a->number_room, a->room, a->flags,
            a->allowance);
    fprintf(stderr, "  a time of %zu bytes, from the first %02x %02x %02x %02x %02x\n", a->time_length, a->time[0], a->time[1],
            a->time[2], a->time[3], a->time[4]);
    fprintf(stderr, "  an index of %zu bytes, said by %x, from the first %02x %02x %02x %02x; room for one %zu\n", a->index_length,
            a->indexed, a->index[0], a->index[1], a->index[2], a->index[3], a->index_room);
    fprintf(stderr, "  a farm's table of %zu bytes, a house table of %zu, name %.*s, text %.*s\n", a->farm_length, a->house_length,
            (int)a->name_length, (const char *)a->name, (int)a->length, (const char *)a->text);
}

const struct calls *takes_remainder;

/* Whether a set is held to the first one's answers. Up to a number over 255 all read a text alike, so that no answer differs but where the
 * text is refused for one; through an index it is refused for one only if it is without, too. */
static int is_held(const struct calls *c, const struct answers *first)
{
    return c != takes_remainder || first->translated.number != NOS_CODE_OVER_255;
}

void check_changed(const struct work *w, struct input *in, const struct calls *const *sets, size_t count)
{
    static struct asked a;
    static struct answers first, other;
    for (unsigned i = 0; i < CHANGES; i++) {
        change(&a, in);
        ask(sets[0], &a, &first);
        for (size_t s = 1; s < count; s++) {
            if (!is_held(sets[s], &first)) continue;
            ask(sets[s], &a, &other);
            const char *what = difference(&first, &other);
            if (!what && sets[s]->build_index) what = difference_by_index(&first, &other);
            if (!what) continue;
            fprintf(stderr, "%s: %s and %s differ in %s over a changed input:\n", w->name, sets[0]->name, sets[s]->name, what);
            tell(&a);
            exit(1);
        }
    }
}
