/* Makes the inputs of the benchmarks, each at two scales, and runs the work over them. */
#include "inputs.h"

#include <stdio.h>
#include <string.h>

static uint64_t state;

void restart(void)
{
    state = 88172645463325252u;
}

uint32_t chance(uint32_t below)
{
    state ^= state << 13;
    state ^= state >> 7;
    state ^= state << 17;
    return (uint32_t)((state >> 32) * below >> 32);
}

static void add(struct input *in, const char *bytes)
{
    size_t length = strlen(bytes);
    memcpy(in->text + in->length, bytes, length);
    in->length += length;
}

/* So many bytes of words. */
static void add_words(struct input *in, size_t length)
{
    static const char *const words[] = {"barley", "clover", "field", "of", "the", "sprayed", "rye", "and", "sown", "12", "kg"};
    size_t end = in->length + length, word = 0, at = 0;
    while (in->length < end) {
        char c = words[word][at++];
        if (c == 0) {
            c = ' ';
            at = 0;
            word = chance(sizeof words / sizeof *words);
        }
        in->text[in->length++] = (uint8_t)c;
    }
    if (length) in->text[end - 1] = '.';
}

/* ---- Numbers. */

uint32_t decimal_call = NOS_DECIMAL;

static uint64_t run_convert(const struct calls *c, struct input *in)
{
    uint64_t sum = 0;
    for (size_t i = 0; i < in->count; i++) {
        const struct item *item = in->items + i;
        sum = sum * 31 + sum_of_answer(c->convert(item->call, item->value, in->out + i * SLOT, SLOT));
    }
    return sum;
}

static uint32_t mixed_value(void)
{
    return (uint32_t)((chance(65536) << 16 | chance(65536)) >> chance(32));
}

static void make_calls(struct input *in, const uint8_t *calls, size_t count, unsigned scale)
{
    in->count = scale * MOST_ITEMS / 2;
    for (size_t i = 0; i < in->count; i++) in->items[i] = (struct item){.call = calls[chance((uint32_t)count)], .value = mixed_value()};
}

static void make_all_calls(struct input *in, unsigned scale)
{
    uint8_t calls[26] = {(uint8_t)decimal_call};
    for (unsigned i = 1; i < 26; i++) calls[i] = (uint8_t)(NOS_HEX_1 + i - 1);
    make_calls(in, calls, 26, scale);
}

/* Those that snprintf does too. It always writes a zero byte, so &DC stands here twice, the second time for &28, which has none. */
static void make_printed_calls(struct input *in, unsigned scale)
{
    uint8_t calls[14] = {NOS_SIGNED_4};
    for (unsigned i = 1; i < 14; i++) calls[i] = (uint8_t)(NOS_HEX_1 + i - 1);
    make_calls(in, calls, 14, scale);
}

/* Hex, decimal and binary of five digits' values by the two-byte calls, then of ten digits' by the four-byte ones. */
static void make_wide_calls(struct input *in, unsigned scale)
{
    static const uint8_t calls[] = {NOS_HEX_4, NOS_UNSIGNED_2, NOS_BINARY_2, NOS_SPACED_UNSIGNED_2};
    in->count = MOST_ITEMS;
    for (size_t i = 0; i < in->count; i++) {
        uint32_t call = calls[chance(4)];
        in->items[i] = (struct item){.call = call, .value = 10000 + chance(50000)};
        if (scale == 2) {
            in->items[i].call = call == NOS_HEX_4 ? NOS_HEX_8 : call + 2;
            in->items[i].value = 1000000000 + chance(3000000000);
        }
    }
}

static uint64_t run_read(const struct calls *c, struct input *in)
{
    uint64_t sum = 0;
    for (size_t i = 0; i < in->count; i++) {
        const struct item *item = in->items + i;
        sum = sum * 31 + sum_of_number(c->read_unsigned(in->text + item->start, item->length, 0, NOS_NO_LIMIT));
    }
    return sum;
}

static void add_digits(struct input *in, size_t count, unsigned base)
{
    for (size_t i = 0; i < count; i++) in->text[in->length++] = (uint8_t)"0123456789abcdef"[chance(base - 1) + 1];
}

/* Decimal, hex and binary numbers, each with a space behind it. */
static void make_numbers(struct input *in, unsigned scale)
{
    in->count = MOST_ITEMS;
    for (size_t i = 0; i < in->count; i++) {
        in->items[i].start = in->length;
        switch (chance(4)) {
        case 0:
            add(in, "&");
            add_digits(in, 4 * scale, 16);
            break;
        case 1:
            add(in, "8_");
            add_digits(in, 5 * scale, 8);
            break;
        default:
            add_digits(in, 4 * scale, 10);
        }
        in->items[i].length = in->length - in->items[i].start;
        add(in, " ");
    }
}

static void make_long_number(struct input *in, unsigned scale)
{
    in->length = scale * 30000;
    memset(in->text, '0', in->length);
    add(in, "12");
    in->count = 1;
    in->items[0] = (struct item){.length = in->length};
}

/* ---- Tables. Names are some of the machine's own kind; the record at a place has always the same. */

static size_t name_of(char name[33], size_t number)
{
    static const char *const owners[] = {"Sys", "Diary", "File", "Alias", "Run", "Wimp", "Font", "Field",
                                         "Farm", "Spray", "Inet", "System", "Printer", "Paper", "Draw", "Edit",
                                         "Barn", "Barley", "Clover", "Desktop", "Grower", "Harvest", "Help", "Maize",
                                         "Office", "Paint", "Rye", "Silo", "Seed", "Task", "Weather", "Yard"};
    static const char *const parts[] = {"Path", "Dir", "Type_FFF", "Date", "Time", "Year", "Row", "Crop",
                                        "Options", "Prefix", "Code", "Area", "State", "Seed", "Load", "Font"};
    return (size_t)snprintf(name, 33, "%s$%s", owners[number / 16], parts[number % 16]);
}

/* Names alike up to their last bytes. */
static size_t alike_name(char name[33], size_t number)
{
    return (size_t)snprintf(name, 33, "Certified$Fields$Diary$Entry%03u", (unsigned)number % 1000);
}

/* The same in falling order. */
static size_t falling_name(char name[33], size_t number) { return alike_name(name, 999 - number); }

/* Names of one length, with letters by chance: those of a number are always the same. */
static size_t level_name(char name[33], size_t number)
{
    enum { LETTERS = 12 };
    uint32_t by_number = (uint32_t)number + 1;
    for (size_t i = 0; i < LETTERS; i++) {
        by_number = by_number * 1664525 + 1013904223;
        name[i] = (char)('a' + (by_number >> 24) % 26);
    }
    name[LETTERS] = 0;
    return LETTERS;
}

static void add_record(struct input *in, enum nos_counting to, uint8_t kind, const char *name, const void *value, size_t length)
{
    uint8_t *table = to == NOS_IN_THE_FARM ? in->farm : in->house;
    size_t *table_length = to == NOS_IN_THE_FARM ? &in->farm_length : &in->house_length;
    const uint8_t head[5] = {86, 82, kind, (uint8_t)strlen(name), (uint8_t)length};
    table += *table_length;
    memcpy(table, head, 5);
    memcpy(table + 5, name, head[3]);
    memcpy(table + 5 + head[3], value, length);
    *table_length += (size_t)5 + head[3] + length;
}

/* The names have the numbers from the first on. Every `integers`-th record is an integer, the others strings. */
static void add_records(struct input *in, enum nos_counting to, size_t first, size_t count, unsigned integers,
                        size_t (*naming)(char *, size_t))
{
    char name[33];
    for (size_t i = 0; i < count; i++) {
        uint32_t number = mixed_value();
        const uint8_t bytes[4] = {(uint8_t)number, (uint8_t)(number >> 8), (uint8_t)(number >> 16), (uint8_t)(number >> 24)};
        naming(name, first + i);
        if (i % integers == 0) add_record(in, to, NOS_INTEGER, name, bytes, 4);
        else add_record(in, to, NOS_STRING, name, "a value of some twenty", chance(22));
    }
}

static void make_house(struct input *in, size_t count, unsigned integers, size_t (*naming)(char *, size_t))
{
    add_records(in, NOS_IN_THE_HOUSE, 0, count, integers, naming);
}

/* Two tables of so many records, and where a name can stand then: the later half of the house's names are the earlier half of the
 * farm's. */
enum standing { HOUSE_ALONE, BOTH, FARM_ALONE, NEITHER };

static void make_both(struct input *in, size_t count, unsigned integers)
{
    make_house(in, count, integers, name_of);
    add_records(in, NOS_IN_THE_FARM, count / 2, count, integers, name_of);
}

static size_t name_standing(char name[33], enum standing where, size_t count)
{
    return name_of(name, where * count / 2 + chance((uint32_t)count / 2));
}

/* A name of the full house table, by the kind of its names. */
static size_t house_name(char name[33]) { return name_of(name, chance(256)); }
static size_t level_house_name(char name[33]) { return level_name(name, chance(256)); }
static size_t alike_house_name(char name[33]) { return alike_name(name, chance(256)); }

/* Of full tables, a known name: half of them the house's alone, a quarter the farm's alone, a quarter in both. */
static size_t known_name(char name[33])
{
    static const enum standing standings[] = {HOUSE_ALONE, HOUSE_ALONE, BOTH, FARM_ALONE};
    return name_standing(name, standings[chance(4)], 256);
}

static void make_records(struct input *in, unsigned scale)
{
    make_house(in, scale * 128, 4, name_of);
}

static void make_alike_records(struct input *in, unsigned scale)
{
    make_house(in, scale * 128, 4, alike_name);
}

static uint64_t run_check(const struct calls *c, struct input *in)
{
    return sum_of_checked(c->check_table(in->house, in->house_length));
}

static uint64_t run_look_up(const struct calls *c, struct input *in)
{
    uint64_t sum = 0;
    for (size_t i = 0; i < in->count; i++) {
        const struct item *item = in->items + i;
        sum = sum * 31 + sum_of_variable(c->look_up(in->text + item->start, item->length, NOS_INDEXED(*in)), item->wanted);
    }
    return sum;
}

/* Names are looked up one by one, and each look-up checks the tables anew. */
enum { NAMES = 64 };

static void add_name(struct input *in, const char *name, uint32_t wanted)
{
    in->items[in->count++] = (struct item){.start = in->length, .length = strlen(name), .wanted = wanted};
    add(in, name);
}

/* Names that the house table has, or others of the same kind, which have the numbers after those of a full table. */
static void make_house_look_ups(struct input *in, size_t count, size_t (*naming)(char *, size_t), uint32_t wanted)
{
    char name[33];
    make_house(in, count, 4, naming);
    while (in->count < NAMES) {
        naming(name, chance((uint32_t)count) + (wanted == NOS_ACCEPTED ? 0 : 256));
        add_name(in, name, wanted);
    }
}

static void make_look_ups(struct input *in, unsigned scale) { make_house_look_ups(in, scale * 128, name_of, NOS_ACCEPTED); }
static void make_misses(struct input *in, unsigned scale) { make_house_look_ups(in, scale * 128, name_of, NOS_UNKNOWN_NAME); }
static void make_level_look_ups(struct input *in, unsigned scale) { make_house_look_ups(in, scale * 128, level_name, NOS_ACCEPTED); }
static void make_level_misses(struct input *in, unsigned scale) { make_house_look_ups(in, scale * 128, level_name, NOS_UNKNOWN_NAME); }
static void make_alike_look_ups(struct input *in, unsigned scale) { make_house_look_ups(in, scale * 128, alike_name, NOS_ACCEPTED); }
static void make_alike_misses(struct input *in, unsigned scale) { make_house_look_ups(in, scale * 128, alike_name, NOS_UNKNOWN_NAME); }

static void add_names_of_both(struct input *in, size_t count)
{
    char name[33];
    make_both(in, count, 4);
    while (in->count < NAMES) {
        enum standing standing = chance(4);
        name_standing(name, standing, count);
        add_name(in, name, standing == NEITHER ? NOS_UNKNOWN_NAME : NOS_ACCEPTED);
    }
}

static void make_look_ups_in_both(struct input *in, unsigned scale) { add_names_of_both(in, scale * 128); }

/* ---- An index beside the house table, of a quarter of a full table's records and of all. */

static size_t quarter_or_all(unsigned scale) { return scale == 1 ? 64 : 256; }

static uint64_t run_build(const struct calls *c, struct input *in)
{
    return sum_of_answer(c->build_index(in->house, in->house_length, in->out, sizeof in->out));
}

static void add_index(struct input *in)
{
    in->index_length = nos_build_index(in->house, in->house_length, in->index, sizeof in->index).need;
    in->indexed = 1;
}

static void make_indexed(struct input *in, unsigned scale, size_t (*naming)(char *, size_t), uint32_t wanted)
{
    make_house_look_ups(in, quarter_or_all(scale), naming, wanted);
    add_index(in);
}

static void make_indexed_names(struct input *in, unsigned scale) { make_indexed(in, scale, name_of, NOS_ACCEPTED); }
static void make_indexed_misses(struct input *in, unsigned scale) { make_indexed(in, scale, name_of, NOS_UNKNOWN_NAME); }
static void make_indexed_level_names(struct input *in, unsigned scale) { make_indexed(in, scale, level_name, NOS_ACCEPTED); }
static void make_indexed_level_misses(struct input *in, unsigned scale) { make_indexed(in, scale, level_name, NOS_UNKNOWN_NAME); }
static void make_indexed_alike_names(struct input *in, unsigned scale) { make_indexed(in, scale, alike_name, NOS_ACCEPTED); }
static void make_indexed_alike_misses(struct input *in, unsigned scale) { make_indexed(in, scale, alike_name, NOS_UNKNOWN_NAME); }
static void make_indexed_falling_names(struct input *in, unsigned scale) { make_indexed(in, scale, falling_name, NOS_ACCEPTED); }

static void make_indexed_names_in_both(struct input *in, unsigned scale)
{
    add_names_of_both(in, quarter_or_all(scale));
    add_index(in);
}

/* The library's own answers without the index that it was given. */
static uint64_t without_index(struct input *in, uint64_t (*run)(const struct calls *c, struct input *in))
{
    in->indexed = 0;
    uint64_t sum = run(&proved, in);
    in->indexed = 1;
    return sum;
}

static uint64_t look_up_without(struct input *in) { return without_index(in, run_look_up); }

/* ---- Texts. */

static uint64_t run_translate(const struct calls *c, struct input *in)
{
    return sum_of_answer(c->translate(in->text, in->length, NOS_INDEXED(*in), 0, 1024, in->out, sizeof in->out));
}

static uint64_t translate_without(struct input *in) { return without_index(in, run_translate); }

static void make_plain(struct input *in, unsigned scale)
{
    add_words(in, scale * 30000);
}

/* Bytes of words and then a mark, one mark to every `period` bytes. */
static void add_marked(struct input *in, size_t period, const char *mark)
{
    add_words(in, period - strlen(mark));
    add(in, mark);
}

static void add_references(struct input *in, unsigned scale, size_t (*naming)(char *))
{
    char mark[36] = "<";
    for (unsigned i = 0; i < scale * 512; i++) {
        size_t length = naming(mark + 1);
        memcpy(mark + 1 + length, ">", 2);
        add_marked(in, 40, mark);
    }
}

static void make_references(struct input *in, unsigned scale)
{
    make_house(in, 256, 4, name_of);
    add_references(in, scale, house_name);
}

static void make_level_references(struct input *in, unsigned scale)
{
    make_house(in, 256, 4, level_name);
    add_references(in, scale, level_house_name);
}

static void make_alike_references(struct input *in, unsigned scale)
{
    make_house(in, 256, 4, alike_name);
    add_references(in, scale, alike_house_name);
}

static void make_references_to_both(struct input *in, unsigned scale)
{
    make_both(in, 256, 4);
    add_references(in, scale, known_name);
}

static void make_indexed_references(struct input *in, unsigned scale)
{
    make_references(in, scale);
    add_index(in);
}

/* A row of a diary. Both names stand among the 64 records from number 96 on, too. */
static void make_short_text(struct input *in, unsigned scale)
{
    add_records(in, NOS_IN_THE_HOUSE, scale == 1 ? 96 : 0, quarter_or_all(scale), 4, name_of);
    add(in, "Sprayed <Spray$Date> on <Field$Crop>");
}

static void make_indexed_short_text(struct input *in, unsigned scale)
{
    make_short_text(in, scale);
    add_index(in);
}

/* Macros named m0 to m15, each of which names the one before it so many times. */
static void make_macros(struct input *in, unsigned count, unsigned times, const char *mark, unsigned marks)
{
    char name[8], value[64];
    make_house(in, 16, 4, name_of);
    add_record(in, NOS_IN_THE_HOUSE, NOS_MACRO, "m0", "rows |M of 12", 13);
    for (unsigned i = 1; i < count; i++) {
        int length = times == 1 ? sprintf(value, "field <m%u> of rye", i - 1) : sprintf(value, "f <m%u> rye <m%u>", i - 1, i - 1);
        sprintf(name, "m%u", i);
        add_record(in, NOS_IN_THE_HOUSE, NOS_MACRO, name, value, (size_t)length);
    }
    for (unsigned i = 0; i < marks; i++) add_marked(in, 40, mark);
}

static void make_deep_macros(struct input *in, unsigned scale)
{
    make_macros(in, 16, 1, "<m15>", scale * 32);
}

static void make_wide_macros(struct input *in, unsigned scale)
{
    make_macros(in, 4, 2, "<m3>", scale * 34);
}

static void make_marked(struct input *in, unsigned scale, size_t period, const char *mark)
{
    while (in->length < scale * 30000) add_marked(in, period, mark);
}

static void make_codes_4(struct input *in, unsigned scale) { make_marked(in, scale, 4, "|M"); }
static void make_codes_8(struct input *in, unsigned scale) { make_marked(in, scale, 8, "|M"); }
static void make_codes_16(struct input *in, unsigned scale) { make_marked(in, scale, 16, "|M"); }
static void make_marks_4(struct input *in, unsigned scale) { make_marked(in, scale, 4, "<9>"); }
static void make_marks_8(struct input *in, unsigned scale) { make_marked(in, scale, 8, "<65>"); }
static void make_marks_16(struct input *in, unsigned scale) { make_marked(in, scale, 16, "<65>"); }

/* ---- Expressions. */

static uint64_t run_evaluate(const struct calls *c, struct input *in)
{
    return sum_of_value(c->evaluate(in->text, in->length, NOS_TABLES(*in), 1024));
}

static void add_number(struct input *in)
{
    add_digits(in, 1 + chance(9), 10);
}

static void make_sums(struct input *in, unsigned scale)
{
    add_number(in);
    while (in->length < scale * 30000) {
        add(in, chance(2) ? "+" : "-");
        add_number(in);
    }
}

static void make_mixture(struct input *in, unsigned scale)
{
    static const char *const between[] = {"+", "-", "*", " AND ", " OR ", " EOR ", "<", ">=", "<<", ">>>", " = ", "/", " MOD "};
    add_number(in);
    while (in->length < scale * 30000) {
        uint32_t operator = chance(sizeof between / sizeof *between);
        add(in, between[operator]);
        if (operator > 10) { /* nothing that could be zero is divided by */
            add_number(in);
            continue;
        }
        if (chance(4) == 0) add(in, "NOT -");
        if (chance(4) != 0) {
            add_number(in);
        } else {
            add(in, "(");
            add_number(in);
            add(in, chance(2) ? "*" : "+");
            add_number(in);
            add(in, ")");
        }
    }
}

static void make_brackets(struct input *in, unsigned scale)
{
    add(in, "1");
    while (in->length < scale * 30000) add(in, "+((((((((((((((((7))))))))))))))))");
}

static void add_names(struct input *in, unsigned scale, size_t (*naming)(char *))
{
    char name[33];
    for (unsigned i = 0; i < scale * 512; i++) {
        if (i > 0) add(in, chance(2) ? "+" : " - ");
        naming(name);
        add(in, name);
    }
}

static void make_names(struct input *in, unsigned scale)
{
    make_house(in, 256, 1, name_of);
    add_names(in, scale, house_name);
}

static void make_names_of_both(struct input *in, unsigned scale)
{
    make_both(in, 256, 1);
    add_names(in, scale, known_name);
}

/* ---- Dates. */

static uint64_t run_dates(const struct calls *c, struct input *in)
{
    const struct dates *d = &in->dates;
    uint64_t sum = 0;
    for (size_t i = 0; i < in->count; i++) {
        uint8_t *out = in->out + i * d->room;
        sum = sum * 31 + sum_of_date(c->convert_date(d->times[i], TIME_LENGTH, in->text, in->length, out, d->room), d->wanted);
    }
    return sum;
}

/* So many times, each a chance number of hundredths behind the first. */
static void add_times(struct input *in, size_t count, uint64_t first, uint64_t span)
{
    for (in->count = 0; in->count < count; in->count++) {
        uint64_t by_chance = (uint64_t)chance(UINT32_MAX) << 32 | chance(UINT32_MAX), time = first + by_chance % span;
        for (size_t i = 0; i < TIME_LENGTH; i++) in->dates.times[in->count][i] = (uint8_t)(time >> 8 * i);
    }
    make_ready(in);
}

static void add_all_times(struct input *in, size_t count)
{
    add_times(in, count, 0, (uint64_t)1 << 8 * TIME_LENGTH);
}

/* Bytes of a format, and the same for strftime. */
static void add_format(struct input *in, const char *format, const char *like)
{
    size_t length = strlen(like);
    add(in, format);
    memcpy(in->dates.like + in->dates.like_length, like, length);
    in->dates.like_length += length;
}

static void add_format_words(struct input *in, size_t length)
{
    add_words(in, length);
    memcpy(in->dates.like + in->dates.like_length, in->text + in->length - length, length);
    in->dates.like_length += length;
}

static void make_dates(struct input *in, unsigned scale, const char *format, const char *like)
{
    add_format(in, format, like);
    add_all_times(in, scale * MOST_ITEMS / 2);
    in->dates.room = SLOT;
}

static void make_stamps(struct input *in, unsigned scale)
{
    make_dates(in, scale, "%24:%MI:%SE %DY-%M3-%CE%YR", "%H:%M:%S %d-%b-%Y");
}

/* In June to August 1987. */
static void make_summer_stamps(struct input *in, unsigned scale)
{
    static const uint64_t day = 8640000, june_1987 = 31927;
    make_stamps(in, scale);
    add_times(in, in->count, june_1987 * day, 92 * day);
}

static void make_book_dates(struct input *in, unsigned scale)
{
    make_dates(in, scale, "%W3,%DY %M3 %CE%YR.%24:%MI:%SE", "%a,%d %b %Y.%H:%M:%S");
}

static void make_days(struct input *in, unsigned scale)
{
    make_dates(in, scale, "%DY/%MN/%YR", "%d/%m/%y");
}

/* strftime has no hundredths. */
static void make_all_fields(struct input *in, unsigned scale)
{
    make_dates(in, scale, "%24:%MI:%SE.%CS %W3 %DN %DY/%MN %M3 %CE%YR", "");
}

static void make_all_but_hundredths(struct input *in, unsigned scale)
{
    make_dates(in, scale, "%24:%MI:%SE %W3 %DN %DY/%MN %M3 %CE%YR", "%H:%M:%S %a %j %d/%m %b %C%y");
}

static void make_letters(struct input *in, unsigned scale)
{
    add_format(in, "%DY %M3 %CE%YR. ", "%d %b %Y. ");
    add_format_words(in, scale * 484);
    add_format(in, " %24:%MI:%SE", " %H:%M:%S");
    add_all_times(in, MOST_ITEMS / 8);
    in->dates.room = 1100;
}

static void make_field_every_8(struct input *in, unsigned scale)
{
    static const char *const fields[][2] = {{"%24", "%H"}, {"%DY", "%d"}, {"%M3", "%b"}, {"%YR", "%y"}, {"%DN", "%j"}, {"%MI", "%M"}};
    while (in->length < scale * 30000) {
        uint32_t i = chance(sizeof fields / sizeof *fields);
        add_format_words(in, 5);
        add_format(in, fields[i][0], fields[i][1]);
    }
    add_all_times(in, 4);
    in->dates.room = ROOM / 4;
}

static void make_bad_fields(struct input *in, unsigned scale)
{
    make_dates(in, scale, "%24:%MI:%SE %DY-%M3-%CE%Yr", "");
    in->dates.wanted = NOS_BAD_FIELD;
}

/* One byte too little for the string with its zero byte. */
static void make_short_rooms(struct input *in, unsigned scale)
{
    make_stamps(in, scale);
    in->dates.room = strlen("00:00:00 01-Jan-1900");
    in->dates.wanted = NOS_NO_ROOM;
}

#define BYTES "the text's bytes"
#define BOTH_CALLS "gmtime_r and strftime"
#define FOURFOLD "the records, 4 times"
#define WITHOUT "without an index"
const struct work works[] = {
    {"convert, all 26 calls, mixed values", "the conversions", make_all_calls, run_convert, NULL, NULL},
    {"convert, decimal and hex calls", "the conversions", make_printed_calls, run_convert, "snprintf", by_snprintf},
    {"convert, 4-byte calls, 10 digits", "the digits", make_wide_calls, run_convert, NULL, NULL},
    {"read_unsigned, decimal, hex, base 8", "the digits", make_numbers, run_read, "strtoul", by_strtoul},
    {"read_unsigned, one of 60,000 digits", "the digits", make_long_number, run_read, "strtoul", by_strtoul},
    {"translate, plain text", BYTES, make_plain, run_translate, "memcpy", by_memcpy},
    {"translate, a reference every 40 bytes", BYTES " and references", make_references, run_translate, NULL, NULL},
    {"translate, references over a full farm's and house table", BYTES " and references", make_references_to_both, run_translate,
     NULL, NULL},
    {"translate, references to names alike in length", BYTES " and references", make_level_references, run_translate, NULL, NULL},
    {"translate, references to names alike up to their end", BYTES " and references", make_alike_references, run_translate, NULL, NULL},
    {"translate, a short text with two references", FOURFOLD, make_short_text, run_translate, NULL, NULL},
    {"translate through an index, a short text with two references", FOURFOLD, make_indexed_short_text, run_translate, WITHOUT,
     translate_without},
    {"translate through an index, a reference every 40 bytes", BYTES " and references", make_indexed_references, run_translate, WITHOUT,
     translate_without},
    {"translate, macros 16 deep", BYTES " and references", make_deep_macros, run_translate, NULL, NULL},
    {"translate, macros of two macros", BYTES " and references", make_wide_macros, run_translate, NULL, NULL},
    {"translate, a code every 4 bytes", BYTES, make_codes_4, run_translate, NULL, NULL},
    {"translate, a code every 8 bytes", BYTES, make_codes_8, run_translate, NULL, NULL},
    {"translate, a code every 16 bytes", BYTES, make_codes_16, run_translate, NULL, NULL},
    {"translate, a number every 4 bytes", BYTES, make_marks_4, run_translate, NULL, NULL},
    {"translate, a number every 8 bytes", BYTES, make_marks_8, run_translate, NULL, NULL},
    {"translate, a number every 16 bytes", BYTES, make_marks_16, run_translate, NULL, NULL},
    {"check_table, 256 records", "the records", make_records, run_check, "a hash", by_hash},
    {"check_table, 256 names alike", "the records", make_alike_records, run_check, "a hash", by_hash},
    {"look_up, names of a full house table, empty farm's", "the records", make_look_ups, run_look_up, NULL, NULL},
    {"look_up, unknown names, a full house table", "the records", make_misses, run_look_up, NULL, NULL},
    {"look_up, names alike in length", "the records", make_level_look_ups, run_look_up, NULL, NULL},
    {"look_up, unknown names alike in length", "the records", make_level_misses, run_look_up, NULL, NULL},
    {"look_up, names alike up to their end", "the records", make_alike_look_ups, run_look_up, NULL, NULL},
    {"look_up, unknown names alike up to their end", "the records", make_alike_misses, run_look_up, NULL, NULL},
    {"look_up, over a full farm's and house table", "the records", make_look_ups_in_both, run_look_up, NULL, NULL},
    {"build_index, 256 records", FOURFOLD, make_indexed_names, run_build, "a hash and qsort", by_qsort},
    {"build_index, 256 names alike in length", FOURFOLD, make_indexed_level_names, run_build, "a hash and qsort", by_qsort},
    {"build_index, 256 names alike up to their end", FOURFOLD, make_indexed_alike_names, run_build, "a hash and qsort", by_qsort},
    {"build_index, 256 names in falling order", FOURFOLD, make_indexed_falling_names, run_build, "a hash and qsort", by_qsort},
    {"look_up through an index, names of a full house table", FOURFOLD, make_indexed_names, run_look_up, WITHOUT, look_up_without},
    {"look_up through an index, unknown names", FOURFOLD, make_indexed_misses, run_look_up, WITHOUT, look_up_without},
    {"look_up through an index, names alike in length", FOURFOLD, make_indexed_level_names, run_look_up, WITHOUT, look_up_without},
    {"look_up through an index, unknown names alike in length", FOURFOLD, make_indexed_level_misses, run_look_up, WITHOUT,
     look_up_without},
    {"look_up through an index, names alike up to their end", FOURFOLD, make_indexed_alike_names, run_look_up, WITHOUT,
     look_up_without},
    {"look_up through an index, unknown names alike up to their end", FOURFOLD, make_indexed_alike_misses, run_look_up, WITHOUT,
     look_up_without},
    {"look_up through an index, over a full farm's and house table", FOURFOLD, make_indexed_names_in_both, run_look_up, WITHOUT,
     look_up_without},
    {"evaluate, a long sum", BYTES, make_sums, run_evaluate, NULL, NULL},
    {"evaluate, brackets 16 deep", BYTES, make_brackets, run_evaluate, NULL, NULL},
    {"evaluate, all operators", BYTES, make_mixture, run_evaluate, NULL, NULL},
    {"evaluate, a sum of names", BYTES " and names", make_names, run_evaluate, NULL, NULL},
    {"evaluate, a sum of names over both tables", BYTES " and names", make_names_of_both, run_evaluate, NULL, NULL},
    {"convert_date, a diary stamp", "the dates", make_stamps, run_dates, BOTH_CALLS, by_gmtime_and_strftime},
    {"convert_date, a diary stamp, beside strftime alone", "the dates", make_stamps, run_dates, "strftime", by_strftime_alone},
    {"convert_date, a diary stamp, times of one summer", "the dates", make_summer_stamps, run_dates, BOTH_CALLS, by_gmtime_and_strftime},
    {"convert_date, the book's format", "the dates", make_book_dates, run_dates, BOTH_CALLS, by_gmtime_and_strftime},
    {"convert_date, a day only", "the dates", make_days, run_dates, BOTH_CALLS, by_gmtime_and_strftime},
    {"convert_date, all fields", "the dates", make_all_fields, run_dates, NULL, NULL},
    {"convert_date, all fields but hundredths", "the dates", make_all_but_hundredths, run_dates, BOTH_CALLS, by_gmtime_and_strftime},
    {"convert_date, 1,000 bytes with 7 fields", "the bytes between fields", make_letters, run_dates, BOTH_CALLS, by_gmtime_and_strftime},
    {"convert_date, a field every 8 bytes", "the format's bytes", make_field_every_8, run_dates, BOTH_CALLS, by_gmtime_and_strftime},
    {"convert_date, refused for its last field", "the dates", make_bad_fields, run_dates, NULL, NULL},
    {"convert_date, refused for room", "the dates", make_short_rooms, run_dates, NULL, NULL},
};
const size_t work_count = sizeof works / sizeof *works;
