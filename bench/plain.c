/* The same work in plain C, as a careful emulator's author writes it by hand: the opponent of the benchmarks. Nothing here is
 * proved. It answers as include/nosgoludd.h says; the set's name comes from the command line, PLAIN_NAME, and so does that of the
 * function for dates, PLAIN_DATE, which is in dates.c. */
#include "calls.h"

#include <stdbool.h>
#include <string.h>

enum { DEEPEST = 16, MOST_RECORDS = 256, MOST_LOOK_UPS = 1024 };

/* ---- Numbers to strings. Each function writes from the right, up to end, and gives the length. */

static size_t put_fixed(uint8_t *end, uint32_t value, unsigned digits, unsigned bits)
{
    for (unsigned i = 1; i <= digits; i++) {
        end[-(int)i] = (uint8_t)"0123456789ABCDEF"[value & ((1u << bits) - 1)];
        value >>= bits;
    }
    return digits;
}

static size_t put_unsigned(uint8_t *end, uint32_t value)
{
    uint8_t *p = end;
    do {
        *--p = (uint8_t)('0' + value % 10);
        value /= 10;
    } while (value != 0);
    return (size_t)(end - p);
}

static size_t put_spaced(uint8_t *end, uint32_t value)
{
    uint8_t *p = end;
    unsigned group = 0;
    do {
        if (group == 3) {
            *--p = ' ';
            group = 0;
        }
        *--p = (uint8_t)('0' + value % 10);
        value /= 10;
        group++;
    } while (value != 0);
    return (size_t)(end - p);
}

static size_t put_signed(uint8_t *end, int32_t value, bool spaced)
{
    uint32_t size = value < 0 ? 0u - (uint32_t)value : (uint32_t)value;
    size_t length = spaced ? put_spaced(end, size) : put_unsigned(end, size);
    if (value < 0) end[-(int)++length] = '-';
    return length;
}

/* The string of a call from NOS_UNSIGNED_1 on: five families of one to four bytes. */
static size_t put_by_bytes(uint8_t *end, uint32_t call, uint32_t value)
{
    unsigned bytes = (call - NOS_UNSIGNED_1) % 4 + 1;
    unsigned unused = 32 - 8 * bytes;
    uint32_t low = value << unused >> unused;
    int32_t number = (int32_t)(value << unused) >> unused;
    switch ((call - NOS_UNSIGNED_1) / 4) {
    case 0: return put_unsigned(end, low);
    case 1: return put_signed(end, number, false);
    case 2: return put_fixed(end, low, 8 * bytes, 1);
    case 3: return put_spaced(end, low);
    default: return put_signed(end, number, true);
    }
}

static struct nos_answer refused_conversion(unsigned number, size_t need, size_t room)
{
    return (struct nos_answer){.number = number, .need = need, .free = room};
}

/* &28 has the string of &DC, and no zero byte behind it. For the others that byte stands ready there, so that one copy takes both. */
static struct nos_answer convert(uint32_t call, uint32_t value, uint8_t *buf, size_t room)
{
    static const uint8_t hex_digits[] = {1, 2, 4, 6, 8};
    uint8_t string[41], *end = string + sizeof string - 1;
    size_t length, need;
    bool ended = true;
    *end = 0;
    call &= ~0x20000u;
    if (call == NOS_DECIMAL) {
        call = NOS_SIGNED_4;
        ended = false;
    }
    if (call < NOS_HEX_1 || call > NOS_SPACED_SIGNED_4) return refused_conversion(NOS_UNKNOWN_CALL, 0, room);
    if (call <= NOS_HEX_8)
        length = put_fixed(end, value, hex_digits[call - NOS_HEX_1], 4);
    else
        length = put_by_bytes(end, call, value);
    need = length + ended;
    if (room < need) return refused_conversion(NOS_NO_ROOM, need, room);
    memcpy(buf, end - length, need);
    return (struct nos_answer){.place = length, .need = need, .free = room - length};
}

/* ---- The unsigned reader. */

static unsigned digit_of(uint8_t c)
{
    unsigned d = c - (unsigned)'0';
    if (d < 10) return d;
    d = (c | 32u) - 'a';
    return d < 26 ? d + 10 : 36;
}

/* Digits from *at on; over 32 bits the value stays at 2 to the 32. */
static uint64_t read_digits(const uint8_t *text, size_t length, size_t *at, unsigned base)
{
    uint64_t value = 0;
    size_t i = *at;
    for (; i < length; i++) {
        unsigned d = digit_of(text[i]);
        if (d >= base) break;
        value = value * base + d;
        if (value >> 32) value = (uint64_t)1 << 32;
    }
    *at = i;
    return value;
}

static size_t skip_spaces(const uint8_t *text, size_t length, size_t at)
{
    while (at < length && text[at] == ' ') at++;
    return at;
}

static struct nos_number refused_number(unsigned number, size_t place)
{
    return (struct nos_number){.number = number, .place = place};
}

static struct nos_number read_unsigned(const uint8_t *text, size_t length, uint32_t whole, uint32_t limit)
{
    if (length > NOS_LONGEST) return refused_number(NOS_OVER_LENGTH, 0);
    size_t start = skip_spaces(text, length, 0), first = start, at = start;
    uint64_t value;
    if (at < length && text[at] == '&') {
        first = ++at;
        value = read_digits(text, length, &at, 16);
    } else {
        value = read_digits(text, length, &at, 10);
        if (at > first && at < length && text[at] == '_') {
            if (value < 2 || value > 36) return refused_number(NOS_BAD_BASE, start);
            first = ++at;
            value = read_digits(text, length, &at, (unsigned)value);
        }
    }
    if (at == first) return refused_number(NOS_NO_DIGIT, at);
    if (value >> 32) return refused_number(NOS_TOO_BIG, start);
    if (whole && at < length && text[at] > 32) return refused_number(NOS_NOT_ENDED, at);
    if (value > limit) return refused_number(NOS_OVER_LIMIT, start);
    return (struct nos_number){.value = (uint32_t)value, .place = at};
}

/* ---- Variables. The check leaves a list of the records behind, which look-ups use: the farm's come first, so that the first record
 * with an equal name is the one that is meant. Of a house table with its index no record is in the list. */

struct record {
    const uint8_t *name, *value;
    uint8_t kind, name_length, value_length;
};

struct variables {
    size_t farms, count; /* how many records are the farm's, and how many there are */
    bool indexed;        /* the house's are looked up through its index */
    const uint8_t *house, *index;
    size_t places; /* of the index */
    struct record records[2 * MOST_RECORDS];
};

static uint8_t small(uint8_t c)
{
    return c >= 'A' && c <= 'Z' ? c | 32 : c;
}

static bool is_name_byte(uint8_t c)
{
    return c > 32 && c < 127 && c != '"' && c != '<' && c != '>';
}

/* The first of so many records that has the name, or NULL. */
static const struct record *find_in(const struct record *records, size_t count, const uint8_t *name, size_t length)
{
    for (const struct record *r = records; r < records + count; r++) {
        if (r->name_length != length) continue;
        size_t i = 0;
        while (i < length && small(r->name[i]) == small(name[i])) i++;
        if (i == length) return r;
    }
    return NULL;
}

static struct record record_at(const uint8_t *at)
{
    return (struct record){.name = at + 5, .value = at + 5 + at[3], .kind = at[2], .name_length = at[3], .value_length = at[4]};
}

/* Reads the record at a place into *r, and gives its length, or 0 where it has not a record's shape. */
static size_t read_record(const uint8_t *at, size_t length, struct record *r)
{
    if (length < 5 || at[0] != 86 || at[1] != 82 || at[2] > NOS_MACRO) return 0;
    *r = record_at(at);
    size_t all = (size_t)5 + r->name_length + r->value_length;
    if (r->name_length < 1 || r->name_length > 32 || all > length) return 0;
    if (r->kind == NOS_INTEGER && r->value_length != 4) return 0;
    for (size_t i = 0; i < r->name_length; i++)
        if (!is_name_byte(r->name[i])) return 0;
    return all;
}

/* Reads the records of a table that is not too long. */
static struct nos_checked read_table(struct record *records, const uint8_t *table, size_t length)
{
    size_t count = 0;
    for (size_t at = 0; at < length; count++) {
        struct record r;
        size_t size = count < MOST_RECORDS ? read_record(table + at, length - at, &r) : 0;
        if (size == 0 || find_in(records, count, r.name, r.name_length)) return (struct nos_checked){.number = NOS_BAD_TABLE, .place = at};
        records[count] = r;
        at += size;
    }
    return (struct nos_checked){.records = (uint32_t)count};
}

static struct nos_checked check_table(const uint8_t *table, size_t length)
{
    struct record records[MOST_RECORDS];
    if (length > NOS_LONGEST) return (struct nos_checked){.number = NOS_OVER_LENGTH};
    return read_table(records, table, length);
}

/* ---- The index of a table: the places of its records, sorted by name. */

/* Under 0, 0 or over 0: the name of a record stands before another name, is equal to it, or stands behind it. */
static int order(const uint8_t *record, const uint8_t *name, size_t length)
{
    size_t own = record[3], shorter = own < length ? own : length;
    for (size_t i = 0; i < shorter; i++) {
        uint8_t a = record[5 + i], b = name[i];
        if (a == b) continue;
        int difference = small(a) - small(b);
        if (difference) return difference;
    }
    return (own > length) - (own < length);
}

static size_t place_at(const uint8_t *index, size_t i)
{
    return index[2 * i] | (size_t)index[2 * i + 1] << 8;
}

/* Whether a name is among the first places of an index; *at is where, or where it belongs. */
static bool search(const uint8_t *table, const uint8_t *index, size_t count, const uint8_t *name, size_t length, size_t *at)
{
    size_t low = 0, high = count;
    while (low < high) {
        size_t middle = (low + high) / 2;
        int o = order(table + place_at(index, middle), name, length);
        if (o == 0) {
            *at = middle;
            return true;
        }
        if (o < 0) low = middle + 1;
        else high = middle;
    }
    *at = low;
    return false;
}

static struct nos_answer refused_table(unsigned number, size_t place, size_t room)
{
    return (struct nos_answer){.number = number, .counted = NOS_IN_THE_HOUSE, .place = place, .free = room};
}

/* Each record is put in its place among those before it, so that of two equal names the later one is seen. */
static struct nos_answer build_index(const uint8_t *table, size_t length, uint8_t *out, size_t room)
{
    uint8_t index[2 * MOST_RECORDS];
    size_t count = 0, gap;
    if (length > NOS_LONGEST) return refused_table(NOS_OVER_LENGTH, 0, room);
    for (size_t at = 0; at < length; count++) {
        struct record r;
        size_t size = count < MOST_RECORDS ? read_record(table + at, length - at, &r) : 0;
        if (size == 0 || search(table, index, count, r.name, r.name_length, &gap)) return refused_table(NOS_BAD_TABLE, at, room);
        uint8_t *to = index + 2 * gap;
        memmove(to + 2, to, 2 * (count - gap));
        to[0] = (uint8_t)at;
        to[1] = (uint8_t)(at >> 8);
        at += size;
    }
    if (room < 2 * count) return refused_conversion(NOS_NO_ROOM, 2 * count, room);
    if (count) memcpy(out, index, 2 * count);
    return (struct nos_answer){.need = 2 * count, .free = room - 2 * count};
}

/* Marks the place of each record, and gives whether all have a record's shape and are as many as the index has places. */
static bool mark_records(uint8_t *marks, const uint8_t *table, size_t length, size_t places)
{
    size_t count = 0;
    memset(marks, 0, length / 8 + 1);
    for (size_t at = 0; at < length; count++) {
        struct record r;
        size_t size = count < places ? read_record(table + at, length - at, &r) : 0;
        if (size == 0) return false;
        marks[at / 8] |= (uint8_t)(1u << at % 8);
        at += size;
    }
    return count == places;
}

/* Whether the index is that of the house table, and the table good: then every name along the index stands before the next, so that none
 * is there twice and no record is left out. */
static bool index_fits(const struct nos_tables *lent)
{
    uint8_t marks[NOS_LONGEST / 8 + 1];
    size_t places = lent->index_length / 2;
    const uint8_t *last = NULL;
    if (lent->index_length % 2 || places > MOST_RECORDS) return false;
    if (!mark_records(marks, lent->house, lent->house_length, places)) return false;
    for (size_t i = 0; i < places; i++) {
        size_t place = place_at(lent->index, i);
        if (place >= lent->house_length || !(marks[place / 8] >> place % 8 & 1)) return false;
        const uint8_t *record = lent->house + place;
        if (last && order(last, record + 5, record[3]) >= 0) return false;
        last = record;
    }
    return true;
}

/* The record that is meant by a name, or NULL. One that is found through the index is read into *r. */
static const struct record *find(const struct variables *all, const uint8_t *name, size_t length, struct record *r)
{
    const struct record *listed = find_in(all->records, all->count, name, length);
    size_t at;
    if (listed || !all->indexed || !search(all->house, all->index, all->places, name, length, &at)) return listed;
    *r = record_at(all->house + place_at(all->index, at));
    return r;
}

/* ---- Both tables. */

/* What is wrong with the length of a text, its tables or their index; the number is 0 where nothing is. */
struct judged {
    uint32_t number, counted;
    size_t place;
};

/* Where the index does not fit, the house table is read as without one: if that is bad, it comes first. */
static struct judged read_both(struct variables *all, size_t text_length, struct nos_tables lent)
{
    if (text_length > NOS_LONGEST) return (struct judged){NOS_OVER_LENGTH, NOS_IN_THE_TEXT, 0};
    if (lent.farm_length > NOS_LONGEST) return (struct judged){NOS_OVER_LENGTH, NOS_IN_THE_FARM, 0};
    if (lent.house_length > NOS_LONGEST) return (struct judged){NOS_OVER_LENGTH, NOS_IN_THE_HOUSE, 0};
    struct nos_checked farm = read_table(all->records, lent.farm, lent.farm_length);
    if (farm.number) return (struct judged){farm.number, NOS_IN_THE_FARM, farm.place};
    all->farms = all->count = farm.records;
    all->indexed = lent.indexed && index_fits(&lent);
    all->house = lent.house;
    all->index = lent.index;
    all->places = lent.index_length / 2;
    if (all->indexed) return (struct judged){0};
    struct nos_checked house = read_table(all->records + farm.records, lent.house, lent.house_length);
    if (house.number) return (struct judged){house.number, NOS_IN_THE_HOUSE, house.place};
    if (lent.indexed) return (struct judged){NOS_BAD_INDEX, NOS_IN_THE_INDEX, 0};
    all->count += house.records;
    return (struct judged){0};
}

static struct nos_variable look_up(const uint8_t *name, size_t name_length, const uint8_t *farm, size_t farm_length,
                                   const uint8_t *house, size_t house_length, const uint8_t *index, size_t index_length,
                                   uint32_t indexed)
{
    struct variables all;
    struct record by_index;
    struct nos_tables lent = {farm, farm_length, house, house_length, index, index_length, indexed};
    struct judged judged = read_both(&all, 0, lent);
    if (judged.number) return (struct nos_variable){.number = judged.number, .counted = judged.counted, .place = judged.place};
    const struct record *r = find(&all, name, name_length, &by_index);
    if (!r) return (struct nos_variable){.number = NOS_UNKNOWN_NAME};
    bool is_farms = r != &by_index && r < all.records + all.farms;
    const uint8_t *table = is_farms ? farm : house;
    return (struct nos_variable){.counted = is_farms ? NOS_IN_THE_FARM : NOS_IN_THE_HOUSE, .place = (size_t)(r->name - 5 - table),
                                 .kind = r->kind, .length = r->value_length, .start = (size_t)(r->value - table)};
}

static uint32_t integer_of(const struct record *r)
{
    return r->value[0] | (uint32_t)r->value[1] << 8 | (uint32_t)r->value[2] << 16 | (uint32_t)r->value[3] << 24;
}

/* ---- GS strings. Two passes: with no output the first only counts, so that a refusal writes nothing. */

struct work {
    const struct variables *variables;
    unsigned left;
    uint8_t *out;
    size_t need;
};

/* One text, at any level, and where its reading stands. */
struct reading {
    const uint8_t *text;
    size_t length, at, quote;
    uint32_t flags;
    bool quoted;
};

static unsigned expand(struct work *w, struct reading *r, unsigned depth);

static void give(struct work *w, uint8_t c)
{
    if (w->out) w->out[w->need] = c;
    w->need++;
}

static void give_all(struct work *w, const uint8_t *bytes, size_t length)
{
    if (w->out) memcpy(w->out + w->need, bytes, length);
    w->need += length;
}

/* The byte at a place; behind the end it is one that ends the text anyway. */
static uint8_t peek(const struct reading *r, size_t at)
{
    return at < r->length ? r->text[at] : 0;
}

static bool is_end(uint8_t c)
{
    return c == 0 || c == 10 || c == 13;
}

/* What stands for the byte behind a bar, or -1. */
static int code_of(uint8_t c)
{
    if (c >= '@' && c <= 'Z') return c - '@';
    if (c >= 'a' && c <= 'z') return c - '`';
    switch (c) {
    case '[': case '{': return 27;
    case '\\': return 28;
    case ']': case '}': return 29;
    case '^': case '~': return 30;
    case '_': case '\'': return 31;
    case '?': return 127;
    case '|': case '<': case '"': return c;
    default: return -1;
    }
}

/* A bar at r->at, and what stands behind it. */
static unsigned give_code(struct work *w, struct reading *r)
{
    uint8_t c = peek(r, r->at + 1), top = 0;
    size_t next = r->at + 2;
    int code;
    if (c == '!') {
        top = 128;
        c = peek(r, r->at + 2);
        next = r->at + 3;
        if (is_end(c) || c == '<' || c == '"') return NOS_BAD_CODE;
        if (c == ' ' && !r->quoted && r->flags & NOS_SPACE_ENDS) return NOS_BAD_CODE;
        if (c != '|') {
            give(w, c | top);
            r->at = next;
            return 0;
        }
        c = peek(r, next++);
    }
    code = code_of(c);
    if (code < 0) return NOS_BAD_CODE;
    give(w, (uint8_t)code | top);
    r->at = next;
    return 0;
}

static unsigned give_variable(struct work *w, const struct record *v, unsigned depth)
{
    uint8_t digits[12], *end = digits + sizeof digits;
    size_t length;
    if (v->kind == NOS_MACRO && depth == DEEPEST) return NOS_TOO_DEEP;
    if (w->left == 0) return NOS_ALLOWANCE_SPENT;
    w->left--;
    switch (v->kind) {
    case NOS_STRING:
        give_all(w, v->value, v->value_length);
        return 0;
    case NOS_INTEGER:
        length = put_signed(end, (int32_t)integer_of(v), false);
        give_all(w, end - length, length);
        return 0;
    default:
        return expand(w, &(struct reading){.text = v->value, .length = v->value_length}, depth + 1);
    }
}

/* A "<" at r->at: the number of a byte, or a name, up to its ">". */
static unsigned give_reference(struct work *w, struct reading *r, unsigned depth)
{
    const uint8_t *content = r->text + r->at + 1;
    size_t end = r->at + 1;
    unsigned number;
    while (is_name_byte(peek(r, end))) end++;
    size_t length = end - r->at - 1;
    if (length == 0 || peek(r, end) != '>') return NOS_BAD_REFERENCE;
    struct nos_number read = read_unsigned(content, length, 1, NOS_NO_LIMIT);
    if (read.number == 0) {
        if (read.value > 255) return NOS_CODE_OVER_255;
        give(w, (uint8_t)read.value);
    } else {
        if (read.number == NOS_TOO_BIG) return NOS_TOO_BIG;
        struct record by_index;
        const struct record *v = find(w->variables, content, length, &by_index);
        if (!v) return NOS_UNKNOWN_NAME;
        number = give_variable(w, v, depth);
        if (number) return number;
    }
    r->at = end + 1;
    return 0;
}

/* Behind a closing quote. */
static unsigned end_quoted(struct reading *r)
{
    if (!(r->flags & NOS_SPACE_ENDS)) r->at = skip_spaces(r->text, r->length, r->at);
    else if (peek(r, r->at) == ' ') return 0;
    return is_end(peek(r, r->at)) ? 0 : NOS_BAD_STRING;
}

/* Gives the ordinary bytes from r->at on, byte by byte. */
static void give_ordinary(struct work *w, struct reading *r)
{
    const uint8_t *text = r->text;
    size_t at = r->at, length = r->length, need = w->need;
    uint8_t *out = w->out;
    bool space_ends = !r->quoted && r->flags & NOS_SPACE_ENDS;
    for (; at < length; at++) {
        uint8_t c = text[at];
        if (c <= '"' && (is_end(c) || c == '"' || (c == ' ' && space_ends))) break;
        if (c == '|' || c == '<') break;
        if (out) out[need] = c;
        need++;
    }
    r->at = at;
    w->need = need;
}

/* Reads a text to its end or to a refusal, at r->at. */
static unsigned read_on(struct work *w, struct reading *r, unsigned depth)
{
    unsigned number;
    for (;;) {
        give_ordinary(w, r);
        uint8_t c = peek(r, r->at);
        switch (c) {
        case '"':
            if (!r->quoted) break;
            if (peek(r, ++r->at) != '"') return end_quoted(r);
            break;
        case '|':
            if (r->flags & NOS_BAR_PLAIN) break;
            if ((number = give_code(w, r)) != 0) return number;
            continue;
        case '<':
            if ((number = give_reference(w, r, depth)) != 0) return number;
            continue;
        default: /* an end, or a space that ends the text */
            if (!r->quoted) return 0;
            r->at = r->quote;
            return NOS_BAD_STRING;
        }
        give(w, c);
        r->at++;
    }
}

static unsigned expand(struct work *w, struct reading *r, unsigned depth)
{
    r->at = skip_spaces(r->text, r->length, 0);
    if (peek(r, r->at) == '"' && !(r->flags & NOS_QUOTE_PLAIN)) {
        r->quoted = true;
        r->quote = r->at++;
    }
    return read_on(w, r, depth);
}

static struct nos_answer refused_text(unsigned number, unsigned counted, size_t place, size_t need, size_t room)
{
    return (struct nos_answer){number, counted, place, need, room};
}

static struct nos_answer translate(const uint8_t *text, size_t length, const uint8_t *farm, size_t farm_length, const uint8_t *house,
                                   size_t house_length, const uint8_t *index, size_t index_length, uint32_t indexed, uint32_t flags,
                                   uint32_t allowance, uint8_t *out, size_t room)
{
    struct variables all;
    struct nos_tables lent = {farm, farm_length, house, house_length, index, index_length, indexed};
    struct judged judged = read_both(&all, length, lent);
    if (judged.number) return refused_text(judged.number, judged.counted, judged.place, 0, room);
    unsigned left = allowance < MOST_LOOK_UPS ? allowance : MOST_LOOK_UPS;
    struct work measure = {.variables = &all, .left = left}, write = {.variables = &all, .left = left, .out = out};
    struct reading first = {.text = text, .length = length, .flags = flags}, second = first;
    unsigned number = expand(&measure, &first, 0);
    if (number) return refused_text(number, NOS_IN_THE_TEXT, first.at, 0, room);
    if (measure.need > room) return refused_text(NOS_NO_ROOM, NOS_IN_THE_TEXT, 0, measure.need, room);
    if (measure.need) expand(&write, &second, 0);
    return (struct nos_answer){.place = first.at, .need = measure.need, .free = room - measure.need};
}

/* ---- Expressions: recursive descent with one token of look-ahead. What the evaluation meets waits until the syntax is known. */

enum kind { END, OPERATOR, NUMBER, BAD_NUMBER, NAME, OPEN, CLOSE, STRANGE };
enum operator { NOT, TIMES, OVER, MOD, PLUS, MINUS, EQUAL, UNEQUAL, LESS, GREATER, AT_MOST, AT_LEAST, LEFT, RIGHT, RIGHT_UNSIGNED,
                AND, OR, EOR };
enum { NO_LEVEL = 0, LOOSEST = 5 };

struct token {
    enum kind kind;
    enum operator operator;
    unsigned level, number;  /* how tightly it binds, the tightest 1; a bad number's refusal */
    uint32_t value;
    size_t place, next;      /* of a bad number, next is the refusal's place */
};

struct parser {
    const uint8_t *text;
    size_t length;
    const struct variables *variables;
    unsigned left;
    struct token token;
    unsigned wrong, refused;
    size_t wrong_place, refused_place;
};

static void set_operator(struct token *t, enum operator operator, unsigned level, size_t length)
{
    t->kind = OPERATOR;
    t->operator = operator;
    t->level = level;
    t->next = t->place + length;
}

static uint8_t byte_at(const struct parser *p, size_t at)
{
    return at < p->length ? p->text[at] : 0;
}

static bool is_letter(uint8_t c)
{
    return (c | 32u) - 'a' < 26;
}

static void read_word(struct parser *p)
{
    struct token *t = &p->token;
    const uint8_t *word = p->text + t->place;
    size_t next = t->place + 1;
    uint8_t c;
    while (c = byte_at(p, next), is_letter(c) || c - (unsigned)'0' < 10 || c == '_' || c == '$') next++;
    t->kind = NAME;
    t->next = next;
    if (next - t->place == 3) {
        if (memcmp(word, "MOD", 3) == 0) set_operator(t, MOD, 1, 3);
        else if (memcmp(word, "AND", 3) == 0) set_operator(t, AND, 4, 3);
        else if (memcmp(word, "EOR", 3) == 0) set_operator(t, EOR, 5, 3);
        else if (memcmp(word, "NOT", 3) == 0) set_operator(t, NOT, NO_LEVEL, 3);
    } else if (next - t->place == 2 && memcmp(word, "OR", 2) == 0) {
        set_operator(t, OR, 5, 2);
    }
}

static void read_number(struct parser *p)
{
    struct token *t = &p->token;
    struct nos_number read = read_unsigned(p->text + t->place, p->length - t->place, 0, NOS_NO_LIMIT);
    t->number = read.number;
    t->kind = t->number ? BAD_NUMBER : NUMBER;
    t->value = read.value;
    t->next = t->place + read.place;
}

static void read_relation(struct parser *p, uint8_t c, uint8_t d)
{
    struct token *t = &p->token;
    if (c == '<') {
        if (d == '>') set_operator(t, UNEQUAL, 3, 2);
        else if (d == '=') set_operator(t, AT_MOST, 3, 2);
        else if (d == '<') set_operator(t, LEFT, 3, 2);
        else set_operator(t, LESS, 3, 1);
    } else if (d == '=') {
        set_operator(t, AT_LEAST, 3, 2);
    } else if (d == '>') {
        if (byte_at(p, t->place + 2) == '>') set_operator(t, RIGHT_UNSIGNED, 3, 3);
        else set_operator(t, RIGHT, 3, 2);
    } else {
        set_operator(t, GREATER, 3, 1);
    }
}

/* Reads the token behind a place. */
static void read_token(struct parser *p, size_t at)
{
    struct token *t = &p->token;
    t->place = at = skip_spaces(p->text, p->length, at);
    t->next = at + 1;
    t->level = NO_LEVEL;
    uint8_t c = byte_at(p, at);
    switch (c) {
    case 0: case 10: case 13: t->kind = END; return;
    case '(': t->kind = OPEN; return;
    case ')': t->kind = CLOSE; return;
    case '*': set_operator(t, TIMES, 1, 1); return;
    case '/': set_operator(t, OVER, 1, 1); return;
    case '+': set_operator(t, PLUS, 2, 1); return;
    case '-': set_operator(t, MINUS, 2, 1); return;
    case '=': set_operator(t, EQUAL, 3, 1); return;
    case '<': case '>': read_relation(p, c, byte_at(p, at + 1)); return;
    case '&': case '0': case '1': case '2': case '3': case '4': case '5': case '6': case '7': case '8': case '9':
        read_number(p);
        return;
    }
    if (is_letter(c)) read_word(p);
    else t->kind = STRANGE;
}

static uint32_t wrong(struct parser *p, unsigned number, size_t place)
{
    p->wrong = number;
    p->wrong_place = place;
    return 0;
}

static uint32_t refuse(struct parser *p, unsigned number, size_t place)
{
    if (p->refused == 0) {
        p->refused = number;
        p->refused_place = place;
    }
    return 0;
}

static uint32_t shift_right(uint32_t l, uint32_t by)
{
    return (uint32_t)((int32_t)l >> (by < 32 ? by : 31));
}

static uint32_t divide(struct parser *p, enum operator operator, size_t place, int32_t l, int32_t r)
{
    if (r == 0) return refuse(p, NOS_ZERO_DIVISOR, place);
    if (r == -1) return operator == OVER ? 0u - (uint32_t)l : 0;
    return (uint32_t)(operator == OVER ? l / r : l % r);
}

static uint32_t apply(struct parser *p, enum operator operator, size_t place, uint32_t l, uint32_t r)
{
    int32_t a = (int32_t)l, b = (int32_t)r;
    switch (operator) {
    case TIMES: return l * r;
    case OVER: case MOD: return divide(p, operator, place, a, b);
    case PLUS: return l + r;
    case MINUS: return l - r;
    case EQUAL: return 0u - (l == r);
    case UNEQUAL: return 0u - (l != r);
    case LESS: return 0u - (a < b);
    case GREATER: return 0u - (a > b);
    case AT_MOST: return 0u - (a <= b);
    case AT_LEAST: return 0u - (a >= b);
    case LEFT: return r < 32 ? l << r : 0;
    case RIGHT: return shift_right(l, r);
    case RIGHT_UNSIGNED: return r < 32 ? l >> r : 0;
    case AND: return l & r;
    case OR: return l | r;
    case EOR: return l ^ r;
    default: return 0;
    }
}

static uint32_t expression(struct parser *p, unsigned level, unsigned depth);

static uint32_t value_of_name(struct parser *p, const struct token *t)
{
    if (p->refused) return 0;
    const struct record *v = find_in(p->variables->records, p->variables->count, p->text + t->place, t->next - t->place);
    if (!v) return refuse(p, NOS_UNKNOWN_NAME, t->place);
    if (v->kind != NOS_INTEGER) return refuse(p, NOS_NOT_AN_INTEGER, t->place);
    if (p->left == 0) return refuse(p, NOS_ALLOWANCE_SPENT, t->place);
    p->left--;
    return integer_of(v);
}

static uint32_t bracket(struct parser *p, unsigned depth)
{
    uint32_t value = expression(p, LOOSEST, depth + 1);
    if (p->wrong) return 0;
    if (p->token.kind != CLOSE) return wrong(p, NOS_BAD_EXPRESSION, p->token.place);
    read_token(p, p->token.next);
    return value;
}

static uint32_t unary(struct parser *p, enum operator operator, unsigned depth)
{
    uint32_t value = expression(p, NO_LEVEL, depth + 1);
    switch (operator) {
    case NOT: return ~value;
    case MINUS: return 0u - value;
    default: return value;
    }
}

static uint32_t operand(struct parser *p, unsigned depth)
{
    struct token t = p->token;
    uint32_t value = t.value;
    switch (t.kind) {
    case BAD_NUMBER: return wrong(p, t.number, t.next);
    case NAME:
        value = value_of_name(p, &t);
        /* fall through */
    case NUMBER:
        read_token(p, t.next);
        return value;
    case OPERATOR:
        if (t.operator != NOT && t.operator != PLUS && t.operator != MINUS) break;
        /* fall through */
    case OPEN:
        if (depth == DEEPEST) return wrong(p, NOS_TOO_DEEP, t.place);
        read_token(p, t.next);
        return t.kind == OPEN ? bracket(p, depth) : unary(p, t.operator, depth);
    default:
        break;
    }
    return wrong(p, NOS_BAD_EXPRESSION, t.place);
}

/* Operands with operators between them that bind at least as tightly as a level. */
static uint32_t expression(struct parser *p, unsigned level, unsigned depth)
{
    uint32_t left = operand(p, depth);
    while (!p->wrong && p->token.level != NO_LEVEL && p->token.level <= level) {
        enum operator operator = p->token.operator;
        unsigned tighter = p->token.level - 1;
        size_t place = p->token.place;
        read_token(p, p->token.next);
        uint32_t right = expression(p, tighter, depth);
        left = apply(p, operator, place, left, right);
    }
    return left;
}

static struct nos_value refused_expression(unsigned number, unsigned counted, size_t place)
{
    return (struct nos_value){.number = number, .counted = counted, .place = place};
}

static struct nos_value evaluate(const uint8_t *text, size_t length, const uint8_t *farm, size_t farm_length, const uint8_t *house,
                                 size_t house_length, uint32_t allowance)
{
    struct variables all;
    struct judged judged = read_both(&all, length, (struct nos_tables){farm, farm_length, house, house_length, NULL, 0, 0});
    if (judged.number) return refused_expression(judged.number, judged.counted, judged.place);
    struct parser p = {.text = text, .length = length, .variables = &all};
    p.left = allowance < MOST_LOOK_UPS ? allowance : MOST_LOOK_UPS;
    read_token(&p, 0);
    uint32_t value = expression(&p, LOOSEST, 0);
    if (!p.wrong && p.token.kind != END) wrong(&p, NOS_BAD_EXPRESSION, p.token.place);
    if (p.wrong) return refused_expression(p.wrong, NOS_IN_THE_TEXT, p.wrong_place);
    if (p.refused) return refused_expression(p.refused, NOS_IN_THE_TEXT, p.refused_place);
    return (struct nos_value){.place = p.token.place, .value = (int32_t)value};
}

const struct calls PLAIN_NAME = {
    .name = "plain C",
    .convert = convert,
    .read_unsigned = read_unsigned,
    .check_table = check_table,
    .build_index = build_index,
    .look_up = look_up,
    .translate = translate,
    .evaluate = evaluate,
    .convert_date = PLAIN_DATE,
};
