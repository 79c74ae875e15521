/* Tables of variables in a buffer of the caller's: see tables.h. A change is judged first, and made only where the library takes it, so
 * that a refusal has nothing to undo. */
#include <string.h>

#include "tables.h"

/* A record is a head (two bytes of mark, the kind, the lengths of name and value), the name, the value. */
enum { MARK_1 = 86, MARK_2 = 82, HEAD = 5, LONGEST_RECORD = HEAD + UINT8_MAX + UINT8_MAX };

static size_t record_length(const uint8_t *record) { return (size_t)HEAD + record[3] + record[4]; }

static struct table_change changed(uint32_t number, size_t place, size_t need)
{
    struct table_change change = {number, place, need};
    return change;
}

/* Copies bytes; where there are none, the pointer may be NULL. */
static void copy(uint8_t *to, const uint8_t *from, size_t length)
{
    if (length > 0) memcpy(to, from, length);
}

/* Writes the record of a variable to an array of LONGEST_RECORD bytes; its length. 0: no record can have that kind or these lengths,
 * which are a byte each. */
static size_t put_record(uint8_t *record, const struct table_variable *variable)
{
    if (variable->kind > UINT8_MAX || variable->name_length > UINT8_MAX || variable->value_length > UINT8_MAX) return 0;
    const uint8_t head[HEAD] = {MARK_1, MARK_2, (uint8_t)variable->kind, (uint8_t)variable->name_length,
                                (uint8_t)variable->value_length};
    copy(record, head, HEAD);
    copy(record + HEAD, variable->name, variable->name_length);
    copy(record + HEAD + variable->name_length, variable->value, variable->value_length);
    return record_length(record);
}

/* The same; 0 also where the library does not take the record, as a table of its own. */
static size_t put_good_record(uint8_t *record, const struct table_variable *variable)
{
    size_t length = put_record(record, variable);
    return length > 0 && nos_check_table(record, length).number == NOS_ACCEPTED ? length : 0;
}

/* Whether a table may have so many records. The library is asked about the smallest ones, which have names of two letters and no value,
 * since the caller's buffer may lack the room for one more. There are more such names than records in any good table. */
static bool may_have(uint32_t records)
{
    enum { LETTERS = 26, NAME = 2, RECORD = HEAD + NAME };
    uint8_t smallest[LETTERS * LETTERS * RECORD];
    if (records > LETTERS * LETTERS) return false;
    for (uint32_t i = 0; i < records; i++) {
        const uint8_t name[NAME] = {(uint8_t)('a' + i / LETTERS), (uint8_t)('a' + i % LETTERS)};
        const struct table_variable variable = {NOS_STRING, name, NAME, NULL, 0, 0};
        put_record(smallest + i * RECORD, &variable);
    }
    return nos_check_table(smallest, (size_t)records * RECORD).number == NOS_ACCEPTED;
}

/* Puts a new record in place of the `old` bytes at a place, which may be none; so may the bytes of the new one. */
static void replace(struct table *table, size_t place, size_t old, const uint8_t *record, size_t length)
{
    uint8_t *at = table->bytes + place;
    memmove(at + length, at + old, table->length - place - old);
    copy(at, record, length);
    table->length += length - old;
}

/* Looks a name up in this table alone. */
static struct nos_variable find(const struct table *table, const uint8_t *name, size_t name_length)
{
    return nos_look_up(name, name_length, table->bytes, table->length, NULL, 0, NULL, 0, 0);
}

struct table table_make(uint8_t *bytes, size_t room)
{
    struct table table = {bytes, 0, room};
    return table;
}

struct table_change table_set(struct table *table, const struct table_variable *variable)
{
    uint8_t record[LONGEST_RECORD];
    struct nos_variable found = find(table, variable->name, variable->name_length);
    bool is_new = found.number == NOS_UNKNOWN_NAME;
    if (found.number != NOS_ACCEPTED && !is_new) return changed(found.number, found.place, 0);
    size_t place = is_new ? table->length : found.place;
    size_t old = is_new ? 0 : record_length(table->bytes + place);
    size_t length = put_good_record(record, variable);
    bool is_one_too_many = is_new && !may_have(nos_check_table(table->bytes, table->length).records + 1);
    if (length == 0 || is_one_too_many) return changed(NOS_BAD_TABLE, place, 0);
    size_t need = table->length - old + length;
    if (need > NOS_LONGEST) return changed(NOS_OVER_LENGTH, 0, 0);
    if (need > table->room) return changed(NOS_NO_ROOM, 0, need);
    replace(table, place, old, record, length);
    return changed(NOS_ACCEPTED, place, need);
}

static const uint8_t *bytes_of(const char *string) { return (const uint8_t *)string; }

static struct table_change set_text(struct table *table, uint32_t kind, const char *name, const char *value)
{
    struct table_variable variable = {kind, bytes_of(name), strlen(name), bytes_of(value), strlen(value), 0};
    return table_set(table, &variable);
}

struct table_change table_set_string(struct table *table, const char *name, const char *value)
{
    return set_text(table, NOS_STRING, name, value);
}

struct table_change table_set_integer(struct table *table, const char *name, int32_t value)
{
    uint32_t bits = (uint32_t)value;
    const uint8_t bytes[] = {(uint8_t)bits, (uint8_t)(bits >> 8), (uint8_t)(bits >> 16), (uint8_t)(bits >> 24)};
    struct table_variable variable = {NOS_INTEGER, bytes_of(name), strlen(name), bytes, sizeof bytes, 0};
    return table_set(table, &variable);
}

struct table_change table_set_macro(struct table *table, const char *name, const char *value)
{
    return set_text(table, NOS_MACRO, name, value);
}

struct table_change table_unset(struct table *table, const uint8_t *name, size_t name_length)
{
    struct nos_variable found = find(table, name, name_length);
    if (found.number != NOS_ACCEPTED) return changed(found.number, found.place, 0);
    replace(table, found.place, record_length(table->bytes + found.place), NULL, 0);
    return changed(NOS_ACCEPTED, found.place, table->length);
}

bool table_next(const uint8_t *table, size_t length, size_t *at, struct table_variable *variable)
{
    if (*at > length || length - *at < HEAD) return false;
    const uint8_t *record = table + *at, *name = record + HEAD;
    if (record[0] != MARK_1 || record[1] != MARK_2 || record_length(record) > length - *at) return false;
    const struct table_variable found = {record[2], name, record[3], name + record[3], record[4], *at};
    *variable = found;
    *at += record_length(record);
    return true;
}

int32_t table_integer(const struct table_variable *variable)
{
    uint32_t bits = 0;
    int32_t value;
    for (size_t i = 0; i < sizeof bits && i < variable->value_length; i++) bits |= (uint32_t)variable->value[i] << 8 * i;
    memcpy(&value, &bits, sizeof value);
    return value;
}

/* A line as it grows. Without an `out` it is counted and not written. */
struct line {
    char *out;
    size_t length;
};

static void put_byte(struct line *line, char byte)
{
    if (line->out != NULL) line->out[line->length] = byte;
    line->length++;
}

static void put_word(struct line *line, const char *word)
{
    while (*word != '\0') put_byte(line, *word++);
}

/* Writes a number by a call of nos_convert. */
static void put_number(struct line *line, uint32_t call, uint32_t value)
{
    uint8_t digits[12]; /* the most that a call used here needs */
    nos_convert(call, value, digits, sizeof digits);
    put_word(line, (const char *)digits);
}

static void put_code(struct line *line, uint8_t byte)
{
    put_word(line, "\\x");
    put_number(line, NOS_HEX_2, byte);
}

/* Writes a name or a value. A space is written as a code at the start and the end, where it would not be seen. */
static void put_bytes(struct line *line, const uint8_t *bytes, size_t length)
{
    for (size_t i = 0; i < length; i++) {
        bool is_at_an_end = i == 0 || i + 1 == length;
        if (bytes[i] == '\\')
            put_word(line, "\\\\");
        else if (bytes[i] < ' ' || bytes[i] > '~' || (bytes[i] == ' ' && is_at_an_end))
            put_code(line, bytes[i]);
        else
            put_byte(line, (char)bytes[i]);
    }
}

/* Writes the line of a variable that the library takes; its length. A "#" that a name starts with is written as a code, since a line
 * that starts with one is a remark. */
static size_t put_line(const struct table_variable *variable, char *out)
{
    static const char *const kinds[] = {" string", " integer", " macro"};
    struct line line = {out, 0};
    size_t coded = variable->name[0] == '#' ? 1 : 0;
    if (coded > 0) put_code(&line, '#');
    put_bytes(&line, variable->name + coded, variable->name_length - coded);
    put_word(&line, kinds[variable->kind]);
    if (variable->value_length > 0) put_byte(&line, ' ');
    if (variable->kind == NOS_INTEGER)
        put_number(&line, NOS_SIGNED_4, (uint32_t)table_integer(variable));
    else
        put_bytes(&line, variable->value, variable->value_length);
    put_byte(&line, '\n');
    return line.length;
}

size_t table_print(const struct table_variable *variable, char *out, size_t room)
{
    uint8_t record[LONGEST_RECORD];
    if (put_good_record(record, variable) == 0) return 0;
    size_t length = put_line(variable, NULL);
    return length > room ? length : put_line(variable, out);
}
