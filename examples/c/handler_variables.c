/* The calls of an emulated ARM machine that read and set its system variables, over the farm's table and the house's: see handler.h.
 *
 * A name is looked up in the farm's table and then in the house's; what is set or deleted is always of the farm's. A name with wildcards
 * ("#" is any byte, "*" any bytes or none) means one variable at a time: the first match, in the order of names, after the one that R3
 * points to. That order takes A to Z as a to z, and knows nothing of places in a table, so that a program may delete what it has found
 * and ask for the next. */
#include <string.h>

#include "handler_parts.h"

#define NEGATIVE (1u << 31)

/* Types in R4 beside those of enum nos_kind. */
enum { EXPANDED = 3, LITERAL = 4 };

/* Bytes that lie in the emulated memory, in a table or in an array. */
struct part {
    const uint8_t *bytes;
    size_t length;
};

/* Takes the name at an address, up to a byte of at most 32; false where memory ends before that byte, and the name is as it was. */
static bool take_name(const struct machine *machine, uint32_t at, struct part *name)
{
    for (uint32_t end = at; end < machine->size; end++)
        if (machine->memory[end] <= ' ') {
            name->bytes = machine->memory + at;
            name->length = end - at;
            return true;
        }
    return false;
}

static bool has_wildcards(struct part name)
{
    return name.length > 0 && (memchr(name.bytes, '*', name.length) != NULL || memchr(name.bytes, '#', name.length) != NULL);
}

/* Takes the name at R0, and the one that R3 points to, which was found by the call before. Without that one it is empty, and so comes
 * before every other. With a plain name R3 may be any number. */
static bool take_names(const struct machine *machine, const struct registers *registers, struct part *name, struct part *before)
{
    before->bytes = NULL;
    before->length = 0;
    if (!take_name(machine, registers->r[0], name)) return false;
    return registers->r[3] == 0 || take_name(machine, registers->r[3], before) || !has_wildcards(*name);
}

static int small(uint8_t byte) { return byte >= 'A' && byte <= 'Z' ? byte - 'A' + 'a' : byte; }

/* The order of names: less than 0 where one comes before the other, 0 where they are equal. A proper beginning comes first. */
static int compare(struct part one, struct part other)
{
    for (size_t i = 0; i < one.length && i < other.length; i++)
        if (small(one.bytes[i]) != small(other.bytes[i])) return small(one.bytes[i]) - small(other.bytes[i]);
    return (one.length > other.length) - (one.length < other.length);
}

/* Whether a name matches. Where bytes differ, the last "*" takes one byte more, and the comparison goes on from there. */
static bool matches(struct part wild, struct part name)
{
    size_t at = 0, i = 0, star = wild.length, taken = 0;
    while (i < name.length) {
        if (at < wild.length && wild.bytes[at] == '*') {
            star = at++;
            taken = i;
        } else if (at < wild.length && (wild.bytes[at] == '#' || small(wild.bytes[at]) == small(name.bytes[i]))) {
            at++;
            i++;
        } else if (star < wild.length) {
            at = star + 1;
            i = ++taken;
        } else {
            return false;
        }
    }
    while (at < wild.length && wild.bytes[at] == '*') at++;
    return at == wild.length;
}

/* What a name stands for. */
struct found {
    uint32_t number, counted; /* as by nos_look_up */
    struct table_variable variable;
};

static struct part name_of(const struct table_variable *variable)
{
    struct part name = {variable->name, variable->name_length};
    return name;
}

/* Goes through a good table for a match that comes after the name `before`, and ahead of the match that was found so far. So of equal
 * names the one of the table that is gone through first is kept. */
static void find_in(const uint8_t *table, size_t length, struct part wild, struct part before, struct found *found)
{
    struct table_variable variable;
    for (size_t at = 0; table_next(table, length, &at, &variable);) {
        struct part name = name_of(&variable);
        bool is_first = found->number != NOS_ACCEPTED || compare(name, name_of(&found->variable)) < 0;
        if (is_first && compare(name, before) > 0 && matches(wild, name)) {
            found->number = NOS_ACCEPTED;
            found->variable = variable;
        }
    }
}

/* Finds the variable that a name means, or the next one of a name with wildcards. The library judges both tables in any case. */
static struct found find(struct nos_tables tables, struct part name, struct part before)
{
    struct nos_variable answer = nos_look_up(name.bytes, name.length, NOS_INDEXED(tables));
    struct found found = {answer.number, answer.counted, {0, NULL, 0, NULL, 0, 0}};
    if (answer.number != NOS_ACCEPTED && answer.number != NOS_UNKNOWN_NAME) return found;
    if (has_wildcards(name)) {
        found.number = NOS_UNKNOWN_NAME; /* though a variable may have this very name, wildcards and all */
        found.counted = NOS_IN_THE_TEXT;
        find_in(tables.farm, tables.farm_length, name, before, &found);
        find_in(tables.house, tables.house_length, name, before, &found);
    } else if (answer.number == NOS_ACCEPTED) {
        bool is_of_the_farm = answer.counted == NOS_IN_THE_FARM;
        size_t at = answer.place;
        table_next(is_of_the_farm ? tables.farm : tables.house, is_of_the_farm ? tables.farm_length : tables.house_length, &at,
                   &found.variable);
    }
    return found;
}

/* A copy of a name with a zero byte after it. A name in a table moves when the table is changed. */
struct spelling {
    uint8_t bytes[NAME_ROOM];
    size_t length;
};

static struct spelling spell(struct part name)
{
    struct spelling spelling = {{0}, name.length};
    memcpy(spelling.bytes, name.bytes, name.length);
    return spelling;
}

/* What every variable that was found gives the program: R3 the address of its name. */
static struct served give_name(const struct machine *machine, struct registers *registers, const struct spelling *name)
{
    memcpy(machine->memory + machine->name_at, name->bytes, name->length + 1);
    registers->r[3] = machine->name_at;
    return swi_ended(SERVED);
}

/* Writes the value of a variable, or what it expands to, to a buffer, as nos_translate does. */
static struct nos_answer give_value(const struct machine *machine, const struct table_variable *variable, bool expanded, uint8_t *out,
                                    size_t room)
{
    struct nos_tables tables = swi_tables(machine);
    struct part value = {variable->value, variable->value_length};
    uint8_t digits[12]; /* the most that the call needs */
    if (expanded && variable->kind == NOS_MACRO)
        return nos_translate(value.bytes, value.length, NOS_INDEXED(tables), 0, machine->allowance, out, room);
    if (expanded && variable->kind == NOS_INTEGER) {
        value.bytes = digits;
        value.length = nos_convert(NOS_SIGNED_4, (uint32_t)table_integer(variable), digits, sizeof digits).place;
    }
    struct nos_answer answer = {NOS_NO_ROOM, NOS_IN_THE_TEXT, 0, value.length, room};
    if (value.length > room) return answer;
    memcpy(out, value.bytes, value.length);
    answer.number = NOS_ACCEPTED;
    return answer;
}

/* &23 OS_ReadVarVal.
 *   gives   R0 the address of a name, which ends before a byte of at most 32 and may have wildcards; R1 the buffer's, R2 its size; R3 0,
 *           or for the next match what R3 was after the call before; R4 3 for the expanded value
 *   gets    in the buffer the value, with no terminator: that of a string, the four bytes of an integer, a macro as it is; expanded the
 *           integer's signed decimal, and the macro translated, without flags. R2 the number of bytes, R3 the address of the name as the
 *           table has it, with a zero byte after it, R4 the variable's type: 0 string, 1 integer, 2 macro. R0 and R1 stay
 *   asks    with bit 31 of R2 set, whether there is such a variable: R2 stays where there is, and is 0 where there is none, which is no
 *           error. R3 and R4 are set as above, or stay. The buffer is not looked at, and nothing is expanded
 *   errors  System variable not found 10: no variable, or no further one. Of a plain name there is no further one where R3 points to
 *           that name; otherwise it is found whatever R3 is
 *           Buffer overflow 1: the buffer stays as it was; the need is in struct served alone
 *           Bad string 4, 7, 8, 9, 10, 11, 12, 21: the macro cannot be translated
 *           as by nos_words 13; Text or table over 65,535 bytes 18, of a table
 *           Bad address: the name, or with wildcards the one of R3, has no end in memory, or the buffer is not all memory */
struct served swi_read_variable(const struct machine *machine, struct registers *registers)
{
    struct part name, before;
    uint32_t buffer = registers->r[1], size = registers->r[2];
    bool asks = size & NEGATIVE;
    if (!take_names(machine, registers, &name, &before) || !(asks || swi_is_memory(machine, buffer, size)))
        return swi_error(BAD_ADDRESS, 0);
    struct found found = find(swi_tables(machine), name, before);
    if (found.number == NOS_ACCEPTED && !has_wildcards(name) && compare(name, before) == 0) found.number = NOS_UNKNOWN_NAME;
    if (found.number == NOS_UNKNOWN_NAME && asks) {
        struct served none = {SERVED, NOS_UNKNOWN_NAME, NOS_IN_THE_TEXT, 0, {0, ""}};
        registers->r[2] = 0;
        return none;
    }
    if (found.number == NOS_UNKNOWN_NAME) return swi_error(NOS_UNKNOWN_NAME, 0);
    if (found.number != NOS_ACCEPTED) return swi_error_in(found.number, found.counted);
    struct spelling spelling = spell(name_of(&found.variable));
    if (!asks) {
        struct nos_answer answer = give_value(machine, &found.variable, registers->r[4] == EXPANDED, machine->memory + buffer, size);
        if (answer.number == NOS_NO_ROOM) return swi_error(NOS_NO_ROOM, (uint32_t)answer.need);
        if (answer.number != NOS_ACCEPTED) return swi_error_saying("Bad string", answer.number);
        registers->r[2] = (uint32_t)answer.need;
    }
    registers->r[4] = found.variable.kind;
    return give_name(machine, registers, &spelling);
}

/* The words for a value that cannot be what its type says. */
static const char *complaint(uint32_t type)
{
    return type == NOS_MACRO ? "Bad macro value" : type == EXPANDED ? "Bad expression" : "Bad string";
}

/* Takes the bytes of a value: for an integer and a literal string the R2 bytes at R1. Any other is a string, which has to end at R1+R2
 * at the latest: one that goes on there is refused rather than cut. A macro has no control characters. */
static uint32_t take_value(const struct machine *machine, const struct registers *registers, struct part *value)
{
    uint32_t at = registers->r[1], length = registers->r[2], type = registers->r[4], end = 0;
    bool has_controls = false;
    if (type == NOS_INTEGER || type == LITERAL) {
        if (!swi_is_memory(machine, at, length)) return BAD_ADDRESS;
        end = length;
    } else {
        for (;; end++) {
            if (!swi_is_memory(machine, at, end + 1)) return BAD_ADDRESS;
            uint8_t byte = machine->memory[at + end];
            if (swi_ends_string(byte)) break;
            if (end == length) return BAD_VALUE;
            has_controls = has_controls || byte < ' ' || byte == 127;
        }
    }
    value->bytes = machine->memory + at;
    value->length = end;
    return type == NOS_MACRO && has_controls ? BAD_VALUE : (uint32_t)NOS_ACCEPTED;
}

/* Whether the library takes a variable: a table without room refuses a good one for the room alone. */
static bool is_good(const struct table_variable *variable)
{
    struct table no_room = table_make(NULL, 0);
    return table_set(&no_room, variable).number != NOS_BAD_TABLE;
}

/* Whether a variable can be created under a name. */
static bool is_new_name(struct part name)
{
    const struct table_variable empty = {NOS_STRING, name.bytes, name.length, NULL, 0, 0};
    return !has_wildcards(name) && is_good(&empty);
}

/* Chooses the variable that is set: one that is there, under the name that it has, or a new one. */
static struct served choose(const struct machine *machine, const struct registers *registers, struct part name, struct part before,
                            struct spelling *spelling)
{
    struct found found = find(swi_tables(machine), name, before);
    if (found.number == NOS_ACCEPTED)
        name = name_of(&found.variable);
    else if (found.number != NOS_UNKNOWN_NAME || (has_wildcards(name) && registers->r[3] != 0))
        return swi_error_in(found.number, found.counted);
    else if (!is_new_name(name))
        return swi_error(BAD_NAME, 0);
    *spelling = spell(name);
    return swi_ended(SERVED);
}

/* A variable's kind and its value, which lies in the emulated memory, or in `made` where it had to be made from a string. The length of
 * a value is one byte of its record. */
struct content {
    uint32_t kind;
    struct part value;
    uint8_t made[UINT8_MAX];
};

/* Makes the bytes of a string that is translated. The refusal, which is VALUE_TOO_LONG where there is no room for them. */
static uint32_t translate(const struct machine *machine, struct content *content)
{
    struct nos_tables tables = swi_tables(machine);
    struct nos_answer answer = nos_translate(content->value.bytes, content->value.length, NOS_INDEXED(tables), 0, machine->allowance,
                                             content->made, sizeof content->made);
    content->value.bytes = content->made;
    content->value.length = answer.need;
    return answer.number == NOS_NO_ROOM ? VALUE_TOO_LONG : answer.number;
}

/* Makes the bytes of an expression's value. The refusal. */
static uint32_t evaluate(const struct machine *machine, struct content *content)
{
    struct nos_tables tables = swi_tables(machine);
    struct nos_value answer = nos_evaluate(content->value.bytes, content->value.length, NOS_TABLES(tables), machine->allowance);
    for (size_t i = 0; i < 4; i++) content->made[i] = (uint8_t)((uint32_t)answer.value >> 8 * i);
    content->kind = NOS_INTEGER;
    content->value.bytes = content->made;
    content->value.length = 4;
    return answer.number;
}

/* Makes of the bytes that were taken what the variable is to hold. */
static struct served make_content(const struct machine *machine, uint32_t type, struct content *content)
{
    uint32_t refusal = NOS_ACCEPTED;
    content->kind = type == LITERAL ? (uint32_t)NOS_STRING : type;
    if (type == NOS_STRING) refusal = translate(machine, content);
    if (type == EXPANDED) refusal = evaluate(machine, content);
    if (refusal == NOS_ACCEPTED) return swi_ended(SERVED);
    bool has_own_words = refusal == VALUE_TOO_LONG || refusal == NOS_OVER_LENGTH;
    return has_own_words ? swi_error(refusal, 0) : swi_error_saying(complaint(type), refusal);
}

/* Sets a variable of the farm's table, if it is good and there is room. */
static struct served set_in_the_farm(const struct machine *machine, const struct spelling *name, const struct content *content)
{
    struct table no_room = table_make(NULL, 0);
    struct table_variable variable = {content->kind, name->bytes, name->length, content->value.bytes, content->value.length, 0};
    if (!is_good(&variable)) return swi_error(content->kind == NOS_INTEGER ? BAD_TYPE : VALUE_TOO_LONG, 0);
    struct table_change change = table_set(machine->farm != NULL ? machine->farm : &no_room, &variable);
    if (change.number == NOS_ACCEPTED) return swi_ended(SERVED);
    if (change.number != NOS_NO_ROOM) return swi_error(TABLE_FULL, 0);
    struct served served = swi_error_saying("No room for variable", NOS_NO_ROOM);
    served.need = (uint32_t)change.need;
    return served;
}

/* Deletes a variable of the farm's table. One of the house alone is not there to be deleted. */
static struct served delete_variable(const struct machine *machine, struct registers *registers, struct part name, struct part before)
{
    struct nos_tables tables = swi_tables(machine);
    tables.house_length = 0;
    struct found found = find(tables, name, before);
    if (found.number != NOS_ACCEPTED) return swi_error_in(found.number, found.counted);
    struct spelling spelling = spell(name_of(&found.variable));
    table_unset(machine->farm, spelling.bytes, spelling.length);
    return give_name(machine, registers, &spelling);
}

/* &24 OS_SetVarVal.
 *   gives   R0 the address of a name, which ends before a byte of at most 32, and may have wildcards where it means a variable that is
 *           there; R1 the address of the value, R2 its length, or a negative number to delete the variable, which needs no value; R3 0,
 *           or for the next match what R3 was after the call before (with a plain name it counts for nothing); R4 the value's type:
 *             0  a string that is translated, without flags; the variable is a string
 *             1  four bytes, the lowest first; the variable is an integer
 *             2  a string that is translated when the variable is used; the variable is a macro
 *             3  an expression that is evaluated; the variable is an integer
 *             4  bytes that are taken as they are; the variable is a string
 *           A string or an expression ends before a byte 0, 10 or 13, which stands at R1+R2 at the latest
 *   gets    R3 the address of the variable's name, with a zero byte after it; R4 1 where it was 3. R0, R1 and R2 stay
 *   errors  the first of these that holds:
 *           Bad address: the name, or with wildcards the one of R3, has no end in memory
 *           Bad variable type 129: R4 is none of these; code variables, 16, there are none. To delete a variable R4 counts for nothing
 *           Bad address: the value is not all memory
 *           Bad string, Bad macro value, Bad expression 131, for 0, 2, 3: no end at R1+R2; a control character in a macro
 *           as by nos_words 13; Text or table over 65,535 bytes 18, of a table
 *           System variable not found 10: none of the farm's to be deleted; no further match to be changed
 *           Bad name 130: one that no variable can have, or wildcards that match nothing, with R3 0
 *           Bad string, for 0, and Bad expression, for 3: whatever &27 or &2D refuses, under its number; but the words for 18 are its own
 *           Variable value too long 132: over 255 bytes; Bad variable type 129: an integer whose length is not 4
 *           No room for variable 1: the farm's table would be longer than its room, and the need is in struct served; 133: it has 256
 *           variables, or would be longer than 65,535 bytes */
struct served swi_set_variable(const struct machine *machine, struct registers *registers)
{
    struct part name, before;
    struct spelling spelling = {{0}, 0};
    struct content content;
    uint32_t type = registers->r[4];
    if (!take_names(machine, registers, &name, &before)) return swi_error(BAD_ADDRESS, 0);
    if (registers->r[2] & NEGATIVE) return delete_variable(machine, registers, name, before);
    if (type > LITERAL) return swi_error(BAD_TYPE, 0);
    uint32_t refusal = take_value(machine, registers, &content.value);
    if (refusal == BAD_VALUE) return swi_error_saying(complaint(type), BAD_VALUE);
    if (refusal != NOS_ACCEPTED) return swi_error(refusal, 0);
    struct served served = choose(machine, registers, name, before, &spelling);
    if (served.ending == SERVED) served = make_content(machine, type, &content);
    if (served.ending == SERVED) served = set_in_the_farm(machine, &spelling, &content);
    if (served.ending != SERVED) return served;
    if (type == EXPANDED) registers->r[4] = content.kind;
    return give_name(machine, registers, &spelling);
}
