/* The conversion calls of an emulated ARM machine, served through the library: see handler.h. Those of its variables are in
 * handler_variables.c. */
#include <string.h>

#include "handler_parts.h"

#define X_FORM (1u << 17)
#define FLAG_BITS 0xE0000000u       /* the top three bits of a word that has flags beside a base or a size */
#define CHECK_TERMINATOR (1u << 31) /* OS_ReadUnsigned's */
#define CHECK_BYTE (1u << 30)
#define CHECK_R2 (1u << 29)

enum {
    READ_UNSIGNED = 0x21,
    READ_VARIABLE = 0x23,
    SET_VARIABLE = 0x24,
    GS_INIT = 0x25,
    GS_READ = 0x26,
    GS_TRANS = 0x27,
    BINARY_TO_DECIMAL = 0x28,
    EVALUATE = 0x2D,
    CONVERT_DATE = 0xC1,
    CONVERT_FIRST = 0xD0,
    CONVERT_LAST = 0xE8
};

/* Every range goes through here before the library gets it. The sum of address and length is never formed, so it cannot wrap. */
bool swi_is_memory(const struct machine *machine, uint32_t at, uint32_t length)
{
    return at <= machine->size && length <= machine->size - at;
}

struct nos_tables swi_tables(const struct machine *machine)
{
    struct nos_tables tables = {NULL, 0, machine->house, machine->house_length, NULL, 0, 0};
    if (machine->farm != NULL) {
        tables.farm = machine->farm->bytes;
        tables.farm_length = machine->farm->length;
    }
    return tables;
}

/* The machine's own words where it has them; the library's for what the machine does not know. */
static const char *message_of(uint32_t refusal)
{
    switch (refusal) {
    case NOS_NO_ROOM: return "Buffer overflow";
    case NOS_TOO_BIG: return "Number too big";
    case NOS_NO_DIGIT: case NOS_NOT_ENDED: case NOS_OVER_LIMIT: return "Bad number";
    case NOS_BAD_CODE: case NOS_BAD_STRING: case NOS_BAD_REFERENCE: return "Bad string";
    case NOS_UNKNOWN_NAME: return "System variable not found";
    case NOS_ZERO_DIVISOR: return "Division by zero";
    case NOS_OVER_LENGTH: return "Text or table over 65,535 bytes"; /* a time of this machine always has five */
    case BAD_ADDRESS: return "Bad address";
    case BAD_TYPE: return "Bad variable type";
    case BAD_NAME: return "Bad name";
    case VALUE_TOO_LONG: return "Variable value too long";
    case TABLE_FULL: return "No room for variable";
    case NOT_SERVED_YET: return "GS reading comes later";
    }
    return nos_words(refusal);
}

static struct error_block block_of(uint32_t refusal, const char *message)
{
    struct error_block block = {ERROR_BASE + refusal, ""};
    strncpy(block.message, message, MESSAGE_ROOM - 1);
    return block;
}

struct served swi_error_saying(const char *message, uint32_t refusal)
{
    struct served served = {RAISED, refusal, NOS_IN_THE_TEXT, 0, block_of(refusal, message)};
    return served;
}

struct served swi_error(uint32_t refusal, uint32_t need)
{
    struct served served = swi_error_saying(message_of(refusal), refusal);
    served.need = need;
    return served;
}

struct served swi_error_in(uint32_t refusal, uint32_t counted)
{
    struct served served = swi_error(refusal, 0);
    served.counted = counted;
    return served;
}

struct served swi_ended(enum ending ending)
{
    struct served served = {ending, 0, 0, 0, {0, ""}};
    return served;
}

/* A string of the program's, copied out of its memory, with the byte behind it. A copy, since what is lent to be read must not
 * overlap what is lent to be written, and a program may well have its string translated over itself. */
struct string {
    uint8_t bytes[NOS_LONGEST + 2];
    size_t length;
};

/* A format ends at a zero byte alone: it may have line ends to copy. */
bool swi_ends_string(uint8_t byte) { return byte == 0 || byte == 10 || byte == 13; }
static bool ends_format(uint8_t byte) { return byte == 0; }

/* Takes the string at an address up to the byte that ends it; false where memory ends before that byte. A string longer than the
 * library reads is taken with one byte too many, so that the library refuses it. */
static bool take_string(const struct machine *machine, uint32_t at, bool (*ends)(uint8_t), struct string *string)
{
    for (string->length = 0; string->length <= NOS_LONGEST; string->length++) {
        if (at >= machine->size || string->length >= machine->size - at) return false;
        uint8_t byte = machine->memory[at + string->length];
        string->bytes[string->length] = byte;
        if (ends(byte)) return true;
    }
    return true;
}

/* Whether a number says its own base: by "&", or by decimal digits and "_". */
static bool has_base(const uint8_t *text, size_t length)
{
    size_t digits = 0;
    while (digits < length && text[digits] >= '0' && text[digits] <= '9') digits++;
    return length > 0 && (text[0] == '&' || (digits > 0 && digits < length && text[digits] == '_'));
}

struct reading {
    uint32_t refusal, value;
    size_t place; /* where accepted: of the first byte not read */
    bool cut;     /* the reading came to the text's end, and what memory has behind that is unknown */
};

/* Reads a number whose base is `base` where it says none itself. The library reads such a number as decimal, so that for another
 * base the text goes to it with "16_" or the like in front. */
static struct reading read_in_base(const uint8_t *text, size_t length, uint32_t base, uint32_t whole, uint32_t limit)
{
    uint8_t lent[NOS_LONGEST];
    size_t spaces = 0, ahead = 0;
    while (spaces < length && text[spaces] == ' ') spaces++;
    if (base >= 2 && base <= 36 && base != 10 && !has_base(text + spaces, length - spaces)) {
        ahead = nos_convert(NOS_UNSIGNED_1, base, lent, sizeof lent).place;
        lent[ahead++] = '_';
    }
    size_t lent_length = ahead + length - spaces;
    memcpy(lent + ahead, text + spaces, length - spaces);
    struct nos_number answer = nos_read_unsigned(lent, lent_length, whole, limit);
    struct reading reading = {answer.number, answer.value, answer.place + spaces - ahead, answer.place == lent_length};
    return reading;
}

/* &21 OS_ReadUnsigned.
 *   gives   R0 the base, 2 to 36 (else 10), with flags: bit 31, the byte behind the number must be a space or a control character;
 *           bit 30, at most 255; bit 29, at most R2. R1 the string's address
 *   gets    R1 the address of the first byte not read, R2 the value; R0 stays
 *   errors  Bad number       2 no digit; 5 bit 31's check; 6 bit 30's check, where bit 29's holds or is not asked for
 *           Bad base         3
 *           Number too big   4 over 4,294,967,295, of which the book says nothing; 6 bit 29's check, whether bit 30's holds or not
 *           Text or table over 65,535 bytes   18 more than 65,531 bytes of spaces and digits: the number's end was not seen
 *           Bad address      the byte behind the number is no memory
 * Where the bytes that were looked at end inside a number, it may go on behind them: it is never given as if it were whole. */
static struct served read_unsigned(const struct machine *machine, struct registers *registers)
{
    const uint32_t most = NOS_LONGEST - 3; /* room for a base and "_" */
    uint32_t flags = registers->r[0] & FLAG_BITS, base = registers->r[0] & ~FLAG_BITS, at = registers->r[1], limit = NOS_NO_LIMIT;
    if (at >= machine->size) return swi_error(BAD_ADDRESS, 0);
    uint32_t left = machine->size - at, length = left < most ? left : most;
    if (flags & CHECK_R2) limit = registers->r[2];
    struct reading reading = read_in_base(machine->memory + at, length, base, flags & CHECK_TERMINATOR, limit);
    if (reading.cut) return swi_error(length < left ? (uint32_t)NOS_OVER_LENGTH : BAD_ADDRESS, 0);
    if (reading.refusal == NOS_OVER_LIMIT) return swi_error_saying("Number too big", NOS_OVER_LIMIT);
    if (reading.refusal != NOS_ACCEPTED) return swi_error(reading.refusal, 0);
    if (flags & CHECK_BYTE && reading.value > 255) return swi_error(NOS_OVER_LIMIT, 0);
    registers->r[1] = at + (uint32_t)reading.place;
    registers->r[2] = reading.value;
    return swi_ended(SERVED);
}

/* &27 OS_GSTrans.
 *   gives   R0 the string's address, R1 the buffer's, R2 its size with the flags in bits 29 to 31
 *   gets    R0 the address behind the byte that ended the string, R1 the buffer's, R2 the number of bytes given; C clear. At R1+R2
 *           stands the byte that ended the string (0, 10, 13, or with bit 29 a space): what the book calls the translated string's
 *           terminator. The size has to have room for it
 *   short   a buffer that is too short is no error: C set, R1 0, R2 the size plus 1; R0 and every byte of the buffer stay. The
 *           need, with the terminator, which the library knows nothing of, is in struct served alone
 *   errors  Bad string 7, 8, 9; Number too big 4; System variable not found 10; as by nos_words 11, 12, 13, and 21, where the book takes
 *           the low eight bits; Text or table over 65,535 bytes 18; Bad address: no byte 0, 10 or 13 before memory's end, or the buffer
 *           is not all memory
 * After an error C, too, stays as it was. */
static struct served gs_trans(const struct machine *machine, struct registers *registers)
{
    struct string string;
    uint32_t size = registers->r[2] & ~FLAG_BITS, flags = registers->r[2] & FLAG_BITS, buffer = registers->r[1];
    if (!take_string(machine, registers->r[0], swi_ends_string, &string) || !swi_is_memory(machine, buffer, size))
        return swi_error(BAD_ADDRESS, 0);
    size_t room = size > 0 ? size - 1 : 0; /* without the terminator */
    struct nos_tables tables = swi_tables(machine);
    struct nos_answer answer = nos_translate(string.bytes, string.length, NOS_INDEXED(tables), flags, machine->allowance,
                                             machine->memory + buffer, room);
    uint32_t need = (uint32_t)answer.need;
    if (answer.number == NOS_NO_ROOM || (answer.number == NOS_ACCEPTED && size == 0)) {
        struct served too_short = {SERVED, NOS_NO_ROOM, NOS_IN_THE_TEXT, need + 1, {0, ""}};
        registers->r[1] = 0;
        registers->r[2] = size + 1;
        registers->carry = true;
        return too_short;
    }
    if (answer.number != NOS_ACCEPTED) return swi_error_in(answer.number, answer.counted);
    machine->memory[buffer + need] = string.bytes[answer.place];
    registers->r[0] += (uint32_t)answer.place + 1;
    registers->r[2] = need;
    registers->carry = false;
    return swi_ended(SERVED);
}

/* &28 OS_BinaryToDecimal.
 *   gives   R0 the number, R1 the buffer's address, R2 its size
 *   gets    R2 the number of characters; R0 and R1 stay. Nothing stands behind the characters, so that a size of just their number is
 *           enough
 *   errors  Buffer overflow 1: the buffer stays as it was; the need, the number of characters, is in struct served alone
 *           Bad address: the buffer is not all memory */
static struct served binary_to_decimal(const struct machine *machine, struct registers *registers)
{
    uint32_t buffer = registers->r[1], size = registers->r[2];
    if (!swi_is_memory(machine, buffer, size)) return swi_error(BAD_ADDRESS, 0);
    struct nos_answer answer = nos_convert(NOS_DECIMAL, registers->r[0], machine->memory + buffer, size);
    if (answer.number != NOS_ACCEPTED) return swi_error(answer.number, (uint32_t)answer.need);
    registers->r[2] = (uint32_t)answer.place;
    return swi_ended(SERVED);
}

/* &2D OS_EvaluateExpression.
 *   gives   R0 the expression's address; R1 and R2 a buffer for a string, which is not looked at: no integer needs it
 *   gets    R1 0, for an integer, and R2 its value; R0 stays
 *   errors  Bad expression 15, also for one with strings; Division by zero 16; System variable not found 10; Bad number 2; Bad
 *           base 3; Number too big 4; as by nos_words 11, 12, 13, 17; Text or table over 65,535 bytes 18; Bad address: no byte 0, 10
 *           or 13 before memory's end */
static struct served evaluate(const struct machine *machine, struct registers *registers)
{
    struct string string;
    if (!take_string(machine, registers->r[0], swi_ends_string, &string)) return swi_error(BAD_ADDRESS, 0);
    struct nos_tables tables = swi_tables(machine);
    struct nos_value answer = nos_evaluate(string.bytes, string.length, NOS_TABLES(tables), machine->allowance);
    if (answer.number != NOS_ACCEPTED) return swi_error_in(answer.number, answer.counted);
    registers->r[1] = 0;
    registers->r[2] = (uint32_t)answer.value;
    return swi_ended(SERVED);
}

/* What a conversion of &C1 and &D0 to &E8 gives the program: R0 the buffer's address, R1 that of the zero byte behind the string, R2
 * the bytes free from the zero byte on; or the error. */
static struct served converted(struct nos_answer answer, uint32_t buffer, struct registers *registers)
{
    if (answer.number != NOS_ACCEPTED) return swi_error(answer.number, (uint32_t)answer.need);
    registers->r[0] = buffer;
    registers->r[1] = buffer + (uint32_t)answer.place;
    registers->r[2] = (uint32_t)answer.free;
    return swi_ended(SERVED);
}

/* &C1 OS_ConvertDateAndTime.
 *   gives   R0 the address of a time of five bytes, R1 the buffer's, R2 its size, R3 the format's address; a zero byte ends the format
 *   gets    as by `converted`; R3 stays
 *   errors  Buffer overflow 1, as for &28: the book says nothing of a short buffer here
 *           Bad field 19, also for a field that the book has and the library has not; Text or table over 65,535 bytes 18, of the format
 *           Bad address: the time or the buffer is not all memory, or no zero byte before memory's end
 * The time is copied too: the string may be written over it. */
static struct served convert_date(const struct machine *machine, struct registers *registers)
{
    struct string format;
    uint8_t time[NOS_TIME];
    uint32_t at = registers->r[0], buffer = registers->r[1], size = registers->r[2];
    if (!swi_is_memory(machine, at, NOS_TIME) || !swi_is_memory(machine, buffer, size)
        || !take_string(machine, registers->r[3], ends_format, &format))
        return swi_error(BAD_ADDRESS, 0);
    memcpy(time, machine->memory + at, NOS_TIME);
    struct nos_answer answer = nos_convert_date(time, NOS_TIME, format.bytes, format.length, machine->memory + buffer, size);
    return converted(answer, buffer, registers);
}

/* &D0 to &E8 OS_Convert...
 *   gives   R0 the value, R1 the buffer's address, R2 its size
 *   gets    as by `converted`
 *   errors  Buffer overflow 1, as for &28: the book says nothing of a short buffer here
 *           Bad address: the buffer is not all memory */
static struct served convert(const struct machine *machine, uint32_t call, struct registers *registers)
{
    uint32_t buffer = registers->r[1], size = registers->r[2];
    if (!swi_is_memory(machine, buffer, size)) return swi_error(BAD_ADDRESS, 0);
    return converted(nos_convert(call, registers->r[0], machine->memory + buffer, size), buffer, registers);
}

static bool is_mine(uint32_t call)
{
    return call == READ_UNSIGNED || (call >= READ_VARIABLE && call <= BINARY_TO_DECIMAL) || call == EVALUATE || call == CONVERT_DATE
        || (call >= CONVERT_FIRST && call <= CONVERT_LAST);
}

/* Whether the host lends the places that a call writes to: that of errors, and for the calls of variables that of a name. At 0 a name
 * could not be told from none. */
static bool has_places(const struct machine *machine, uint32_t call)
{
    bool names = call == READ_VARIABLE || call == SET_VARIABLE;
    return swi_is_memory(machine, machine->error_at, ERROR_ROOM)
        && (!names || (machine->name_at != 0 && swi_is_memory(machine, machine->name_at, NAME_ROOM)));
}

static struct served serve(const struct machine *machine, uint32_t call, struct registers *registers)
{
    switch (call) {
    case READ_UNSIGNED: return read_unsigned(machine, registers);
    case READ_VARIABLE: return swi_read_variable(machine, registers);
    case SET_VARIABLE: return swi_set_variable(machine, registers);
    case GS_INIT: case GS_READ: return swi_error(NOT_SERVED_YET, 0);
    case GS_TRANS: return gs_trans(machine, registers);
    case BINARY_TO_DECIMAL: return binary_to_decimal(machine, registers);
    case EVALUATE: return evaluate(machine, registers);
    case CONVERT_DATE: return convert_date(machine, registers);
    }
    return convert(machine, call, registers);
}

static void put_block(uint8_t *at, const struct error_block *block)
{
    for (size_t i = 0; i < 4; i++) at[i] = (uint8_t)(block->number >> 8 * i);
    memcpy(at + 4, block->message, MESSAGE_ROOM);
}

struct served handle_swi(const struct machine *machine, uint32_t swi, struct registers *registers)
{
    uint32_t call = swi & ~X_FORM;
    if (!is_mine(call)) return swi_ended(NOT_MINE);
    if (!has_places(machine, call)) return swi_ended(NO_BLOCK);
    struct served served = serve(machine, call, registers);
    registers->overflow = served.ending != SERVED;
    if (served.ending == SERVED) return served;
    put_block(machine->memory + machine->error_at, &served.error);
    registers->r[0] = machine->error_at;
    if (swi & X_FORM) served.ending = RETURNED;
    return served;
}
