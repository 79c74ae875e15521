/* A table of variables as text, as it is read: see table_text.h. */
#include <string.h>

#include "numbers.h"
#include "table_text.h"

static const char no_kind[] = "no kind: string, integer or macro";
static const char bad_backslash[] = "after a backslash stands another one, or x and two hex digits, as \\x07";
static const char no_number[] = "an integer is written as a number of 32 bits, as 21, -21, &15 or 2_10101";

/* Reads what stands after a backslash, and gives how many bytes of `text` that takes; 0 where it is a mistake. */
static size_t read_escape(const uint8_t *text, size_t length, uint8_t *byte)
{
    *byte = '\\';
    if (length >= 1 && text[0] == '\\') return 1;
    return length >= 3 && text[0] == 'x' && hex_byte_read(text + 1, byte) ? 3 : 0;
}

static const char *read_bytes(struct bytes *bytes, const uint8_t *text, size_t length)
{
    bytes->length = 0;
    bytes_reserve(bytes, length); /* none of them gives more than one */
    for (size_t i = 0; i < length; i++) {
        uint8_t byte = text[i];
        if (byte == '\\') {
            size_t taken = read_escape(text + i + 1, length - i - 1, &byte);
            if (taken == 0) return bad_backslash;
            i += taken;
        }
        bytes_append(bytes, &byte, 1);
    }
    return NULL;
}

static const char *read_integer(struct bytes *bytes, const uint8_t *text, size_t length)
{
    uint32_t pattern;
    if (!signed_number_read(text, length, &pattern)) return no_number;
    bytes->length = 0;
    for (unsigned shift = 0; shift < 32; shift += 8) {
        uint8_t byte = (uint8_t)(pattern >> shift);
        bytes_append(bytes, &byte, 1);
    }
    return NULL;
}

const char *written_name_read(struct written *written, const uint8_t *text, size_t length)
{
    return read_bytes(&written->name, text, length);
}

/* Whether a word is that of a kind. table_print has the words, and is asked for a line of that kind: "x string", "x integer 0". */
static bool is_word_of(uint32_t kind, const uint8_t *word, size_t length)
{
    static const uint8_t name[] = {'x'}, zero[] = {0, 0, 0, 0};
    const struct table_variable variable = {kind, name, sizeof name, zero, kind == NOS_INTEGER ? sizeof zero : 0, 0};
    char line[32];
    size_t start = sizeof name + 1, end = start, printed = table_print(&variable, line, sizeof line);
    while (end < printed && line[end] != ' ' && line[end] != '\n') end++;
    return end - start == length && memcmp(line + start, word, length) == 0;
}

const char *written_kind_read(struct written *written, const uint8_t *text, size_t length)
{
    for (uint32_t kind = NOS_STRING; kind <= NOS_MACRO; kind++) {
        if (!is_word_of(kind, text, length)) continue;
        written->kind = kind;
        return NULL;
    }
    return no_kind;
}

const char *written_value_read(struct written *written, const uint8_t *text, size_t length)
{
    return written->kind == NOS_INTEGER ? read_integer(&written->value, text, length) : read_bytes(&written->value, text, length);
}

/* How many bytes stand before the first space, or all. */
static size_t word_length(const uint8_t *text, size_t length)
{
    const uint8_t *space = memchr(text, ' ', length);
    return space == NULL ? length : (size_t)(space - text);
}

/* An empty value may have no space before it. */
const char *written_line_read(struct written *written, const uint8_t *line, size_t length)
{
    size_t name = word_length(line, length);
    const char *wrong = written_name_read(written, line, name);
    if (wrong != NULL) return wrong;
    if (name == length) return no_kind;
    const uint8_t *after = line + name + 1, *end = line + length;
    size_t kind = word_length(after, (size_t)(end - after));
    wrong = written_kind_read(written, after, kind);
    if (wrong != NULL) return wrong;
    after += kind;
    if (after < end) after++;
    return written_value_read(written, after, (size_t)(end - after));
}

struct table_variable written_variable(const struct written *written)
{
    const struct bytes *name = &written->name, *value = &written->value;
    return (struct table_variable){written->kind, name->at, name->length, value->at, value->length, 0};
}

void written_free(struct written *written)
{
    bytes_free(&written->name);
    bytes_free(&written->value);
}
