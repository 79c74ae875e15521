/* Numbers over 255 between "<" and ">": see old_codes.h.
 *
 * The library says what is a reference, and which one is met next: a text is translated, and where it is refused by 21 the number there
 * is told, or the macro that is named there is gone through. Then the text is translated from that reference's ">" on, as if a text began
 * there. So the library reads each byte about once, however many references there are. */
#include "old_codes.h"
#include "reference.h"
#include "tables.h"

enum {
    MOST_MACROS = 2 * 256, /* as many as two tables can have */
    MOST_SHOWN = 72        /* bytes of a number, which may begin with thousands of zeros */
};

/* A macro that was gone through, by its record. */
struct passed {
    uint32_t counted;
    size_t place;
    bool finished; /* not yet while it is gone through: one that names itself would never have been */
};

struct walk {
    const struct lookups *lookups;
    struct passed passed[MOST_MACROS];
    size_t count;
};

static void append_shown(struct bytes *words, const struct reference *number)
{
    const char *content = (const char *)number->content;
    int length = (int)number->length, part = MOST_SHOWN / 2;
    if (length <= MOST_SHOWN) bytes_print(words, "<%.*s>", length, content);
    else bytes_print(words, "<%.*s...%.*s>", part, content, part, content + length - part);
}

static void tell(const struct reference *number, size_t place, const char *where)
{
    uint8_t byte = (uint8_t)(number->value % 256);
    struct bytes words = {NULL, 0, 0};
    append_shown(&words, number);
    bytes_print(&words, ", at byte %zu of %s, gave byte %d", place, where, byte);
    if (byte != ' ' && byte == (uint8_t)printable(byte)) bytes_print(&words, ", \"%c\"", byte);
    bytes_append(&words, "", 1);
    say("before 1.6.0 %s", (const char *)words.at);
    bytes_free(&words);
}

/* Which macro, by the name that its record has: "the macro Page$Head", and where it could be of either table "the farm's macro ..". */
static void name_macro(const struct walk *walk, uint32_t counted, const struct table_variable *macro, struct bytes *words)
{
    bool either = walk->lookups->house_file != NULL && walk->lookups->farm_file != NULL;
    const char *whose = !either ? "" : counted == NOS_IN_THE_FARM ? "farm's " : "house's ";
    bytes_print(words, "the %smacro %.*s", whose, (int)macro->name_length, (const char *)macro->name);
    bytes_append(words, "", 1);
}

static bool go_through(struct walk *walk, const uint8_t *text, size_t length, uint32_t flags, const char *where);

/* False where the old reading would have been refused in the macro. */
static bool pass_macro(struct walk *walk, const struct nos_variable *found)
{
    for (size_t i = 0; i < walk->count; i++) {
        const struct passed *passed = &walk->passed[i];
        if (passed->counted == found->counted && passed->place == found->place) return passed->finished;
    }
    struct passed *own = &walk->passed[walk->count++];
    *own = (struct passed){found->counted, found->place, false};
    const struct bytes *table = found->counted == NOS_IN_THE_FARM ? &walk->lookups->farm : &walk->lookups->house;
    struct table_variable macro = {.value_length = 0};
    size_t at = found->place;
    table_next(table->at, table->length, &at, &macro);
    struct bytes where = {NULL, 0, 0};
    name_macro(walk, found->counted, &macro, &where);
    own->finished = go_through(walk, macro.value, macro.value_length, 0, (const char *)where.at);
    bytes_free(&where);
    return own->finished;
}

/* False where the old reading would not have come past the reference. */
static bool pass(struct walk *walk, const struct reference *reference, size_t place, const char *where)
{
    if (reference->to == TO_A_MACRO) return pass_macro(walk, &reference->macro);
    if (reference->to != TO_A_NUMBER) return false;
    tell(reference, place, where);
    return true;
}

/* What the rest of a text has to begin with for the library to read it as it stood in the text, and not to skip spaces or to take a
 * quote for one that opens: the quote of a quoted text, or a byte that means nothing. With --quote-plain a quote is such a byte too. */
static uint8_t opener_of(const uint8_t *text, size_t length)
{
    size_t first = 0;
    while (first < length && text[first] == ' ') first++;
    return first < length && text[first] == '"' ? '"' : '.';
}

/* Without room a text that is read to its end is refused by No room, or accepted where it gives nothing. */
static struct nos_answer read_from(const struct walk *walk, const struct bytes *text, size_t start, uint32_t flags)
{
    return nos_translate(text->at + start, text->length - start, NOS_INDEXED(walk->lookups->tables), flags, MOST_LOOKUPS, NULL, 0);
}

/* Goes through a text, the user's or a macro's value. False where the old reading would have been refused in it. */
static bool go_through(struct walk *walk, const uint8_t *text, size_t length, uint32_t flags, const char *where)
{
    const uint8_t opener = opener_of(text, length);
    struct bytes rest = {NULL, 0, 0}; /* a copy, in which the opener takes the place of each ">" that was passed */
    bytes_append(&rest, text, length);
    size_t start = 0;
    struct nos_answer answer = read_from(walk, &rest, start, flags);
    while (answer.number == NOS_CODE_OVER_255) {
        size_t place = start + answer.place;
        struct reference reference = reference_at(walk->lookups, rest.at, rest.length, place);
        if (!pass(walk, &reference, place, where)) break;
        start = place + 1 + reference.length;
        rest.at[start] = opener;
        answer = read_from(walk, &rest, start, flags);
    }
    bytes_free(&rest);
    return answer.number == NOS_ACCEPTED || answer.number == NOS_NO_ROOM;
}

void say_old_codes(const struct lookups *lookups, const struct subject *text, uint32_t flags)
{
    struct walk walk = {.lookups = lookups};
    struct bytes where = {NULL, 0, 0};
    subject_name(text, &where);
    go_through(&walk, text->bytes, text->length, flags, (const char *)where.at);
    bytes_free(&where);
}
