/* A refusal in words: see refusal.h. */
#include <string.h>

#include "bytes.h"
#include "refusal.h"

enum { MARGIN = 4, MOST_SHOWN = 72, ANY = -1 };

static const char long_table[] = "a table has 65,535 bytes at most: take variables out of it";

/* What to do about a refusal. The first row of its number counts that is for ANY subject or for this one. */
static const struct advice {
    uint32_t number;
    int counted;
    const char *words;
} advices[] = {
    {NOS_NO_DIGIT, ANY, "a digit has to stand there: mend it"},
    {NOS_BAD_BASE, ANY, "a base is a number from 2 to 36: mend it"},
    {NOS_TOO_BIG, ANY, "a number is 4,294,967,295 at most: mend it"},
    {NOS_NOT_ENDED, ANY, "the number goes on as something else: mend it, or leave out --whole"},
    {NOS_OVER_LIMIT, ANY, "the number is over the one of --limit: look at both"},
    {NOS_BAD_CODE, ANY, "that is no code: mend it; a bar that is to stay one is written ||"},
    {NOS_BAD_STRING, ANY, "the quotes are wrong: mend them; a quote inside of quotes is written twice"},
    {NOS_BAD_REFERENCE, ANY, "a name and \">\" have to follow: mend it; a \"<\" that is to stay one is written |<"},
    {NOS_UNKNOWN_NAME, OF_A_TABLE, "the table has no variable of that name: `nos table show` writes those that it has"},
    {NOS_UNKNOWN_NAME, ANY, "the name is in neither table: mend it, or set it with `nos table set`"},
    {NOS_TOO_DEEP, OF_AN_EXPRESSION, "over 16 brackets and signs stand around one operand: take some of them away"},
    {NOS_TOO_DEEP, ANY, "macros are named over 16 levels deep; as a rule one of them names itself: mend it"},
    {NOS_ALLOWANCE_SPENT, ANY, "more names than --allowance allows: ask again with a larger one, 1,024 at most, or give it in parts"},
    {NOS_BAD_TABLE, ANY, "the table is damaged at that record: make it again with `nos table make`"},
    {NOS_UNKNOWN_CALL, ANY, "`nos convert --help` has the names of the calls"},
    {NOS_BAD_EXPRESSION, ANY, "that cannot stand there, or something is missing before it: mend it"},
    {NOS_ZERO_DIVISOR, ANY, "what it divides by is zero: look at the names on its right, and at their values"},
    {NOS_NOT_AN_INTEGER, ANY, "it is a string or a macro: mend the name, or look for one of the farm's own that hides the house's"},
    {NOS_OVER_LENGTH, OF_A_TEXT, "a text has 65,535 bytes at most: give it in parts, or say --lines if each line is a text"},
    {NOS_OVER_LENGTH, OF_A_TIME, "a time is five bytes: look at the file, and with --at at the place"},
    {NOS_OVER_LENGTH, OF_THE_HOUSE, long_table},
    {NOS_OVER_LENGTH, OF_THE_FARM, long_table},
    {NOS_OVER_LENGTH, OF_A_TABLE, long_table},
    {NOS_OVER_LENGTH, ANY, "it may have 65,535 bytes at most: give it in parts"},
    {NOS_BAD_INDEX, ANY, "it is another table's, or this one's before it was changed: build it anew with `nos table index`"},
    {NOS_BAD_FIELD, ANY, "no such field, or one in small letters: mend it; a percent sign that is to stay one is written %%"},
    {NOS_CODE_OVER_255, ANY, "a number between \"<\" and \">\" is one byte, 0 to 255: write the number of the byte that is meant"},
};

static const char *advice_for(uint32_t number, enum counted counted)
{
    for (size_t i = 0; i < sizeof advices / sizeof advices[0]; i++) {
        const struct advice *advice = &advices[i];
        if (advice->number == number && (advice->counted == ANY || advice->counted == (int)counted)) return advice->words;
    }
    return "docs/RULES.md has this number";
}

void subject_name(const struct subject *subject, struct bytes *words)
{
    switch (subject->counted) {
    case OF_A_CALL: break;
    case OF_A_TEXT: case OF_A_NUMBER: bytes_print(words, "the text"); break;
    case OF_A_LINE: bytes_print(words, "line %zu", subject->line); break;
    case OF_AN_EXPRESSION: bytes_print(words, "the expression"); break;
    case OF_A_FORMAT: bytes_print(words, "the format"); break;
    case OF_A_TIME: bytes_print(words, "the time"); break;
    case OF_THE_HOUSE: bytes_print(words, "the house table %s", subject->file); break;
    case OF_THE_FARM: bytes_print(words, "the farm's table %s", subject->file); break;
    case OF_A_TABLE: bytes_print(words, "the table %s", subject->file); break;
    case OF_THE_INDEX: bytes_print(words, "the index %s", subject->file); break;
    }
    bytes_append(words, "", 1);
}

/* The bytes of a subject that are shown: of the line that the place is in at most MOST_SHOWN, the place among them or right after. */
struct window {
    size_t start, end;
    bool cut_before, cut_after;
};

static bool ends_line(uint8_t byte) { return byte == '\n' || byte == '\r'; }

static struct window window_around(const struct subject *subject, size_t place)
{
    size_t start = place, end = place;
    while (start > 0 && !ends_line(subject->bytes[start - 1])) start--;
    while (end < subject->length && !ends_line(subject->bytes[end])) end++;
    struct window window = {start, end, false, false};
    if (end - start <= MOST_SHOWN) return window;
    if (place - start > MOST_SHOWN / 2) window.start = place - MOST_SHOWN / 2;
    if (end - window.start < MOST_SHOWN) window.start = end - MOST_SHOWN;
    window.end = window.start + MOST_SHOWN;
    window.cut_before = window.start > start;
    window.cut_after = window.end < end;
    return window;
}

/* A byte takes one column, whatever it is, so that the caret stands below the place. */
static void show_place(const struct subject *subject, size_t place)
{
    static const char left_out[] = "...";
    struct window window = window_around(subject, place);
    size_t before = window.cut_before ? strlen(left_out) : 0, column = MARGIN + before + (place - window.start);
    struct bytes shown = {NULL, 0, 0};
    bytes_print(&shown, "%*s%s", MARGIN, "", window.cut_before ? left_out : "");
    for (size_t i = window.start; i < window.end; i++) bytes_print(&shown, "%c", printable(subject->bytes[i]));
    bytes_print(&shown, "%s\n%*s^\n", window.cut_after ? left_out : "", (int)column, "");
    bytes_append(&shown, "", 1);
    say_plain((const char *)shown.at);
    bytes_free(&shown);
}

static bool has_bytes_to_show(const struct subject *subject)
{
    switch (subject->counted) {
    case OF_A_TEXT: case OF_A_LINE: case OF_AN_EXPRESSION: case OF_A_NUMBER: case OF_A_FORMAT: return true;
    case OF_A_TIME: case OF_A_CALL: case OF_THE_HOUSE: case OF_THE_FARM: case OF_A_TABLE: case OF_THE_INDEX: break;
    }
    return false;
}

static void say_no_room(const struct subject *subject, const struct refusal *refusal, const char *where)
{
    bool is_line = subject->counted == OF_A_LINE;
    say("refused %d, %s: %zu %s needed, and there was room for %zu%s%s", NOS_NO_ROOM, nos_words(NOS_NO_ROOM), refusal->need,
        refusal->need == 1 ? "byte is" : "bytes are", refusal->room, is_line ? ", in " : "", is_line ? where : "");
    say("ask again with --room %zu", refusal->need);
}

void say_refusal(const struct subject *subject, const struct refusal *refusal)
{
    struct bytes where = {NULL, 0, 0};
    subject_name(subject, &where);
    if (refusal->number == NOS_NO_ROOM) {
        say_no_room(subject, refusal, (const char *)where.at);
    } else {
        unsigned long number = refusal->number;
        const char *words = nos_words(refusal->number);
        if (subject->counted == OF_A_CALL) say("refused %lu, %s", number, words);
        else say("refused %lu, %s, at byte %zu of %s", number, words, refusal->place, (const char *)where.at);
        if (refusal->number != NOS_OVER_LENGTH && has_bytes_to_show(subject)) show_place(subject, refusal->place);
        say("%s%s", refusal->in_macro ? "in the macro that is named there, or in one that it names: " : "",
            refusal->advice != NULL ? refusal->advice : advice_for(refusal->number, subject->counted));
    }
    bytes_free(&where);
}

enum status nothing_written(void)
{
    say("nothing was written");
    return STATUS_REFUSED;
}

enum status refuse(const struct subject *subject, const struct refusal *refusal)
{
    say_refusal(subject, refusal);
    return nothing_written();
}
