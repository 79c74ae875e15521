/* Bytes that stand after the end of what was read: see unread.h. */
#include "unread.h"

/* A text's own end is not worth a word: one line end, or the zero byte of C. A line has had its end taken away, and after a number all
 * bytes count. */
static bool is_only_an_end(const struct subject *subject, size_t place)
{
    size_t length = subject->length - place;
    if (length == 0) return true;
    if (subject->counted != OF_A_TEXT && subject->counted != OF_AN_EXPRESSION) return false;
    const uint8_t *rest = subject->bytes + place;
    return (length == 1 && (rest[0] == 0 || rest[0] == 10 || rest[0] == 13)) || (length == 2 && rest[0] == 13 && rest[1] == 10);
}

/* What was not done with the bytes. */
static const char *done_with(enum counted counted)
{
    return counted == OF_A_NUMBER ? "read" : counted == OF_AN_EXPRESSION ? "evaluated" : "translated";
}

/* What the bytes stand after: "the number", "the end of line 3". */
static void name_end(const struct subject *subject, struct bytes *words)
{
    if (subject->counted == OF_A_NUMBER) {
        bytes_append(words, "the number", sizeof "the number");
        return;
    }
    bytes_print(words, "the end of ");
    subject_name(subject, words);
}

bool unread_refused(const struct subject *subject, size_t place, bool strict)
{
    if (is_only_an_end(subject, place)) return false;
    size_t count = subject->length - place;
    const char *bytes = count == 1 ? "byte" : "bytes", *were = count == 1 ? "was" : "were", *done = done_with(subject->counted);
    struct bytes end = {NULL, 0, 0};
    name_end(subject, &end);
    if (strict) {
        say("refused by --strict: %zu %s after %s, at byte %zu", count, bytes, (const char *)end.at, place);
    } else {
        say("%zu %s after %s, at byte %zu, %s not %s", count, bytes, (const char *)end.at, place, were, done);
        if (subject->counted == OF_A_TEXT) say("to translate every line, say --lines");
    }
    bytes_free(&end);
    return strict;
}
