/* nos translate: a text, or each line of a file, translated. */
#include "commands.h"
#include "lines.h"
#include "lookups.h"
#include "nosgoludd.h"
#include "old_codes.h"
#include "options.h"
#include "output.h"
#include "reference.h"
#include "unread.h"

#define MOST_TRANSLATED 323583u /* bytes that a translation can have: there is room for every one */

/* What every text of one run is translated with, and what has come of it. */
struct work {
    struct lookups lookups;
    uint32_t flags;
    size_t room;
    bool strict;
    bool refused; /* a text was refused: nothing will be written */
    struct bytes out;
};

static uint32_t flags_asked(const struct request *request)
{
    uint32_t flags = 0;
    if (request->given[OPTION_SPACE_ENDS]) flags |= NOS_SPACE_ENDS;
    if (request->given[OPTION_BAR_PLAIN]) flags |= NOS_BAR_PLAIN;
    if (request->given[OPTION_QUOTE_PLAIN]) flags |= NOS_QUOTE_PLAIN;
    return flags;
}

/* Asks the library. What is accepted stands after what is to be written, and is not yet counted to it. */
static struct nos_answer ask(struct work *work, const uint8_t *text, size_t length)
{
    bytes_reserve(&work->out, work->room);
    return nos_translate(text, length, NOS_INDEXED(work->lookups.tables), work->flags, work->lookups.allowance,
                         work->out.at + work->out.length, work->room);
}

/* Whether what is wrong at a place of the text lies in a macro: a reference to one stands there, which is refused by the same number
 * when it stands alone. */
static bool lies_in_macro(struct work *work, const struct subject *text, struct nos_answer answer)
{
    if (answer.counted != NOS_IN_THE_TEXT) return false;
    struct reference reference = reference_at(&work->lookups, text->bytes, text->length, answer.place);
    return reference.to == TO_A_MACRO && ask(work, text->bytes + answer.place, reference.length + 2).number == answer.number;
}

/* An index that comes without its table is refused as any other that does not fit, but it is the table that is missing. NULL: what there
 * is to say for the number. */
static const char *advice_for_index(const struct work *work, struct nos_answer answer)
{
    if (answer.number != NOS_BAD_INDEX || work->lookups.house_file != NULL) return NULL;
    return "there is no house table, and the index of an empty one is empty: give its table with --table";
}

static void tell_refusal(struct work *work, const struct subject *text, struct nos_answer answer)
{
    struct subject subject = subject_of(&work->lookups, answer.counted, text);
    struct refusal refusal = {answer.number, answer.place, answer.need, work->room, lies_in_macro(work, text, answer),
                              advice_for_index(work, answer)};
    say_refusal(&subject, &refusal);
    if (answer.number == NOS_CODE_OVER_255) say_old_codes(&work->lookups, text, work->flags);
    work->refused = true;
}

/* Translates a text and adds its translation to what is to be written. False where it or one before it was refused. */
static bool translate_text(struct work *work, const struct subject *text)
{
    struct nos_answer answer = ask(work, text->bytes, text->length);
    if (answer.number != NOS_ACCEPTED) {
        tell_refusal(work, text, answer);
        return false;
    }
    work->out.length += answer.need;
    if (unread_refused(text, answer.place, work->strict)) work->refused = true;
    return !work->refused;
}

static bool translate_whole(struct work *work, const char *file)
{
    struct bytes text = {NULL, 0, 0};
    bool was_read = input_take(file, 0, MOST_TAKEN, &text);
    struct subject subject = {OF_A_TEXT, text.at, text.length, 0, NULL};
    if (was_read) translate_text(work, &subject);
    bytes_free(&text);
    return was_read;
}

/* The tables and the index are asked about once, with the empty text: a bad one is no matter of a line, and is refused without any
 * line, too. */
static bool tables_are_good(struct work *work)
{
    static const uint8_t nothing[1];
    struct subject empty = {OF_A_TEXT, nothing, 0, 0, NULL};
    struct nos_answer answer = ask(work, empty.bytes, empty.length);
    if (answer.number == NOS_ACCEPTED) return true;
    tell_refusal(work, &empty, answer);
    return false;
}

/* All lines are tried, so that all that are refused are said at once. What is collected is let go at the first of them. */
static bool translate_lines(struct work *work, const char *file)
{
    struct lines lines;
    struct line line;
    if (!lines_open(&lines, file, MOST_TAKEN)) return false;
    while (lines_next(&lines, &line)) {
        struct subject subject = {OF_A_LINE, line.bytes, line.length, line.number, NULL};
        if (translate_text(work, &subject)) bytes_append(&work->out, line.end, line.end_length);
        if (work->refused) work->out.length = 0;
    }
    lines_close(&lines);
    return !lines.failed;
}

static enum status translate_all(struct work *work, const struct request *request, const char *file)
{
    bool by_lines = request->given[OPTION_LINES], was_read = true;
    if (!by_lines) was_read = translate_whole(work, file);
    else if (tables_are_good(work)) was_read = translate_lines(work, file);
    if (!was_read) return STATUS_FILES;
    return work->refused ? nothing_written() : output_write(request->values[OPTION_OUTPUT], &work->out);
}

static enum status translate(const struct request *request)
{
    const char *file = request->count > 0 ? request->arguments[0] : "-";
    enum status status = check_standard_input(request, file);
    if (status != STATUS_ACCEPTED) return status;
    struct work work = {
        .flags = flags_asked(request),
        .room = room_asked(request, MOST_TRANSLATED),
        .strict = request->given[OPTION_STRICT],
    };
    status = lookups_read(&work.lookups, request) ? translate_all(&work, request, file) : STATUS_FILES;
    lookups_free(&work.lookups);
    bytes_free(&work.out);
    return status;
}

static const enum option options[] = {
    OPTION_TABLE, OPTION_FARM, OPTION_INDEX, OPTION_ALLOWANCE, OPTION_ROOM, OPTION_SPACE_ENDS, OPTION_BAR_PLAIN, OPTION_QUOTE_PLAIN,
    OPTION_LINES, OPTION_STRICT, OPTION_OUTPUT, OPTION_NONE,
};

const struct command translate_command = {
    .name = "translate",
    .arguments = "[FILE]",
    .summary = "translates a text: its codes, quotes, and the variables that it names",
    .notes = "FILE, or standard input where there is none or it is \"-\", is one text. What is written is the bytes of its\n"
             "translation and nothing more. The text ends at its first byte 0, 10 or 13; what stands after that is not\n"
             "translated, and this is said.\n",
    .least = 0,
    .most = 1,
    .options = options,
    .run = translate,
};
