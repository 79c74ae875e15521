/* nos table make: a table of variables made from a text. */
#include <stdio.h>
#include <string.h>

#include "commands.h"
#include "lines.h"
#include "options.h"
#include "output.h"
#include "table.h"
#include "table_text.h"

/* A table as it is made from a text, line by line. */
struct making {
    struct bytes table;
    struct bytes lines; /* for each record a size_t: the number of the line that it came from */
    size_t ended_by;    /* the number of the line that no record can be made of, or 0; the lines after it are only read */
    bool unreadable;    /* a line cannot be read */
};

/* Adds the record of a variable. It is made as a table of its own: table_set has the form of records, and asks the library about it.
 * More than the library reads need not be collected: it refuses that. */
static void add_record(struct making *making, const struct table_variable *variable, size_t line)
{
    uint8_t record[LONGEST_RECORD];
    struct table alone = table_make(record, sizeof record);
    if (making->ended_by != 0 || making->table.length > NOS_LONGEST) return;
    if (table_set(&alone, variable).number != NOS_ACCEPTED) {
        making->ended_by = line;
        return;
    }
    bytes_append(&making->table, record, alone.length);
    bytes_append(&making->lines, &line, sizeof line);
}

/* Reads all lines, and says of each that cannot be read what is wrong with it. */
static bool make_records(struct making *making, const char *text)
{
    struct written written = {0, {NULL, 0, 0}, {NULL, 0, 0}};
    struct lines lines;
    struct line line;
    if (!lines_open(&lines, text, ALL_OF_IT)) return false;
    while (lines_next(&lines, &line)) {
        if (line.length == 0 || line.bytes[0] == '#') continue;
        const char *wrong = written_line_read(&written, line.bytes, line.length);
        struct table_variable variable = written_variable(&written);
        if (wrong == NULL) add_record(making, &variable, line.number);
        else say("line %zu: %s", line.number, wrong);
        making->unreadable = making->unreadable || wrong != NULL;
    }
    lines_close(&lines);
    written_free(&written);
    return !lines.failed;
}

/* The line that the record at a place came from. */
static size_t line_of(const struct making *making, size_t place)
{
    struct table_variable variable;
    size_t at = 0, line = 0;
    for (size_t i = 0; at <= place && table_next(making->table.at, making->table.length, &at, &variable); i += sizeof line)
        memcpy(&line, making->lines.at + i, sizeof line);
    return line;
}

static enum status refuse_line(const char *file, uint32_t number, size_t place, size_t line)
{
    char advice[512];
    snprintf(advice, sizeof advice, "line %zu of the text: %s", line, RECORDS_IN_WORDS);
    return refuse_table(file, number, place, number == NOS_BAD_TABLE ? advice : NULL);
}

/* Judges what was made, as a whole, and gives it its name. */
static enum status end_making(struct making *making, const char *file)
{
    if (making->unreadable) return nothing_written();
    struct nos_checked checked = nos_check_table(making->table.at, making->table.length);
    if (checked.number != NOS_ACCEPTED) return refuse_line(file, checked.number, checked.place, line_of(making, checked.place));
    if (making->ended_by != 0) return refuse_line(file, NOS_BAD_TABLE, making->table.length, making->ended_by);
    return output_write(file, &making->table);
}

static enum status make(const struct request *request)
{
    const char *file = request->arguments[0], *text = request->count > 1 ? request->arguments[1] : "-";
    enum status status = check_written_file(request->command, file);
    if (status != STATUS_ACCEPTED) return status;
    struct making making = {{NULL, 0, 0}, {NULL, 0, 0}, 0, false};
    status = make_records(&making, text) ? end_making(&making, file) : STATUS_FILES;
    bytes_free(&making.table);
    bytes_free(&making.lines);
    return status;
}

const struct command table_make_command = {
    .name = "table make",
    .arguments = "FILE [TEXT]",
    .summary = "makes a table from a text such as show writes",
    .notes = "TEXT is a file, or standard input where there is none or it is \"-\". A line has the name, a space, the kind\n"
             "(string, integer or macro), a space and the value. \\\\ is a backslash, \\x07 the byte of two hex digits. Lines\n"
             "that are empty or begin with # are left out. All lines are good, or FILE stays as it was.\n",
    .least = 1,
    .most = 2,
    .options = no_options,
    .run = make,
};
