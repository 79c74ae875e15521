/* nos table check, show, set and unset: a table of variables judged, written as text, and changed by one variable. */
#include <string.h>

#include "commands.h"
#include "input.h"
#include "options.h"
#include "output.h"
#include "table.h"
#include "table_text.h"

enum status refuse_table(const char *file, uint32_t number, size_t place, const char *advice)
{
    struct subject subject = {OF_A_TABLE, NULL, 0, 0, file};
    struct refusal refusal = {number, place, 0, 0, false, advice};
    return refuse(&subject, &refusal);
}

/* Reads a table and asks the library about it. STATUS_ACCEPTED, or what came instead of a good one, which was said. */
static enum status take_table(const char *file, struct bytes *table, uint32_t *records)
{
    if (!input_take(file, 0, MOST_TAKEN, table)) return STATUS_FILES;
    struct nos_checked checked = nos_check_table(table->at, table->length);
    *records = checked.records;
    return checked.number == NOS_ACCEPTED ? STATUS_ACCEPTED : refuse_table(file, checked.number, checked.place, NULL);
}

static enum status check(const struct request *request)
{
    struct bytes table = {NULL, 0, 0}, out = {NULL, 0, 0};
    uint32_t records;
    enum status status = take_table(request->arguments[0], &table, &records);
    if (status == STATUS_ACCEPTED) {
        bytes_print(&out, "good: %lu %s, %zu %s", (unsigned long)records, records == 1 ? "variable" : "variables", table.length,
                    table.length == 1 ? "byte" : "bytes");
        status = output_write_line(NULL, &out);
    }
    bytes_free(&table);
    return status;
}

/* Adds a variable as a line. How long that is, the printing itself says. */
static void print_variable(const struct table_variable *variable, struct bytes *out)
{
    size_t length = table_print(variable, NULL, 0);
    bytes_reserve(out, length);
    out->length += table_print(variable, (char *)out->at + out->length, length);
}

static enum status show(const struct request *request)
{
    struct bytes table = {NULL, 0, 0}, out = {NULL, 0, 0};
    uint32_t records;
    enum status status = take_table(request->arguments[0], &table, &records);
    if (status == STATUS_ACCEPTED) {
        struct table_variable variable;
        size_t at = 0;
        while (table_next(table.at, table.length, &at, &variable)) print_variable(&variable, &out);
        status = output_write(request->values[OPTION_OUTPUT], &out);
    }
    bytes_free(&table);
    bytes_free(&out);
    return status;
}

/* A table as it is changed. */
struct changing {
    const char *file;
    struct bytes bytes;
    struct table table; /* in these bytes */
};

/* Reads the table, and makes room for one record more. */
static enum status start_change(struct changing *changing, const struct request *request)
{
    uint32_t records;
    *changing = (struct changing){.file = request->arguments[0]};
    enum status status = take_table(changing->file, &changing->bytes, &records);
    if (status != STATUS_ACCEPTED) return status;
    bytes_reserve(&changing->bytes, LONGEST_RECORD);
    changing->table = table_make(changing->bytes.at, changing->bytes.room);
    changing->table.length = changing->bytes.length;
    return STATUS_ACCEPTED;
}

/* Writes the table where the change was made. The library has the last word: it is asked about the whole of it. */
static enum status end_change(struct changing *changing, struct table_change change, const char *advice)
{
    if (change.number != NOS_ACCEPTED)
        return refuse_table(changing->file, change.number, change.place, change.number == NOS_BAD_TABLE ? advice : NULL);
    changing->bytes.length = changing->table.length;
    struct nos_checked checked = nos_check_table(changing->bytes.at, changing->bytes.length);
    if (checked.number != NOS_ACCEPTED) return refuse_table(changing->file, checked.number, checked.place, NULL);
    return output_write(changing->file, &changing->bytes);
}

static enum status set_in_file(const struct request *request, const struct written *written)
{
    struct changing changing;
    struct table_variable variable = written_variable(written);
    enum status status = start_change(&changing, request);
    if (status == STATUS_ACCEPTED) status = end_change(&changing, table_set(&changing.table, &variable), RECORDS_IN_WORDS);
    bytes_free(&changing.bytes);
    return status;
}

static enum status unset_in_file(const struct request *request, const struct written *written)
{
    struct changing changing;
    const struct bytes *name = &written->name;
    enum status status = start_change(&changing, request);
    if (status == STATUS_ACCEPTED) status = end_change(&changing, table_unset(&changing.table, name->at, name->length), NULL);
    bytes_free(&changing.bytes);
    return status;
}

/* A part of a variable, as an argument has it. */
typedef const char *read_part(struct written *written, const uint8_t *text, size_t length);

static enum status read_argument(const struct request *request, size_t which, read_part *reader, struct written *written)
{
    static const char *const names[] = {"FILE", "NAME", "KIND", "VALUE"};
    const char *argument = request->arguments[which], *wrong = reader(written, (const uint8_t *)argument, strlen(argument));
    return wrong == NULL ? STATUS_ACCEPTED : wrong_usage(request->command, "%s: %s", names[which], wrong);
}

static enum status set(const struct request *request)
{
    struct written written = {0, {NULL, 0, 0}, {NULL, 0, 0}};
    enum status status = check_written_file(request->command, request->arguments[0]);
    if (status == STATUS_ACCEPTED) status = read_argument(request, 1, written_name_read, &written);
    if (status == STATUS_ACCEPTED) status = read_argument(request, 2, written_kind_read, &written);
    if (status == STATUS_ACCEPTED) status = read_argument(request, 3, written_value_read, &written);
    if (status == STATUS_ACCEPTED) status = set_in_file(request, &written);
    written_free(&written);
    return status;
}

static enum status unset(const struct request *request)
{
    struct written written = {0, {NULL, 0, 0}, {NULL, 0, 0}};
    enum status status = check_written_file(request->command, request->arguments[0]);
    if (status == STATUS_ACCEPTED) status = read_argument(request, 1, written_name_read, &written);
    if (status == STATUS_ACCEPTED) status = unset_in_file(request, &written);
    written_free(&written);
    return status;
}

static const enum option show_options[] = {OPTION_OUTPUT, OPTION_NONE};

const struct command table_check_command = {
    .name = "table check",
    .arguments = "FILE",
    .summary = "says whether a table of variables is good",
    .notes = "A FILE of \"-\" is standard input.\n",
    .least = 1,
    .most = 1,
    .options = no_options,
    .run = check,
};

const struct command table_show_command = {
    .name = "table show",
    .arguments = "FILE",
    .summary = "writes a table as text, a variable a line",
    .notes = "A line has the name, a space, the kind (string, integer or macro), a space and the value. \\\\ is a backslash,\n"
             "\\x07 the byte of two hex digits. A FILE of \"-\" is standard input. `nos table make` reads such a text.\n",
    .least = 1,
    .most = 1,
    .options = show_options,
    .run = show,
};

const struct command table_set_command = {
    .name = "table set",
    .arguments = "FILE NAME KIND VALUE",
    .summary = "sets one variable of a table",
    .notes = "KIND is string, integer or macro. In NAME, and in the VALUE of a string or a macro, \\\\ is a backslash and \\x07\n"
             "the byte of two hex digits. FILE has to be there; an empty one is a table of no variables.\n",
    .least = 4,
    .most = 4,
    .options = no_options,
    .run = set,
};

const struct command table_unset_command = {
    .name = "table unset",
    .arguments = "FILE NAME",
    .summary = "takes one variable out of a table",
    .notes = "In NAME \\\\ is a backslash and \\x07 the byte of two hex digits.\n",
    .least = 2,
    .most = 2,
    .options = no_options,
    .run = unset,
};
