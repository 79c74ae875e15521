/* nos table index: the index of a table of variables, the places of its records sorted by name. */
#include "commands.h"
#include "input.h"
#include "options.h"
#include "output.h"
#include "refusal.h"

enum { LONGEST_INDEX = 2 * 256 }; /* bytes, of as many records as a table can have: there is room for every index */

static enum status write_index(const struct request *request, const struct bytes *table)
{
    struct bytes out = {NULL, 0, 0};
    size_t room = room_asked(request, LONGEST_INDEX);
    bytes_reserve(&out, room);
    struct nos_answer answer = nos_build_index(table->at, table->length, out.at, room);
    enum status status;
    if (answer.number == NOS_ACCEPTED) {
        out.length = answer.need;
        status = output_write(request->values[OPTION_OUTPUT], &out);
    } else {
        struct subject subject = {OF_A_TABLE, NULL, 0, 0, request->arguments[0]};
        struct refusal refusal = {answer.number, answer.place, answer.need, room, false, NULL};
        status = refuse(&subject, &refusal);
    }
    bytes_free(&out);
    return status;
}

static enum status build_index(const struct request *request)
{
    struct bytes table = {NULL, 0, 0};
    bool was_read = input_take(request->arguments[0], 0, MOST_TAKEN, &table);
    enum status status = was_read ? write_index(request, &table) : STATUS_FILES;
    bytes_free(&table);
    return status;
}

static const enum option options[] = {OPTION_ROOM, OPTION_OUTPUT, OPTION_NONE};

const struct command table_index_command = {
    .name = "table index",
    .arguments = "FILE",
    .summary = "writes the index of a table, for nos translate --index",
    .notes = "The index is for each variable the byte at which its record begins, as two bytes, the lower first, sorted by the\n"
             "names, letters of either case being equal. It fits no other table, so build it anew after a change of this one.\n"
             "A FILE of \"-\" is standard input.\n",
    .least = 1,
    .most = 1,
    .options = options,
    .run = build_index,
};
