/* nos read: an unsigned number read at the start of a text. */
#include <string.h>

#include "commands.h"
#include "nosgoludd.h"
#include "numbers.h"
#include "options.h"
#include "output.h"
#include "unread.h"

static enum status read_number(const struct request *request)
{
    const char *written = request->arguments[0];
    struct subject text = {OF_A_NUMBER, (const uint8_t *)written, strlen(written), 0, NULL};
    struct nos_number answer = nos_read_unsigned(text.bytes, text.length, request->given[OPTION_WHOLE],
                                                 number_or(request, OPTION_LIMIT, NOS_NO_LIMIT));
    if (answer.number != NOS_ACCEPTED) {
        struct refusal refusal = {answer.number, answer.place, 0, 0, false, NULL};
        return refuse(&text, &refusal);
    }
    if (unread_refused(&text, answer.place, request->given[OPTION_STRICT])) return nothing_written();
    struct bytes out = {NULL, 0, 0};
    number_append(&out, NOS_UNSIGNED_4, answer.value);
    return output_write_line(request->values[OPTION_OUTPUT], &out);
}

static const enum option options[] = {OPTION_WHOLE, OPTION_LIMIT, OPTION_STRICT, OPTION_OUTPUT, OPTION_NONE};

const struct command read_command = {
    .name = "read",
    .arguments = "TEXT",
    .summary = "reads an unsigned number at the start of a text",
    .notes = "Writes the number in decimal and a line feed. TEXT begins with a number, as 1048576, &1F or 2_1101, spaces\n"
             "before it or none.\n",
    .least = 1,
    .most = 1,
    .options = options,
    .run = read_number,
};
