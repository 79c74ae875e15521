/* nos date: a five-byte time written by a format. */
#include <string.h>

#include "commands.h"
#include "input.h"
#include "nosgoludd.h"
#include "numbers.h"
#include "options.h"
#include "output.h"
#include "refusal.h"

/* Five bytes by ten hex digits. */
static bool read_digits(const char *digits, struct bytes *time)
{
    const size_t count = 2 * (size_t)NOS_TIME;
    if (strlen(digits) != count) return false;
    for (size_t i = 0; i < count; i += 2) {
        uint8_t byte;
        if (!hex_byte_read((const uint8_t *)digits + i, &byte)) return false;
        bytes_append(time, &byte, 1);
    }
    return true;
}

/* A time that stands in a file: all of its bytes, however many, or as many as a time has from --at on. The library counts them. */
static bool read_from_file(const struct request *request, struct bytes *time)
{
    bool has_place = request->given[OPTION_AT];
    return input_take(request->values[OPTION_FROM], number_or(request, OPTION_AT, 0), has_place ? NOS_TIME : MOST_TAKEN, time);
}

static enum status convert_time(const struct request *request, const struct bytes *time)
{
    const char *written = request->arguments[0];
    struct subject format = {OF_A_FORMAT, (const uint8_t *)written, strlen(written), 0, NULL};
    struct bytes out = {NULL, 0, 0};
    size_t room = room_asked(request, format.length + 1); /* no string needs more */
    bytes_reserve(&out, room);
    struct nos_answer answer = nos_convert_date(time->at, time->length, format.bytes, format.length, out.at, room);
    out.length = answer.place;
    if (answer.number == NOS_ACCEPTED) return output_write_line(request->values[OPTION_OUTPUT], &out);
    bytes_free(&out);
    if (answer.number == NOS_OVER_LENGTH && format.length <= NOS_LONGEST) format.counted = OF_A_TIME;
    struct refusal refusal = {answer.number, answer.place, answer.need, room, false, NULL};
    return refuse(&format, &refusal);
}

/* The time is TIME, or it is in a file. */
static enum status check_time(const struct request *request)
{
    bool from_file = request->given[OPTION_FROM], has_argument = request->count > 1;
    const char *wrong = NULL;
    if (from_file && has_argument) wrong = "there is one argument too many: the time is TIME, or --from FILE has it";
    else if (!from_file && !has_argument) wrong = "the time is missing: give TIME or --from FILE";
    else if (!from_file && request->given[OPTION_AT]) wrong = "--at is for a time that --from FILE has";
    return wrong == NULL ? STATUS_ACCEPTED : wrong_usage(request->command, "%s", wrong);
}

static enum status date(const struct request *request)
{
    struct bytes time = {NULL, 0, 0};
    enum status status = check_time(request);
    if (status != STATUS_ACCEPTED) return status;
    if (request->given[OPTION_FROM])
        status = read_from_file(request, &time) ? STATUS_ACCEPTED : STATUS_FILES;
    else if (!read_digits(request->arguments[1], &time))
        status = wrong_usage(request->command, "TIME has to be ten hex digits, as 487E2A9141, and is \"%s\"",
                             request->arguments[1]);
    if (status == STATUS_ACCEPTED) status = convert_time(request, &time);
    bytes_free(&time);
    return status;
}

static const enum option options[] = {OPTION_ROOM, OPTION_FROM, OPTION_AT, OPTION_OUTPUT, OPTION_NONE};

const struct command date_command = {
    .name = "date",
    .arguments = "FORMAT [TIME]",
    .summary = "writes a five-byte time by a format",
    .notes = "Writes the string and a line feed. TIME is ten hex digits: five bytes as they stand in memory, the lowest first,\n"
             "as 487E2A9141. --room counts the zero byte that the library puts after the string. The fields of a format, where\n"
             "%% gives a percent sign, and all else itself:\n"
             "  %CS hundredths    %MI minutes    %DY day      %MN month    %CE century      %DN day of the year\n"
             "  %SE seconds       %24 hours      %W3 weekday  %M3 month    %YR year\n",
    .least = 1,
    .most = 2,
    .options = options,
    .run = date,
};
