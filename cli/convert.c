/* nos convert: a number written as a string, by one of the 26 calls. */
#include <string.h>

#include "commands.h"
#include "nosgoludd.h"
#include "numbers.h"
#include "options.h"
#include "output.h"
#include "refusal.h"

enum { ENOUGH = 33 }; /* bytes for the longest string, binary4, and its zero byte */

static const struct {
    const char *name;
    uint32_t call;
} calls[] = {
    {"decimal", NOS_DECIMAL},
    {"hex1", NOS_HEX_1},
    {"hex2", NOS_HEX_2},
    {"hex4", NOS_HEX_4},
    {"hex6", NOS_HEX_6},
    {"hex8", NOS_HEX_8},
    {"unsigned1", NOS_UNSIGNED_1},
    {"unsigned2", NOS_UNSIGNED_2},
    {"unsigned3", NOS_UNSIGNED_3},
    {"unsigned4", NOS_UNSIGNED_4},
    {"signed1", NOS_SIGNED_1},
    {"signed2", NOS_SIGNED_2},
    {"signed3", NOS_SIGNED_3},
    {"signed4", NOS_SIGNED_4},
    {"binary1", NOS_BINARY_1},
    {"binary2", NOS_BINARY_2},
    {"binary3", NOS_BINARY_3},
    {"binary4", NOS_BINARY_4},
    {"spaced-unsigned1", NOS_SPACED_UNSIGNED_1},
    {"spaced-unsigned2", NOS_SPACED_UNSIGNED_2},
    {"spaced-unsigned3", NOS_SPACED_UNSIGNED_3},
    {"spaced-unsigned4", NOS_SPACED_UNSIGNED_4},
    {"spaced-signed1", NOS_SPACED_SIGNED_1},
    {"spaced-signed2", NOS_SPACED_SIGNED_2},
    {"spaced-signed3", NOS_SPACED_SIGNED_3},
    {"spaced-signed4", NOS_SPACED_SIGNED_4},
};

/* A call by its name, or by its number, which may be that of no call: the library judges that. */
static bool read_call(const char *word, uint32_t *call)
{
    for (size_t i = 0; i < sizeof calls / sizeof calls[0]; i++) {
        if (strcmp(word, calls[i].name) != 0) continue;
        *call = calls[i].call;
        return true;
    }
    return number_read((const uint8_t *)word, strlen(word), call);
}

static enum status convert(const struct request *request)
{
    const char *called = request->arguments[0], *written = request->arguments[1];
    uint32_t call, value;
    if (!read_call(called, &call))
        return wrong_usage(request->command, "there is no call \"%s\": give one of the names, or a number, as &D8", called);
    if (!signed_number_read((const uint8_t *)written, strlen(written), &value))
        return wrong_usage(request->command, "VALUE has to be a number of 32 bits, as 21, -21, &15 or 2_10101, and is \"%s\"",
                           written);
    uint8_t string[ENOUGH];
    size_t room = room_asked(request, sizeof string);
    struct nos_answer answer = nos_convert(call, value, string, room);
    if (answer.number != NOS_ACCEPTED) {
        struct subject subject = {OF_A_CALL, NULL, 0, 0, NULL};
        struct refusal refusal = {answer.number, answer.place, answer.need, room, false, NULL};
        return refuse(&subject, &refusal);
    }
    struct bytes out = {NULL, 0, 0};
    bytes_append(&out, string, answer.place);
    return output_write_line(request->values[OPTION_OUTPUT], &out);
}

static const enum option options[] = {OPTION_ROOM, OPTION_OUTPUT, OPTION_NONE};

const struct command convert_command = {
    .name = "convert",
    .arguments = "CALL VALUE",
    .summary = "writes a number as a string, by one of the 26 calls",
    .notes = "Writes the string and a line feed. --room counts the zero byte that the library puts after the string; after that\n"
             "of decimal, &28, it puts none. CALL is a number, as &D8, or one of these names:\n"
             "  decimal   hex1 hex2 hex4 hex6 hex8   unsigned1 to unsigned4   signed1 to signed4   binary1 to binary4\n"
             "  spaced-unsigned1 to spaced-unsigned4   spaced-signed1 to spaced-signed4\n",
    .least = 2,
    .most = 2,
    .options = options,
    .run = convert,
};
