/* nos eval: an expression evaluated. */
#include <string.h>

#include "commands.h"
#include "lookups.h"
#include "nosgoludd.h"
#include "numbers.h"
#include "options.h"
#include "output.h"
#include "unread.h"

static enum status evaluate_with(const struct lookups *lookups, const struct request *request)
{
    const char *expression = request->arguments[0];
    struct subject text = {OF_AN_EXPRESSION, (const uint8_t *)expression, strlen(expression), 0, NULL};
    struct nos_value answer = nos_evaluate(text.bytes, text.length, NOS_TABLES(lookups->tables), lookups->allowance);
    if (answer.number != NOS_ACCEPTED) {
        struct subject subject = subject_of(lookups, answer.counted, &text);
        struct refusal refusal = {answer.number, answer.place, 0, 0, false, NULL};
        return refuse(&subject, &refusal);
    }
    if (unread_refused(&text, answer.place, request->given[OPTION_STRICT])) return nothing_written();
    struct bytes out = {NULL, 0, 0};
    number_append(&out, NOS_SIGNED_4, (uint32_t)answer.value);
    return output_write_line(request->values[OPTION_OUTPUT], &out);
}

static enum status evaluate(const struct request *request)
{
    struct lookups lookups;
    enum status status = check_standard_input(request, NULL);
    if (status != STATUS_ACCEPTED) return status;
    status = lookups_read(&lookups, request) ? evaluate_with(&lookups, request) : STATUS_FILES;
    lookups_free(&lookups);
    return status;
}

static const enum option options[] = {OPTION_TABLE, OPTION_FARM, OPTION_ALLOWANCE, OPTION_STRICT, OPTION_OUTPUT, OPTION_NONE};

const struct command eval_command = {
    .name = "eval",
    .arguments = "EXPRESSION",
    .summary = "evaluates an expression of 32-bit integers",
    .notes = "Writes the value in decimal and a line feed. The operators, tightest first:\n"
             "  NOT - +   before one operand        = <> < > <= >= << >> >>>\n"
             "  * / MOD                             AND\n"
             "  + -                                 OR EOR\n"
             "An expression that begins with \"-\" and no digit stands after --, as nos eval -- '-(2+3)'.\n",
    .least = 1,
    .most = 1,
    .options = options,
    .run = evaluate,
};
