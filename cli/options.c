/* Options and arguments, as they are written on the command line: see options.h. */
#include <string.h>

#include "input.h"
#include "numbers.h"
#include "options.h"

/* What an option's value has to be. */
enum value { NO_VALUE, A_NUMBER, A_FILE_TO_READ, A_FILE_TO_WRITE };

static const struct form {
    const char *name;
    enum value value;
    const char *value_name, *help;
} forms[OPTION_COUNT] = {
    [OPTION_TABLE] = {"--table", A_FILE_TO_READ, "HOUSE", "the house's table of variables; without it there is none"},
    [OPTION_FARM] = {"--farm", A_FILE_TO_READ, "FARM", "the farm's own table, in which names are looked up first"},
    [OPTION_INDEX] = {"--index", A_FILE_TO_READ, "INDEX", "the house table's index, as `nos table index` writes it"},
    [OPTION_ALLOWANCE] = {"--allowance", A_NUMBER, "N", "allow N look-ups of names; 1,024 without it, which is also the most"},
    [OPTION_ROOM] = {"--room", A_NUMBER, "N", "refuse what needs more than N bytes; without it there is room for everything"},
    [OPTION_SPACE_ENDS] = {"--space-ends", NO_VALUE, "", "a space ends the text, too"},
    [OPTION_BAR_PLAIN] = {"--bar-plain", NO_VALUE, "", "\"|\" is an ordinary byte: there are no codes"},
    [OPTION_QUOTE_PLAIN] = {"--quote-plain", NO_VALUE, "", "a quote is an ordinary byte"},
    [OPTION_LINES] = {"--lines", NO_VALUE, "", "each line is a text of its own; all are accepted, or nothing is written"},
    [OPTION_STRICT] = {"--strict", NO_VALUE, "", "refuse where bytes are left after the end"},
    [OPTION_WHOLE] = {"--whole", NO_VALUE, "", "refuse a number that something follows, but for a space or a control byte"},
    [OPTION_LIMIT] = {"--limit", A_NUMBER, "N", "refuse a number over N"},
    [OPTION_FROM] = {"--from", A_FILE_TO_READ, "FILE", "the time is the five bytes of FILE, and there is no TIME"},
    [OPTION_AT] = {"--at", A_NUMBER, "N", "with --from: the time is the five bytes at byte N, counted from 0"},
    [OPTION_OUTPUT] = {"-o", A_FILE_TO_WRITE, "FILE", "write to FILE, whole or not at all"},
};

const enum option no_options[] = {OPTION_NONE};

const char *option_name(enum option option) { return forms[option].name; }
const char *option_value_name(enum option option) { return forms[option].value_name; }
const char *option_help(enum option option) { return forms[option].help; }

enum status wrong_usage(const struct command *command, const char *format, ...)
{
    va_list list;
    va_start(list, format);
    say_list(format, list);
    va_end(list);
    say("`nos %s --help` says how it is asked", command->name);
    return STATUS_USAGE;
}

enum status check_written_file(const struct command *command, const char *file)
{
    if (!is_standard_input(file)) return STATUS_ACCEPTED;
    return wrong_usage(command, "\"-\" cannot be written: give a file's name, ./- for one that is called so");
}

uint32_t number_or(const struct request *request, enum option option, uint32_t otherwise)
{
    return request->given[option] ? request->numbers[option] : otherwise;
}

size_t room_asked(const struct request *request, size_t enough)
{
    bool less = request->given[OPTION_ROOM] && request->numbers[OPTION_ROOM] < enough;
    return less ? request->numbers[OPTION_ROOM] : enough;
}

/* What begins with "-" and a digit is a number, and "-" alone is standard input. */
static bool looks_like_an_option(const char *word)
{
    return word[0] == '-' && word[1] != 0 && !(word[1] >= '0' && word[1] <= '9');
}

/* How many bytes of a word are an option's name: all, or of --room=21 those before the "=". */
static size_t name_length(const char *word)
{
    return strncmp(word, "--", 2) == 0 ? strcspn(word, "=") : strlen(word);
}

static bool is_named(const char *word, const char *name)
{
    return strlen(name) == name_length(word) && strncmp(word, name, name_length(word)) == 0;
}

/* The option of a command that a word names, or OPTION_NONE. */
static enum option find_option(const struct command *command, const char *word)
{
    const enum option *option = command->options;
    while (*option != OPTION_NONE && !is_named(word, forms[*option].name)) option++;
    return *option;
}

static enum status take_value(struct request *request, enum option option, const char *value)
{
    const struct form *form = &forms[option];
    request->values[option] = value;
    if (form->value == A_FILE_TO_WRITE) return check_written_file(request->command, value);
    if (form->value == A_NUMBER && !number_read((const uint8_t *)value, strlen(value), &request->numbers[option]))
        return wrong_usage(request->command, "%s has to be a number, as 21, &15 or 2_10101, and is \"%s\"", form->name, value);
    return STATUS_ACCEPTED;
}

/* The words that are still to be read. */
struct words {
    char *const *next, *const *end;
};

static const char *next_word(struct words *words) { return words->next < words->end ? *words->next++ : NULL; }

/* Takes the option that a word names. Its value stands in the same word, after "=", or is the next word. That one is no value where it
 * looks like an option: rather a value was forgotten than a file called "--lines" was meant. */
static enum status take_option(struct request *request, const char *word, struct words *words)
{
    const struct command *command = request->command;
    const char *value = word[name_length(word)] == '=' ? word + name_length(word) + 1 : NULL;
    request->help = is_named(word, "--help") && value == NULL;
    if (request->help) return STATUS_ACCEPTED;
    enum option option = find_option(command, word);
    if (option == OPTION_NONE)
        return wrong_usage(command, "there is no option %s; an argument that begins with \"-\" stands after --", word);
    const char *name = forms[option].name;
    if (request->given[option]) return wrong_usage(command, "%s is given twice", name);
    request->given[option] = true;
    if (forms[option].value == NO_VALUE) return value == NULL ? STATUS_ACCEPTED : wrong_usage(command, "%s takes no value", name);
    if (value != NULL) return take_value(request, option, value);
    value = next_word(words);
    if (value == NULL || looks_like_an_option(value)) return wrong_usage(command, "%s wants a value after it", name);
    return take_value(request, option, value);
}

static enum status take_argument(struct request *request, const char *word)
{
    if (request->count == request->command->most) return wrong_usage(request->command, "there is one argument too many: %s", word);
    request->arguments[request->count++] = word;
    return STATUS_ACCEPTED;
}

enum status request_read(struct request *request, const struct command *command, int count, char *const *arguments)
{
    struct words words = {arguments, arguments + count};
    enum status status = STATUS_ACCEPTED;
    bool options_ended = false;
    *request = (struct request){.command = command};
    while (status == STATUS_ACCEPTED && !request->help) {
        const char *word = next_word(&words);
        if (word == NULL) break;
        if (options_ended || !looks_like_an_option(word)) status = take_argument(request, word);
        else if (strcmp(word, "--") == 0) options_ended = true;
        else status = take_option(request, word, &words);
    }
    if (status == STATUS_ACCEPTED && !request->help && request->count < command->least)
        return wrong_usage(command, "an argument is missing: nos %s %s", command->name, command->arguments);
    return status;
}
