/* The help: see help.h. */
#include <stdio.h>
#include <string.h>

#include "help.h"
#include "options.h"

enum { WIDEST = 100, OPTION_COLUMN = 18, COMMAND_COLUMN = 44 };

/* Adds a part to a line, or to the next one where this one would get too wide. */
static void add_part(struct bytes *out, size_t *column, size_t margin, const char *part)
{
    if (*column + 1 + strlen(part) > WIDEST) {
        bytes_print(out, "\n%*s", (int)margin, "");
        *column = margin;
    }
    bytes_print(out, " %s", part);
    *column += 1 + strlen(part);
}

/* "--room N", or "-o FILE", or "--lines". */
static void name_option(enum option option, char *name, size_t room)
{
    const char *value = option_value_name(option);
    snprintf(name, room, "%s%s%s", option_name(option), value[0] == 0 ? "" : " ", value);
}

static void add_usage(const struct command *command, struct bytes *out)
{
    char name[64], part[80];
    size_t margin = strlen("nos ") + strlen(command->name), column = margin;
    bytes_print(out, "nos %s", command->name);
    for (const enum option *option = command->options; *option != OPTION_NONE; option++) {
        name_option(*option, name, sizeof name);
        snprintf(part, sizeof part, "[%s]", name);
        add_part(out, &column, margin, part);
    }
    add_part(out, &column, margin, command->arguments);
    bytes_print(out, "\n");
}

void help_command(const struct command *command, struct bytes *out)
{
    char name[64];
    add_usage(command, out);
    bytes_print(out, "\nIt %s.\n\n%s", command->summary, command->notes);
    if (command->options[0] != OPTION_NONE) bytes_print(out, "\n");
    for (const enum option *option = command->options; *option != OPTION_NONE; option++) {
        name_option(*option, name, sizeof name);
        bytes_print(out, "  %-*s %s\n", OPTION_COLUMN, name, option_help(*option));
    }
}

bool command_is_of_group(const struct command *command, const char *group)
{
    size_t length = strlen(group);
    return strncmp(command->name, group, length) == 0 && command->name[length] == ' ';
}

void help_list(const struct command *const *commands, size_t count, const char *group, struct bytes *out)
{
    char asked[96];
    for (size_t i = 0; i < count; i++) {
        if (group[0] != 0 && !command_is_of_group(commands[i], group)) continue;
        snprintf(asked, sizeof asked, "nos %s %s", commands[i]->name, commands[i]->arguments);
        bytes_print(out, "  %-*s %s\n", COMMAND_COLUMN, asked, commands[i]->summary);
    }
}
