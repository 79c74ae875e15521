/* The help: what `nos` can do, and how it is asked. */
#ifndef HELP_H
#define HELP_H

#include "bytes.h"
#include "command.h"

/* Adds the help of one command to `out`. */
void help_command(const struct command *command, struct bytes *out);

/* Whether a command's name begins with this word and has another one after it, as "table set" is of the group "table". */
bool command_is_of_group(const struct command *command, const char *group);

/* Adds the commands and what they do, a line each; with a group those of it alone, with "" all. */
void help_list(const struct command *const *commands, size_t count, const char *group, struct bytes *out);

#endif
