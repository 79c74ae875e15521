/* The commands, each with its row: its name, its help, its options and the function that runs it. nos.c lists them. */
#ifndef COMMANDS_H
#define COMMANDS_H

#include "command.h"

extern const struct command translate_command, eval_command, convert_command, read_command, date_command;
extern const struct command table_check_command, table_show_command, table_make_command, table_set_command, table_unset_command,
    table_index_command;

#endif
