/* Options and arguments, as they are written on the command line. */
#ifndef OPTIONS_H
#define OPTIONS_H

#include "command.h"

/* How an option is written, as "--room N" or "--lines", and what it does: for the help. */
const char *option_name(enum option option);
const char *option_value_name(enum option option); /* "" where it takes no value */
const char *option_help(enum option option);

/* The list of a command that takes none. */
extern const enum option no_options[];

/* Reads the words after a command's name. STATUS_ACCEPTED, or STATUS_USAGE after saying what is wrong. */
enum status request_read(struct request *request, const struct command *command, int count, char *const *arguments);

/* Says what is wrong with the words of a command, and where its help is. */
enum status wrong_usage(const struct command *command, const char *format, ...) LIKE_PRINTF(2, 3);

/* An argument that names a file to be written: "-" is none, since it would be taken for standard output. */
enum status check_written_file(const struct command *command, const char *file);

/* The number of an option, or where it is not given another. */
uint32_t number_or(const struct request *request, enum option option, uint32_t otherwise);

/* The room that --room asks for, and at most the one that is enough for every answer. */
size_t room_asked(const struct request *request, size_t enough);

#endif
