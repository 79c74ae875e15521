/* What a command of `nos` is, and what it is asked: the options and arguments that were given to it. */
#ifndef COMMAND_H
#define COMMAND_H

#include <stdbool.h>
#include <stddef.h>
#include <stdint.h>

#include "say.h"
#include "status.h"

/* Every option that any command has; options.c has how each is written, and its help. */
enum option {
    OPTION_NONE, /* ends a command's list */
    OPTION_TABLE,
    OPTION_FARM,
    OPTION_INDEX,
    OPTION_ALLOWANCE,
    OPTION_ROOM,
    OPTION_SPACE_ENDS,
    OPTION_BAR_PLAIN,
    OPTION_QUOTE_PLAIN,
    OPTION_LINES,
    OPTION_STRICT,
    OPTION_WHOLE,
    OPTION_LIMIT,
    OPTION_FROM,
    OPTION_AT,
    OPTION_OUTPUT,
    OPTION_COUNT
};

enum { MOST_ARGUMENTS = 4 };

struct request;

struct command {
    const char *name;      /* a word, or two, as "table set" */
    const char *arguments; /* as the help shows them */
    const char *summary;   /* what it does, in a line */
    const char *notes;     /* what else its help says, in lines that end with a line feed */
    size_t least, most;    /* arguments */
    const enum option *options; /* those that it takes, OPTION_NONE last */
    enum status (*run)(const struct request *request);
};

struct request {
    const struct command *command;
    const char *arguments[MOST_ARGUMENTS];
    size_t count; /* of arguments, between the command's least and most */
    bool help;    /* --help was given: nothing else was looked at */
    bool given[OPTION_COUNT];
    const char *values[OPTION_COUNT];  /* of those that take one; NULL where not given */
    uint32_t numbers[OPTION_COUNT];    /* of those whose value is a number */
};

#endif
