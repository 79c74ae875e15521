/* nos, the clerk's command: it asks the proved library and shows its answer. docs/NOS.md is its manual. A new command is a row of its
 * own (struct command), a name in commands.h and one in the list below. */
#include <errno.h>
#include <fcntl.h>
#include <signal.h>
#include <string.h>

#include "commands.h"
#include "help.h"
#include "nosgoludd.h"
#include "options.h"
#include "output.h"

static const struct command *const commands[] = {
    &translate_command, &eval_command, &convert_command, &read_command, &date_command,
    &table_check_command, &table_show_command, &table_make_command, &table_set_command, &table_unset_command, &table_index_command,
};

enum { COMMANDS = sizeof commands / sizeof commands[0] };

static const char after_list[] =
    "\n"
    "  nos COMMAND --help       how a command is asked, and its options\n"
    "  nos --version            the version\n"
    "\n"
    "An answer is whole, or it is refused and nothing is written. Status 0: accepted. 1: refused. 2: wrong usage.\n"
    "3: a file, standard input or standard output could not be read or written.\n";

static enum status show_list(const char *group, const char *after)
{
    struct bytes out = {NULL, 0, 0};
    help_list(commands, COMMANDS, group, &out);
    bytes_print(&out, "%s", after);
    enum status status = output_write(NULL, &out);
    bytes_free(&out);
    return status;
}

static enum status show_help(const struct command *command)
{
    struct bytes out = {NULL, 0, 0};
    help_command(command, &out);
    enum status status = output_write(NULL, &out);
    bytes_free(&out);
    return status;
}

static enum status show_version(void)
{
    struct bytes out = {NULL, 0, 0};
    bytes_print(&out, "%s", NOS_VERSION);
    return output_write_line(NULL, &out);
}

static enum status run_command(const struct command *command, int count, char *const *arguments)
{
    struct request request;
    enum status status = request_read(&request, command, count, arguments);
    if (status != STATUS_ACCEPTED) return status;
    return request.help ? show_help(command) : command->run(&request);
}

/* How many words a command's name takes where they begin with it; otherwise 0. */
static int words_of_name(const struct command *command, int count, char *const *words)
{
    const char *space = strchr(command->name, ' ');
    if (space == NULL) return strcmp(words[0], command->name) == 0 ? 1 : 0;
    return count > 1 && command_is_of_group(command, words[0]) && strcmp(words[1], space + 1) == 0 ? 2 : 0;
}

static bool is_group(const char *word)
{
    for (size_t i = 0; i < COMMANDS; i++)
        if (command_is_of_group(commands[i], word)) return true;
    return false;
}

/* Says what is wrong with the words before a command is known, and where the help is. */
static enum status wrong_words(const char *group, const char *what, const char *word)
{
    say("%s%s", what, word);
    say("`nos %s%s--help` says what there is", group, group[0] == 0 ? "" : " ");
    return STATUS_USAGE;
}

static enum status run_group(const char *group, int count, char *const *words)
{
    if (count == 0) return wrong_words(group, "a word is missing after ", group);
    if (strcmp(words[0], "--help") != 0) return wrong_words(group, "there is no such command: ", words[0]);
    return count == 1 ? show_list(group, "") : wrong_words(group, "there is one argument too many: ", words[1]);
}

static enum status run(int count, char *const *words)
{
    if (count <= 0) return wrong_words("", "no command was given", "");
    for (size_t i = 0; i < COMMANDS; i++) {
        int taken = words_of_name(commands[i], count, words);
        if (taken > 0) return run_command(commands[i], count - taken, words + taken);
    }
    if (is_group(words[0])) return run_group(words[0], count - 1, words + 1);
    bool help = strcmp(words[0], "--help") == 0, version = strcmp(words[0], "--version") == 0;
    if (!help && !version) return wrong_words("", "there is no such command: ", words[0]);
    if (count > 1) return wrong_words("", "there is one argument too many: ", words[1]);
    return help ? show_list("", after_list) : show_version();
}

/* A standard descriptor that is closed would be given to the next file that is opened, and what is said on standard error would get
 * into an answer. Standard input and output get one that can be neither read nor written, and the lines of standard error are lost. */
static bool hold_standard_descriptors(void)
{
    static const int uses[] = {O_WRONLY, O_RDONLY, O_WRONLY};
    for (int descriptor = 0; descriptor < 3; descriptor++)
        if (fcntl(descriptor, F_GETFD) < 0 && errno == EBADF && open("/dev/null", uses[descriptor]) != descriptor) return false;
    return true;
}

/* A pipe that nobody reads and a file that gets too large are reported by the status 3, with words, and not by a signal. */
static void ignore_signals_of_writing(void)
{
    signal(SIGPIPE, SIG_IGN);
#ifdef SIGXFSZ
    signal(SIGXFSZ, SIG_IGN);
#endif
}

int main(int count, char **words)
{
    if (!hold_standard_descriptors()) return STATUS_FILES;
    ignore_signals_of_writing();
    return (int)run(count - 1, words + 1);
}
