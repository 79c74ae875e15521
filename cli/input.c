/* Files and standard input, as they are read: see input.h. */
#include <errno.h>
#include <fcntl.h>
#include <poll.h>
#include <string.h>
#include <unistd.h>

#include "input.h"

enum { CHUNK = 65536 };

bool is_standard_input(const char *name) { return strcmp(name, "-") == 0; }

static bool could_not_be_read(const struct input *input)
{
    say("%s could not be read: %s", is_standard_input(input->name) ? "standard input" : input->name, strerror(errno));
    return false;
}

bool input_open(struct input *input, const char *name)
{
    input->name = name;
    input->ended = false;
    input->descriptor = is_standard_input(name) ? STDIN_FILENO : open(name, O_RDONLY | O_NOCTTY);
    if (input->descriptor < 0) return could_not_be_read(input);
    if (is_standard_input(name) && isatty(STDIN_FILENO))
        say("standard input is being read from the terminal: end it with Ctrl-D at the start of a line");
    return true;
}

bool input_read(struct input *input, uint8_t *bytes, size_t room, size_t *got)
{
    *got = 0;
    while (!input->ended) {
        ssize_t count = read(input->descriptor, bytes, room);
        if (count >= 0) {
            *got = (size_t)count;
            input->ended = count == 0;
            return true;
        }
        struct pollfd waiting = {input->descriptor, POLLIN, 0};
        if (errno == EAGAIN || errno == EWOULDBLOCK) poll(&waiting, 1, -1);
        else if (errno != EINTR) return could_not_be_read(input);
    }
    return true;
}

void input_close(struct input *input)
{
    if (input->descriptor != STDIN_FILENO) close(input->descriptor);
}

/* Reads `count` bytes, or up to the end, and lets them go. No seeking: a pipe cannot, and what it means for a device is open. */
static bool pass_over(struct input *input, size_t count)
{
    uint8_t passed[CHUNK];
    for (size_t got = 1; count > 0 && got > 0; count -= got)
        if (!input_read(input, passed, count < CHUNK ? count : CHUNK, &got)) return false;
    return true;
}

static bool take(struct input *input, size_t most, struct bytes *bytes)
{
    for (size_t got = 1; most > 0 && got > 0; most -= got) {
        size_t wanted = most < CHUNK ? most : CHUNK;
        bytes_reserve(bytes, wanted);
        if (!input_read(input, bytes->at + bytes->length, wanted, &got)) return false;
        bytes->length += got;
    }
    return true;
}

bool input_take(const char *name, size_t start, size_t most, struct bytes *bytes)
{
    struct input input;
    if (!input_open(&input, name)) return false;
    bool taken = pass_over(&input, start) && take(&input, most, bytes);
    input_close(&input);
    return taken;
}
