/* Lines on standard error: see say.h. */
#include <stdio.h>
#include <string.h>

#include "say.h"

enum { LONGEST_LINE = 8192 };

char printable(uint8_t byte) { return byte >= ' ' && byte <= '~' ? (char)byte : '?'; }

/* A line goes out by one call, so that those of two programs do not mix. Where standard error cannot be written there is nobody to
 * say that to. */
void say_plain(const char *line)
{
    fputs(line, stderr);
}

void say_list(const char *format, va_list list)
{
    static const char name[] = "nos: ", cut[] = "...";
    char line[LONGEST_LINE + sizeof cut + 1];
    size_t start = sizeof name - 1;
    memcpy(line, name, start);
    int length = vsnprintf(line + start, LONGEST_LINE - start, format, list);
    if (length < 0) return;
    size_t end = start + (size_t)length;
    if (end >= LONGEST_LINE) {
        end = LONGEST_LINE - 1;
        memcpy(line + end, cut, sizeof cut - 1);
        end += sizeof cut - 1;
    }
    for (size_t i = start; i < end; i++) line[i] = printable((uint8_t)line[i]);
    line[end] = '\n';
    line[end + 1] = 0;
    say_plain(line);
}

void say(const char *format, ...)
{
    va_list list;
    va_start(list, format);
    say_list(format, list);
    va_end(list);
}
