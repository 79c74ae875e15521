/* What is said beside an answer, on standard error. */
#ifndef SAY_H
#define SAY_H

#include <stdarg.h>
#include <stddef.h>
#include <stdint.h>

/* Lets a compiler that can do so compare a format, the argument of that number, with what is given for it from another one on. */
#if defined __GNUC__
#define LIKE_PRINTF(words, list) __attribute__((format(printf, words, list)))
#else
#define LIKE_PRINTF(words, list)
#endif

/* The byte itself where it is printable ASCII, otherwise "?": a terminal obeys other bytes, and a text may have any. */
char printable(uint8_t byte);

/* Says a line after "nos: ". Bytes that are not printable ASCII are shown as "?", and of a very long line the start. */
void say(const char *format, ...) LIKE_PRINTF(1, 2);
void say_list(const char *format, va_list list) LIKE_PRINTF(1, 0);

/* Says a line with nothing before it, as it is: the caller has made its bytes printable. */
void say_plain(const char *line);

#endif
