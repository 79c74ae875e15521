/* What the clerk's four papers share. */
#ifndef CLERK_H
#define CLERK_H

#include "nosgoludd.h"

/* The margins are neighbours of what is lent: no call may touch them. */
enum { MARGIN = 16, PAGE = 1048576, DIARY = MARGIN + 2 * PAGE + MARGIN };

extern uint8_t diary[DIARY];

/* Ends the day where a claim does not hold. */
void check(int holds, const char *claim);

/* Whether two answers are the same but for what is free, which goes by the room. */
int alike(struct nos_answer one, struct nos_answer other);

/* Bytes that differ from their neighbours, with the top bit set, so that one moved or written is seen. */
void fill(uint8_t *bytes, size_t size);

/* Keeps a copy of a paper; later checks that all of it but the `written` bytes at `at` is as it was. */
void remember(const uint8_t *paper, size_t size);
void check_the_rest(const uint8_t *paper, size_t size, size_t at, size_t written);

/* Checks what holds of every conversion into the `room` bytes at `at` of a remembered paper: the whole string stands there, with so many
 * zero bytes behind it, 1 or for &28 none, or nothing does; and every other byte of the paper is as it was. */
void check_conversion(struct nos_answer answer, size_t zeros, const uint8_t *paper, size_t size, size_t at, size_t room);

/* The bytes of a string. */
const uint8_t *bytes_of(const char *text);

/* What a place is counted in, in words; the text goes without. */
const char *in_words(uint32_t counted);

/* Prints bytes as they are, and those that do not print as numbers in brackets. */
void print_bytes(const uint8_t *bytes, size_t length);

/* The work on dates. */
void dates(void);

/* The work on variables, texts and sums. */
void headings(void);

/* The work on the house table's index. */
void indexes(void);

#endif
