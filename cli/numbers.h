/* Numbers as they are written for `nos`: 21, &15 or 2_10101, with nothing before or after them. */
#ifndef NUMBERS_H
#define NUMBERS_H

#include <stdbool.h>

#include "bytes.h"

/* False where the bytes are no such number of 32 bits. */
bool number_read(const uint8_t *text, size_t length, uint32_t *number);

/* The same with a "-" before it or none, down to -2,147,483,648: a number over 32 bits is not cut to them. */
bool signed_number_read(const uint8_t *text, size_t length, uint32_t *pattern);

/* A byte by two hex digits, of letters in either case. */
bool hex_byte_read(const uint8_t *digits, uint8_t *byte);

/* Adds a number in decimal, as NOS_UNSIGNED_4 or NOS_SIGNED_4 writes it. */
void number_append(struct bytes *bytes, uint32_t call, uint32_t number);

#endif
