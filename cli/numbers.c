/* Numbers as they are written for `nos`: see numbers.h. */
#include "nosgoludd.h"
#include "numbers.h"

#define LARGEST_BELOW_ZERO 0x80000000u /* without its "-" */

enum { ENOUGH_FOR_DECIMAL = 16 };

bool number_read(const uint8_t *text, size_t length, uint32_t *number)
{
    struct nos_number answer = nos_read_unsigned(text, length, 0, NOS_NO_LIMIT);
    *number = answer.value;
    return answer.number == NOS_ACCEPTED && answer.place == length && text[0] != ' ';
}

bool signed_number_read(const uint8_t *text, size_t length, uint32_t *pattern)
{
    if (length == 0 || text[0] != '-') return number_read(text, length, pattern);
    uint32_t magnitude;
    bool is_one = number_read(text + 1, length - 1, &magnitude) && magnitude <= LARGEST_BELOW_ZERO;
    *pattern = 0 - magnitude;
    return is_one;
}

bool hex_byte_read(const uint8_t *digits, uint8_t *byte)
{
    const uint8_t text[] = {'&', digits[0], digits[1]};
    uint32_t number;
    bool is_one = number_read(text, sizeof text, &number);
    *byte = (uint8_t)number;
    return is_one;
}

void number_append(struct bytes *bytes, uint32_t call, uint32_t number)
{
    uint8_t string[ENOUGH_FOR_DECIMAL];
    bytes_append(bytes, string, nos_convert(call, number, string, sizeof string).place);
}
