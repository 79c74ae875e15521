/* Prints what the Rust module has of its own copy: the header's refusals in words, those that have a name there, and the numbers of its
 * calls and tables. run compares. */
#include <stdio.h>

#include "nosgoludd.h"

static const uint32_t calls[] = {
    NOS_DECIMAL,
    NOS_HEX_1, NOS_HEX_2, NOS_HEX_4, NOS_HEX_6, NOS_HEX_8,
    NOS_UNSIGNED_1, NOS_UNSIGNED_2, NOS_UNSIGNED_3, NOS_UNSIGNED_4,
    NOS_SIGNED_1, NOS_SIGNED_2, NOS_SIGNED_3, NOS_SIGNED_4,
    NOS_BINARY_1, NOS_BINARY_2, NOS_BINARY_3, NOS_BINARY_4,
    NOS_SPACED_UNSIGNED_1, NOS_SPACED_UNSIGNED_2, NOS_SPACED_UNSIGNED_3, NOS_SPACED_UNSIGNED_4,
    NOS_SPACED_SIGNED_1, NOS_SPACED_SIGNED_2, NOS_SPACED_SIGNED_3, NOS_SPACED_SIGNED_4,
};

int main(void)
{
    for (uint32_t number = 0; number <= NOS_CODE_OVER_255; number++) printf("%u %s\n", number, nos_words(number));
    printf("%d\n%d\n%d\n", NOS_NO_ROOM, NOS_BAD_INDEX, NOS_CODE_OVER_255);
    for (size_t i = 0; i < sizeof calls / sizeof calls[0]; i++) printf("%u\n", calls[i]);
    printf("%d\n%d\n", NOS_IN_THE_HOUSE, NOS_IN_THE_FARM);
    return 0;
}
