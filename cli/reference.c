/* A reference of a text: see reference.h. */
#include <string.h>

#include "reference.h"

struct reference reference_at(const struct lookups *lookups, const uint8_t *text, size_t length, size_t place)
{
    struct reference reference = {.to = TO_NEITHER};
    if (place >= length || text[place] != '<') return reference;
    const uint8_t *content = text + place + 1, *end = memchr(content, '>', length - place - 1);
    if (end == NULL) return reference;
    reference.content = content;
    reference.length = (size_t)(end - content);
    struct nos_number number = nos_read_unsigned(content, reference.length, true, NOS_NO_LIMIT);
    if (number.number == NOS_ACCEPTED) {
        reference.to = TO_A_NUMBER;
        reference.value = number.value;
    } else if (number.number != NOS_TOO_BIG) {
        reference.macro = nos_look_up(content, reference.length, NOS_INDEXED(lookups->tables));
        if (reference.macro.number == NOS_ACCEPTED && reference.macro.kind == NOS_MACRO) reference.to = TO_A_MACRO;
    }
    return reference;
}
