/* Numbers over 255 between "<" and ">": the library refuses them since 1.6.0, and before gave their remainder by 256. A text that was
 * written for that is told what it gave, so that it can be mended. */
#ifndef OLD_CODES_H
#define OLD_CODES_H

#include "lookups.h"

/* Says a line for each such number that the old reading of a text would have met, in its order, those of the macros that the text names
 * with them. A macro is gone through once, as a text of its own, however often it is named, and all look-ups are allowed. Where the old
 * reading would have been refused, this ends. For a text that was refused by 21; the tables and the index are good. */
void say_old_codes(const struct lookups *lookups, const struct subject *text, uint32_t flags);

#endif
