/* Bytes that stand after the end of what was read: they are reported, since evidence gets lost that way, or refused. */
#ifndef UNREAD_H
#define UNREAD_H

#include <stdbool.h>

#include "refusal.h"

/* Says how many bytes of a subject were not read, from `place` on, where there are any that matter. With --strict it says that they are
 * refused, and gives true; that nothing was written is not said yet. */
bool unread_refused(const struct subject *subject, size_t place, bool strict);

#endif
