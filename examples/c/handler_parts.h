/* What the files of the handler share. A host includes handler.h, and not this. */
#ifndef HANDLER_PARTS_H
#define HANDLER_PARTS_H

#include "handler.h"

#ifdef __cplusplus
extern "C" {
#endif

/* Whether an address range is all memory. */
bool swi_is_memory(const struct machine *machine, uint32_t at, uint32_t length);

/* Whether a byte ends a string: 0, 10 or 13. */
bool swi_ends_string(uint8_t byte);

/* The machine's variables as the library takes them. */
struct nos_tables swi_tables(const struct machine *machine);

/* An ending with nothing to say. */
struct served swi_ended(enum ending ending);

/* An error, in the machine's own words where it has them. */
struct served swi_error(uint32_t refusal, uint32_t need);

/* An error in other words. */
struct served swi_error_saying(const char *message, uint32_t refusal);

/* A refusal of a string or an expression, or of one of the tables that it is read with: then the host learns which. */
struct served swi_error_in(uint32_t refusal, uint32_t counted);

/* &23 and &24, of handler_variables.c. */
struct served swi_read_variable(const struct machine *machine, struct registers *registers);
struct served swi_set_variable(const struct machine *machine, struct registers *registers);

#ifdef __cplusplus
}
#endif

#endif
