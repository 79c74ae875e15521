/* An emulator's handler for the calls (SWIs) of an emulated ARM machine that convert, and those that read and set its variables. Copy
 * it with handler.c, handler_variables.c, handler_parts.h, tables.h and tables.c, and hand it the machine's SWIs.
 *
 * It serves, with and without bit 17 (the X form):
 *
 *   &21          OS_ReadUnsigned           a number read from a string
 *   &23          OS_ReadVarVal             a variable read
 *   &24          OS_SetVarVal              a variable created, changed or deleted; no code variables
 *   &27          OS_GSTrans                a string translated
 *   &28          OS_BinaryToDecimal        a signed number as a string
 *   &2D          OS_EvaluateExpression     an expression evaluated; integers only
 *   &C1          OS_ConvertDateAndTime     a time as a string, by a format
 *   &D0 to &E8   OS_Convert...             a number as a string
 *
 * It does not serve &25 OS_GSInit and &26 OS_GSRead yet: a program that calls them gets an error that says so.
 *
 * A result stands whole in the program's memory and registers, or nothing does. handler.c and handler_variables.c say above each call
 * what the program gives, what it gets, and what it sees of each refusal. A call takes some 70,000 bytes of the host's stack, for a
 * copy of the string or the format, and NOS_STACK on top of them. */
#ifndef HANDLER_H
#define HANDLER_H

#include "tables.h"

#ifdef __cplusplus
extern "C" {
#endif

/* What the emulator lends to the handler for one call. */
struct machine {
    uint8_t *memory;      /* the emulated memory: the byte of address 0 first */
    uint32_t size;        /* its bytes; addresses from here on are no memory */
    struct table *farm;   /* the machine's own system variables, which &24 changes; NULL: it has none, and can set none */
    const uint8_t *house; /* those that all machines share, which no call changes. Both tables lie outside of `memory` */
    size_t house_length;
    uint32_t allowance;   /* how many look-ups one string or expression may take */
    uint32_t error_at;    /* the address of ERROR_ROOM bytes for error blocks, which no program lends as a buffer */
    uint32_t name_at;     /* the same, of NAME_ROOM bytes for the name of the variable that &23 or &24 has found; it is not 0 */
};

/* What the calls read and change of the ARM's registers: R0 to R4, and the C and V flags. */
struct registers {
    uint32_t r[16];
    bool carry, overflow;
};

/* A name has at most 255 bytes, its length being one byte of its record; a zero byte goes after it. */
enum { NAME_ROOM = 256 };

/* An error as the program meets it at `error_at`: the number, lowest byte first, and the message with a zero byte behind it. */
enum { ERROR_ROOM = 40, MESSAGE_ROOM = ERROR_ROOM - 4 };
struct error_block {
    uint32_t number;
    char message[MESSAGE_ROOM];
};

/* The book names errors but not their numbers. Here an error's number is this one plus the refusal's; a host whose programs ask for
 * the numbers of a certain ROM changes block_of in handler.c. */
#define ERROR_BASE 0x7F00u

/* Refusals beside those of enum nos_refusal. */
#define BAD_ADDRESS 128u    /* an address range that is not all memory, or a string that memory's end cuts off */
#define BAD_TYPE 129u       /* &24: a type that is none of this machine's, or an integer that has not four bytes */
#define BAD_NAME 130u       /* &24: a name that no new variable can have */
#define BAD_VALUE 131u      /* &24: a string that does not end where its length says, or a macro with control characters */
#define VALUE_TOO_LONG 132u /* &24: a value that no variable can have */
#define TABLE_FULL 133u     /* &24: a good table cannot have that variable besides, whatever its room */
#define NOT_SERVED_YET 134u /* &25, &26 */

/* How the emulator goes on. */
enum ending {
    NOT_MINE, /* another call: serve it otherwise. Nothing was changed */
    SERVED,   /* go on after the SWI. V is clear. Two answers have a `refusal` and are no errors: of &27 a buffer that is too short, and of
               * &23 the question whether there is a variable, where there is none */
    RETURNED, /* an error in the X form: go on after the SWI. V is set and R0 has the block's address */
    RAISED,   /* an error in the other form: enter the program's error handler. The block stands in memory, and R0 and V are as for
               * RETURNED; R14 and the PC are the emulator's business */
    NO_BLOCK  /* the host's own fault: `error_at` is not ERROR_ROOM bytes of memory, or for &23 and &24 `name_at` not NAME_ROOM, or 0.
               * Nothing was changed */
};

/* What became of a call. The program's conventions have no place for the need, nor for which table is bad; the host finds both
 * here, whatever the call. */
struct served {
    enum ending ending;
    uint32_t refusal;         /* by enum nos_refusal, or one of those above; 0: none */
    uint32_t counted;         /* NOS_IN_THE_FARM or NOS_IN_THE_HOUSE where that table was refused, by 13 or 18. Otherwise 0 */
    uint32_t need;            /* with NOS_NO_ROOM: the buffer size, in R2 on entry, that would have been enough; of &24 the room of the
                               * farm's table. Otherwise 0 */
    struct error_block error; /* where RETURNED or RAISED: a copy of the block in memory */
};

/* Serves the SWI of a number. Registers that a call does not set, and all of them but R0 after an error, stay as they were. */
struct served handle_swi(const struct machine *machine, uint32_t swi, struct registers *registers);

#ifdef __cplusplus
}
#endif

#endif
