/* Nosgoludd: numbers and dates to strings, numbers read from texts, variables in two tables with an index beside one of them, texts that
 * name them, and expressions, whole or refused.
 *
 * An office certifies organic farms from old diaries. Once a quantity fell across the end of a 1,048,576-byte buffer, the
 * conversion cut it, and the rows after it were never seen. So a conversion, a translation or an index comes whole, or it is refused
 * and writes nothing, and where room was all it lacked the refusal carries the need: ask again with that room.
 *
 * Link libnosgoludd.a: x86-64 Linux, and all it needs is memcpy and memset of the C library. The functions are proved to give
 * these answers for every input. They keep nothing between calls, allocate nothing and always return, so threads may call them at
 * once. A call takes at most NOS_STACK bytes of stack: what the archive's code adds up to along its deepest calls, and at least a
 * third of that more, for memcpy, memset and the linker; tests/stack adds it up, and measures it over the deepest inputs.
 *
 * What the proof asks of you: a pointer points to as many bytes as the room or length after it says, which may be read, and for
 * buf and out written. Nothing else (a thread, a shared mapping) writes any of them before the call returns, nor reads those of
 * buf and out; out overlaps neither text, tables nor index, that of nos_build_index not its table, and buf neither time nor format.
 * With a room or a length of 0 the pointer is not used and may be NULL, and so is that of an index where `indexed` is 0, whatever its
 * length: the compiled code was looked at for that, and examples/c runs every one so.
 *
 * What no proof can ask for you: give the true length of a text, a format or a table, as long as it is. What is over 65,535 bytes is
 * refused, by 18. A length that you clamp to 65,535 makes the library read a cut text as if it were whole.
 *
 * THE ANSWER is a struct that the function returns, so that a refusal writes nothing anywhere. `number` is 0 where accepted, and
 * else that of the refusal; nos_words has it in words. A place is counted in bytes from 0, and `counted` says in what. Where
 * refused, a field beside number, counted and place is 0, but for `free`, and for the `need` of 1.
 *
 * &D0 is 0xD0, as the RISC OS manual writes it.
 */
#ifndef NOSGOLUDD_H
#define NOSGOLUDD_H

#include <stddef.h>
#include <stdint.h>

#define NOS_VERSION "1.6.0"       /* each change request raises the second number, other work the third; CHANGES.md has them all */
#define NOS_STACK 49152u          /* the most bytes of stack that a call takes */
#define NOS_LONGEST 65535u        /* the longest text, format or table that is read, in bytes */
#define NOS_TIME 5u               /* the bytes of a time */
#define NOS_NO_LIMIT 4294967295u  /* a limit that refuses nothing */

#ifdef __cplusplus
extern "C" {
#endif

/* One numbering for the whole library. nos_convert refuses by 14 and 1, nos_convert_date by 18, 19 and 1, nos_read_unsigned by 18, 3,
 * 2, 4, 5 and 6, nos_check_table by 18 and 13, nos_build_index by 18, 13 and 1, nos_look_up by 18, 13, 20 and 10, nos_translate by 18,
 * 13, 20, 9, 4, 21, 10, 11, 12, 7, 8 and 1, nos_evaluate by 18, 13, 15, 11, 2, 3, 4, 10, 17, 12 and 16. */
enum nos_refusal {
    NOS_ACCEPTED = 0,
    NOS_NO_ROOM = 1,
    NOS_NO_DIGIT = 2,
    NOS_BAD_BASE = 3,
    NOS_TOO_BIG = 4,
    NOS_NOT_ENDED = 5,
    NOS_OVER_LIMIT = 6,
    NOS_BAD_CODE = 7,
    NOS_BAD_STRING = 8,
    NOS_BAD_REFERENCE = 9,
    NOS_UNKNOWN_NAME = 10,
    NOS_TOO_DEEP = 11,
    NOS_ALLOWANCE_SPENT = 12,
    NOS_BAD_TABLE = 13,
    NOS_UNKNOWN_CALL = 14,
    NOS_BAD_EXPRESSION = 15,
    NOS_ZERO_DIVISOR = 16,
    NOS_NOT_AN_INTEGER = 17,
    NOS_OVER_LENGTH = 18, /* of a time: not five bytes */
    NOS_BAD_FIELD = 19,
    NOS_BAD_INDEX = 20,
    NOS_CODE_OVER_255 = 21
};

/* A refusal in words. */
static inline const char *nos_words(uint32_t number)
{
    static const char *const words[] = {
        "Accepted",
        "No room",
        "Bad number: no digit",
        "Bad base",
        "Too big: over 4,294,967,295",
        "Not ended",
        "Over the caller's limit",
        "Bad code",
        "Bad string",
        "Bad reference",
        "Unknown name",
        "Too deep",
        "Allowance spent",
        "Bad table",
        "Unknown call",
        "Bad expression",
        "Zero divisor",
        "Not an integer variable",
        "Text or table over 65,535 bytes, or a time not of five",
        "Bad field",
        "Index does not fit this table",
        "Code over 255",
    };
    return number < sizeof words / sizeof words[0] ? words[number] : "No such refusal";
}

/* What a place is counted in. Where a struct has no `counted` there is but one thing that it can be. */
enum nos_counting {
    NOS_IN_THE_TEXT = 0,  /* the text, the name, the format or the time; nos_convert, which has none, always gives it, and
                           * nos_build_index wherever its table is good */
    NOS_IN_THE_HOUSE = 1, /* the house table; the one table of nos_build_index */
    NOS_IN_THE_FARM = 2,  /* the farm's own table */
    NOS_IN_THE_INDEX = 3  /* the index of the house table */
};

/* Of nos_convert, nos_convert_date, nos_build_index and nos_translate. */
struct nos_answer {
    uint32_t number, counted;
    size_t place, need, free;
};

/* Of nos_read_unsigned; the place is counted in the text. */
struct nos_number {
    uint32_t number, value;
    size_t place;
};

/* Of nos_check_table; the place is counted in the table. */
struct nos_checked {
    uint32_t number, records;
    size_t place;
};

/* Of nos_look_up. */
struct nos_variable {
    uint32_t number, counted;
    size_t place;
    uint32_t kind, length;
    size_t start;
};

/* Of nos_evaluate. */
struct nos_value {
    uint32_t number, counted;
    size_t place;
    int32_t value;
};

/* The calls. The number in a name is that of the digits for hex, and of the low bytes that are used for the others. */
enum nos_call {
    NOS_DECIMAL = 0x28, /* NOS_SIGNED_4 without its zero byte */
    NOS_HEX_1 = 0xD0, NOS_HEX_2, NOS_HEX_4, NOS_HEX_6, NOS_HEX_8,
    NOS_UNSIGNED_1 = 0xD5, NOS_UNSIGNED_2, NOS_UNSIGNED_3, NOS_UNSIGNED_4,
    NOS_SIGNED_1 = 0xD9, NOS_SIGNED_2, NOS_SIGNED_3, NOS_SIGNED_4,
    NOS_BINARY_1 = 0xDD, NOS_BINARY_2, NOS_BINARY_3, NOS_BINARY_4,
    NOS_SPACED_UNSIGNED_1 = 0xE1, NOS_SPACED_UNSIGNED_2, NOS_SPACED_UNSIGNED_3, NOS_SPACED_UNSIGNED_4,
    NOS_SPACED_SIGNED_1 = 0xE5, NOS_SPACED_SIGNED_2, NOS_SPACED_SIGNED_3, NOS_SPACED_SIGNED_4
};

/* Writes a value as a string to the start of buf, with a zero byte after it; by &28 without one.
 *
 *   call         string                      uses of the value         of 1048576, widest call   most need
 *   &D0 to &D4   hex, 1, 2, 4, 6, 8 digits   that many low nibbles     00100000                   9
 *   &D5 to &D8   unsigned decimal            low 1, 2, 3, 4 bytes      1048576                   11
 *   &D9 to &DC   signed decimal              the same, two's compl.    1048576                   12
 *   &DD to &E0   binary                      low 1, 2, 3, 4 bytes      00000000000100000000..    33
 *   &E1 to &E4   unsigned decimal, spaced    as &D5 to &D8             1 048 576                 14
 *   &E5 to &E8   signed decimal, spaced      as &D9 to &DC             1 048 576                 15
 *   &28          as &DC, no zero byte        4 bytes                   1048576                   11
 *
 * Hex and binary keep their leading zeros, and hex letters are capitals. Decimal has no leading zero, and zero is "0".
 * Spaced: one space between groups of three digits counted from the right, none after a minus: -2 147 483 648.
 * Bit 17 of the call (0x20000, the X form) makes no difference; every other number is an unknown call.
 *
 *   accepted   place: the number of characters, which is the offset of the zero byte in buf where there is one. need: the bytes
 *              written, so one more than the place for the zero byte, and by &28 the place itself. free: room - place, so a zero byte
 *              counts as free, and by &28 it may be 0. Bytes of buf after the need stay as they were
 *   refused    place 0, free: the room, and every byte of buf stays as it was. The first of these that holds:
 *              14 NOS_UNKNOWN_CALL   need 0, at any room
 *               1 NOS_NO_ROOM        the room is less than the need, which is in the answer
 * counted is always 0.
 *
 *   nos_convert(NOS_UNSIGNED_4, 1048576, buf, 8)    "1048576", place 7, need 8, free 1
 *   nos_convert(NOS_UNSIGNED_4, 1048576, buf, 7)    refused 1, need 8, free 7, buf as it was
 *   nos_convert(NOS_DECIMAL, 1048576, buf, 7)       "1048576" and no zero byte, place 7, need 7, free 0
 *   nos_convert(NOS_DECIMAL, 1048576, buf, 6)       refused 1, need 7, free 6, buf as it was
 *   nos_convert(NOS_SIGNED_1, 128, NULL, 0)         refused 1, need 5: the room for "-128"
 *   nos_convert(NOS_UNSIGNED_1, 1048576, buf, 2)    "0": the low byte alone is used
 */
struct nos_answer nos_convert(uint32_t call, uint32_t value, uint8_t *buf, size_t room);

/* Writes a time as a string by a format, with a zero byte after it, to the start of buf, as call &C1 does. nos_convert does not take
 * &C1: to it that is an unknown call.
 *
 *   time     five bytes, the lowest first: hundredths of a second since 00:00:00 on 1 January 1900, a Monday. All of them are times;
 *            the largest is 06:57:57.75 on 3 June 2248. 1900, 2100 and 2200 have no 29 February
 *   format   ends at its first zero byte or at its length. Bytes after that end are not read, but count for the length. A percent sign
 *            and the two bytes after it are a field, "%%" gives one percent sign, and every other byte, 10 and 13 too, gives itself
 *
 *   field       gives                               field       gives
 *   %CS         hundredths, 00 to 99                %MN         month, 01 to 12
 *   %SE         seconds, 00 to 59                   %M3         month, Jan Feb Mar Apr May Jun Jul Aug Sep Oct Nov Dec
 *   %MI         minutes, 00 to 59                   %CE         the year over 100, 19 to 22: of 1989 it is 19
 *   %24         hours, 00 to 23                     %YR         the year's last two digits, 00 to 99
 *   %DY         day of the month, 01 to 31          %DN         day of the year, 001 to 366
 *   %W3         day of the week, Mon Tue Wed Thu Fri Sat Sun
 * Fields are read from the left, so "%%CS" gives "%CS". Bad: whatever else stands after a percent sign, the book's other fields and
 * small letters among it, and the format's end there or one byte after it.
 *
 * The need depends on the format alone, not on the time: one ask serves a whole column of dates. It is at most the format's length and 1.
 *   accepted   place: the offset of the zero byte in buf. need: the bytes written, the zero byte with them, so one more than the place.
 *              free: room - place, so the zero byte counts as free. Bytes of buf after the zero byte stay as they were
 *   refused    free: the room, and every byte of buf stays as it was. The first of these that holds:
 *              18 NOS_OVER_LENGTH   the format is longer than 65,535 bytes, or the time is not five; place 0, need 0
 *              19 NOS_BAD_FIELD     the percent sign of the leftmost bad field, in the format; need 0
 *               1 NOS_NO_ROOM       the room is less than the need, which is in the answer; place 0
 * counted is always 0.
 *
 * With the five bytes 48 7E 2A 91 41 (in hex), 13:25:54.00 on Tuesday 28 March 1989:
 *   %W3,%DY %M3 %CE%YR.%24:%MI:%SE    "Tue,28 Mar 1989.13:25:54", place 24, need 25
 *   day %DN, 100%%                    "day 087, 100%", place 13, need 14
 *   %CE%YR-%MN-%DY, room 11           "1989-03-28", place 10, need 11, free 1
 *   %CE%YR-%MN-%DY, room 10           refused 1, need 11, free 10, buf as it was
 *   %DY.%mn.%12                       refused 19 at 4
 *   100%                              refused 19 at 3
 */
struct nos_answer nos_convert_date(const uint8_t *time, size_t time_length, const uint8_t *format, size_t format_length, uint8_t *buf,
                                   size_t room);

/* Reads one unsigned number at the start of a text. Spaces (byte 32 alone) are skipped; then stands
 *
 *   &1F        "&" and hex digits
 *   2_1101     a base from 2 to 36 in decimal digits, "_", and digits of that base
 *   1048576    decimal digits; with "_" directly after them they are always a base
 *
 * Letters of either case are digits from 10. Reading stops at the first byte that is no digit of the base. Only `length` ends
 * the text: a zero byte is like any other byte that is no digit.
 *
 *   whole    0: off. Any other number: the byte after the number must be at most 32, or the text must end there.
 *   limit    the largest value that is accepted
 *
 *   accepted   value, and place: that of the first byte not read
 *   refused    value 0. The first of these that holds; the number's start is the first byte after the spaces:
 *              18 NOS_OVER_LENGTH   the text is longer than 65,535 bytes; place 0
 *               3 NOS_BAD_BASE      the base is not 2 to 36, with any number of digits; the number's start
 *               2 NOS_NO_DIGIT      where a digit was wanted
 *               4 NOS_TOO_BIG       over 4,294,967,295; the number's start
 *               5 NOS_NOT_ENDED     whole, and the number goes on; the first byte not read
 *               6 NOS_OVER_LIMIT    over the limit; the number's start
 *
 *   2_1102        6 at 5             37_1            refused 3 at 0
 *    &fFx         255 at 4           &G              refused 2 at 1
 *   12 sacks      12 at 2            (no bytes)      refused 2 at 0
 *   12kg          12 at 2            12kg, whole     refused 5 at 2
 *   4294967295    itself, at 10      4294967296      refused 4 at 0
 */
struct nos_number nos_read_unsigned(const uint8_t *text, size_t length, uint32_t whole, uint32_t limit);

enum nos_kind { NOS_STRING = 0, NOS_INTEGER = 1, NOS_MACRO = 2 };

/* Whether a table of variables is good. A table is records one after the other, each
 *
 *   86, 82, kind, name length (1 to 32), value length (0 to 255), name, value
 *
 * Kind 0 is a string, 1 an integer (4 bytes, the lowest first, two's complement), 2 a macro. Name bytes are 33 to 126 and not 34,
 * 60 or 62; value bytes are free. Names are equal when they differ at most in the case of A to Z; no two records have equal names.
 * At most 256 records; no record at all is good too.
 *
 *   accepted   records: how many there are; place 0
 *   refused    records 0. The first of these that holds:
 *              18 NOS_OVER_LENGTH   the table is longer than 65,535 bytes; place 0
 *              13 NOS_BAD_TABLE     where the first bad record starts. Of two equal names the later one is bad, and so is a record
 *                                   that the table's end cuts off, and anything after 256 records
 */
struct nos_checked nos_check_table(const uint8_t *table, size_t length);

/* Builds the index of a table, by which a name is found without going through all records: their places, in the order of their names,
 * are written to the start of out. A place is that of the record's mark, two bytes, the lower one first.
 *
 * The order: A to Z are taken as a to z, and the names compared as bytes up to the first that differ; a name that is the beginning of
 * another comes before it. So digits, and "_" too, come before the letters.
 *
 *   accepted   place 0. need: twice the number of records, so at most 512. free: room - need. Bytes of out after the need stay as they
 *              were. counted is 0
 *   refused    free: the room, and every byte of out stays as it was. The first of these that holds:
 *              18 NOS_OVER_LENGTH   as by nos_check_table, counted in the table; need 0
 *              13 NOS_BAD_TABLE     likewise
 *               1 NOS_NO_ROOM       the room is less than the need, which is in the answer: ask again with that room; place 0, counted 0
 *
 * With the records Unit, at 0, with the value kg, and Ashes at 11, Ash_1 at 21 and ash at 31, with no value, 39 bytes in all:
 *   nos_build_index(table, 39, out, 9)     31 0 21 0 11 0 0 0, so ash, Ash_1, Ashes, Unit; need 8, free 1, the ninth byte as it was
 *   nos_build_index(table, 39, out, 7)     refused 1, need 8, free 7, out as it was
 *   nos_build_index(table, 39, NULL, 0)    refused 1, need 8
 *   nos_build_index(table, 38, out, 0)     refused 13 at 31, counted in the table: its last record is cut off
 *   nos_build_index(NULL, 0, NULL, 0)      accepted, need 0: the index of a table with no records has no bytes
 */
struct nos_answer nos_build_index(const uint8_t *table, size_t length, uint8_t *out, size_t room);

/* What names are looked up in: two tables, each of them as by nos_check_table, a farm's own variables and those of the house, which all
 * farms share; and beside the house table, if you like, its index.
 *
 * A name means the farm's record that has an equal name, whatever its kind; where there is none, the house's; else it is unknown. So
 * an equal name in both is no fault: the farm's hides the house's. Within one table it still is. A macro of either table may use
 * names of either: they are looked up as those of your text are. One look-up is taken out of the allowance for a name, wherever it
 * ends, and none for one that is refused by 10, 11 or 17. The limits hold for each table: 65,535 bytes, 256 records. A table with no
 * variables has the length 0, and its pointer may be NULL.
 *
 * An index is for one table: it fits where nos_build_index gives these very bytes for the house table, no more and no fewer. Every call
 * judges that anew, as it judges the tables. So an index never changes an answer, and one that does not fit is never used; it saves time
 * where the house table is large and few names are looked up in a call, and none where that table has a few dozen records; a text that
 * names hundreds takes longer through it. Build it again after every edit of the house table: it is refused as soon as a record was added
 * or taken out, changed its place, or got a name that comes elsewhere in the order. The farm's table has no index, and nos_evaluate takes
 * none.
 *
 * All are judged before anything is read, even where nothing is named, or where the farm's table has the name. The first of these that
 * holds is the answer, so that an over-long house table comes before a bad farm's table:
 *   18 NOS_OVER_LENGTH   the text is longer than 65,535 bytes; the farm's table is; the house's is. Place 0, counted in that one
 *   13 NOS_BAD_TABLE     the farm's table is bad; the house's is. The place as by nos_check_table, counted in that one
 *   20 NOS_BAD_INDEX     there is an index, of any length, and it does not fit the house table. Place 0, counted in the index
 */
struct nos_tables {
    const uint8_t *farm;
    size_t farm_length;
    const uint8_t *house;
    size_t house_length;
    const uint8_t *index; /* of the house table, by nos_build_index */
    size_t index_length;
    uint32_t indexed;     /* 0: there is no index, and the two fields before this one count for nothing. Any other number: there is */
};

/* A struct nos_tables as the arguments of a call: the four of nos_evaluate, NOS_TABLES, and the seven of the other two, as in
 * nos_look_up(name, name_length, NOS_INDEXED(tables)). Give them a variable: `t` is evaluated once for each argument. A variable that
 * is initialised with its first four fields has no index. */
#define NOS_TABLES(t) (t).farm, (t).farm_length, (t).house, (t).house_length
#define NOS_INDEXED(t) NOS_TABLES(t), (t).index, (t).index_length, (t).indexed

/* Looks a name up, in the farm's table and then in the house's; there through the index, where there is one, with the same answer. The
 * name may be any bytes, and any number of them. It is no text: one over 32 bytes is unknown, and never refused by 18.
 *
 *   accepted   counted: the table that holds the record, NOS_IN_THE_FARM or NOS_IN_THE_HOUSE. place: that of the record, its mark's
 *              first byte. kind: one of enum nos_kind. The value is `length` bytes, which may be none, all of them inside that table,
 *              from (found.counted == NOS_IN_THE_FARM ? farm : house) + found.start on
 *   refused    kind, length and start 0. The first of these that holds:
 *              18 NOS_OVER_LENGTH    of the farm's table, of the house's: as for struct nos_tables
 *              13 NOS_BAD_TABLE      likewise
 *              20 NOS_BAD_INDEX      of the index: likewise
 *              10 NOS_UNKNOWN_NAME   no record of either has an equal name; place 0, counted 0
 *
 * With the table of nos_build_index's example as the house's and no farm's table, the index 31 0 21 0 11 0 0 0 and indexed 1:
 *   UNIT    a string at 0 of the house table, start 9, length 2    Ash_2   refused 10
 * and with 6 bytes of that index, or with 10, whatever the last two are, or after Unit was renamed to Acre, each of them is refused 20.
 */
struct nos_variable nos_look_up(const uint8_t *name, size_t name_length, const uint8_t *farm, size_t farm_length,
                                const uint8_t *house, size_t house_length, const uint8_t *index, size_t index_length,
                                uint32_t indexed);

/* The flags of a text. Other bits count for nothing. */
#define NOS_SPACE_ENDS (1u << 29)   /* a space after the leading ones and outside quotes ends the text */
#define NOS_BAR_PLAIN (1u << 30)    /* "|" is an ordinary byte: no codes */
#define NOS_QUOTE_PLAIN (1u << 31)  /* a quote opens nothing: it is an ordinary byte */

/* Translates a text into bytes at the start of out, with no terminator. An ordinary byte gives itself.
 *
 * The text ends at the first byte 0, 10 or 13, in quotes and in references too, or at its length. Bytes after that end are not
 * read, but count for the length. Leading spaces (byte 32 alone) are skipped under every flag.
 *
 * Quotes: one standing first after those spaces opens a quoted string. In it "" gives one quote, a single one closes it, no space
 * ends it, and codes and references are read. After the closing quote spaces are skipped and the text must end; with
 * NOS_SPACE_ENDS a space or the end must stand directly there, and that is the text's end. In any other text quotes are ordinary.
 *
 * Codes:
 *   |@              0            |[ or |{     27           |^ or |~     30           || |< |"   the byte after the bar
 *   |A to |Z        1 to 26      |\           28           |_ or |'     31           |!         sets the top bit of the ordinary
 *   |a to |z        1 to 26      |] or |}     29           |?           127                    byte or the other code after it
 * Bad: any other byte after "|"; the end there; and after "|!" the end (with NOS_SPACE_ENDS a space outside quotes too), a bare
 * "<", a quote under any flags, or another "|!".
 *
 * A reference is "<", one or more bytes that a name may have, and ">". What stands between is read as by nos_read_unsigned with
 * whole and no limit. A number is a byte, 0 to 255, and gives that one; over 255 it is refused, by 21, in a macro too, and a variable of
 * that name is not looked for. This departs from the RISC OS Programmer's Reference Manual, by which the remainder by 256 is taken, as it
 * was here before 1.6.0: <321> gave A. What nos_read_unsigned refuses, but not by 4, is a name:
 *   a string    gives its bytes, which are not read again
 *   an integer  gives its signed decimal
 *   a macro     gives its value translated as a text of its own, without flags, one level deeper; at most 16 levels
 * Each name takes one look-up out of one allowance for the whole call, macros' names too. Numbers take none.
 *
 *   allowance   how many look-ups; over 1,024 counts as 1,024
 *
 * The need is the number of bytes given. It is at most 323,583: a name takes 3 bytes of text or more, and adds 255 or fewer.
 *   accepted   place: the text's end, after all spaces that were skipped, or that of the space that ended it. need, and free: room -
 *              need. Bytes of out after the need stay as they were
 *   refused    every byte of out stays as it was; need 0 except for 1; free: the room. The first of these that holds:
 *              18 NOS_OVER_LENGTH       of the text, of the farm's table, of the house's: as for struct nos_tables
 *              13 NOS_BAD_TABLE         of the farm's table, of the house's: likewise
 *              20 NOS_BAD_INDEX         of the index: likewise
 *                 then the first of these that the reading meets from the left:
 *               9 NOS_BAD_REFERENCE     no name byte after the "<", or no ">" after those; the "<"
 *               4 NOS_TOO_BIG           its number is over 4,294,967,295; the "<"
 *              21 NOS_CODE_OVER_255     its number is over 255; the "<"
 *              10 NOS_UNKNOWN_NAME      no record of either table has an equal name; the "<"
 *              11 NOS_TOO_DEEP          a macro named at level 16, your text being level 0; the "<"
 *              12 NOS_ALLOWANCE_SPENT   no look-up is left for the name; the "<"
 *               7 NOS_BAD_CODE          the "|", of "|!|" the first
 *               8 NOS_BAD_STRING        the text ends in the quotes: the open quote; it goes on after them: the byte there
 *                 and last:
 *               1 NOS_NO_ROOM           the room is less than the need, which is in the answer; place 0
 *              At one reference 9, 4, 21, 10, 11, 12 come in this order. A refusal inside a macro has its own number, and the place of
 *              the "<" in your text that led there.
 * counted is 0 but where a table or the index is refused.
 *
 * With a string a in both tables, the farm's the byte x, the house's the byte y, and a macro m of the house, the bytes <A>| and no
 * more; with no flags, allowance 2 and room 2, and with the house table's index as without it:
 *   <A>b         xb, place 4, need 2, free 0              b<m>           refused 7 at 1, for the bar in the macro
 *   |!|@         the byte 128, place 4, need 1, free 1    b<c>           refused 10 at 1
 *   <65>         A, place 4, need 1, free 1               <a><a><a>      refused 12 at 6
 *   <&FF>        the byte 255, place 5, need 1, free 1    <321>          refused 21 at 0, free 2, out as it was
 *   """"         ", place 4, need 1, free 1               <4294967296>   refused 4 at 0
 *   "b"  c       refused 8 at 5; with NOS_SPACE_ENDS      a<             refused 9 at 1
 *                b, place 3, need 1, free 1               <A>bc          refused 1, need 3, free 2, out as it was
 */
struct nos_answer nos_translate(const uint8_t *text, size_t length, const uint8_t *farm, size_t farm_length, const uint8_t *house,
                                size_t house_length, const uint8_t *index, size_t index_length, uint32_t indexed, uint32_t flags,
                                uint32_t allowance, uint8_t *out, size_t room);

/* Evaluates an expression of signed 32-bit numbers.
 *
 * Tokens, longest first, the spaces (byte 32 alone) before each ignored: an operator, a number, a name, a bracket. A number starts
 * with "&" or a decimal digit and is read as by nos_read_unsigned, without whole or limit, as a 32-bit pattern. A name starts with a
 * letter and goes on with letters, digits, "_" and "$". MOD, AND, OR, EOR and NOT in capitals are operators. The text ends at the
 * first byte 0, 10 or 13, or at its length.
 *
 *   operators, tightest first, each level from the left; a bracketed part is a whole expression again
 *   NOT - +                         before one operand. NOT turns every bit; - is 0 less the value
 *   * / MOD                         / drops the fraction toward zero, MOD has the sign of its left side
 *   + -                             products, sums and differences are taken modulo 2 to the 32
 *   = <> < > <= >= << >> >>>        comparisons are signed and give -1 or 0. >> brings the sign in from the left, >>> zeros; an amount
 *                                   is unsigned, and one of 32 or more gives 0, for >> of a negative number -1
 *   AND                             bit by bit, as OR and EOR; neither side is ever skipped
 *   OR EOR
 * The lowest number over -1 gives itself, and its MOD -1 is 0.
 *
 * A name must be an integer variable, and takes one look-up out of the allowance; over 1,024 counts as 1,024.
 *
 *   accepted   value, and place: the text's end, after all spaces
 *   refused    value 0. The first of these that holds:
 *              18 NOS_OVER_LENGTH       of the text, of the farm's table, of the house's: as for struct nos_tables
 *              13 NOS_BAD_TABLE         of the farm's table, of the house's: likewise
 *                 then the first of these that the tokens meet from the left, wherever it stands:
 *              15 NOS_BAD_EXPRESSION    a token that cannot stand there, a byte that starts none, the end too early; its place
 *              11 NOS_TOO_DEEP          the 17th unary operator or bracket over one operand; its place
 *               2 NOS_NO_DIGIT          as by nos_read_unsigned, and so 3 and 4
 *               3 NOS_BAD_BASE
 *               4 NOS_TOO_BIG
 *                 then the first of these that the evaluation meets, operands from the left and each operator after its operands:
 *              10 NOS_UNKNOWN_NAME      no record of either table has an equal name; the name
 *              17 NOS_NOT_AN_INTEGER    a string or a macro, also where it hides an integer of the house; the name
 *              12 NOS_ALLOWANCE_SPENT   no look-up is left for the name; the name
 *              16 NOS_ZERO_DIVISOR      the right side of / or MOD is zero; the operator
 *
 *   2147483647+1   -2147483648 at 12       1/0+(     refused 15 at 5, though 1/0 stands before it
 *   -7 MOD 2       -1 at 8                 1/0       refused 16 at 1
 *   1=1=1          0 at 5                  12abc     refused 15 at 2
 *   -8>>1          -4 at 5                 &         refused 2 at 1
 */
struct nos_value nos_evaluate(const uint8_t *text, size_t length, const uint8_t *farm, size_t farm_length, const uint8_t *house,
                              size_t house_length, uint32_t allowance);

#ifdef __cplusplus
}
#endif

#endif
