/* A clerk who copies quantities and reads them back, dates the rows (dates.c), heads the pages (headings.c) and keeps an index of the
 * house table (indexes.c). What is printed was checked first; at the first thing that is off the clerk says so and ends with status 1.
 * Arguments are read as numbers; with none the clerk does the whole day's work. */
#include <inttypes.h>
#include <stdio.h>
#include <stdlib.h>
#include <string.h>

#include "clerk.h"

#define X_FORM 0x20000u /* the bit of a call that makes no difference */

enum { SHEET = 33 }; /* the most that any call needs */

static uint8_t sheet[2 * MARGIN + SHEET];
uint8_t diary[DIARY];
static uint8_t as_it_was[DIARY];

void check(int holds, const char *claim)
{
    if (holds) return;
    printf("OFF, this does not hold: %s\n", claim);
    exit(1);
}

int alike(struct nos_answer one, struct nos_answer other)
{
    return one.number == other.number && one.counted == other.counted && one.place == other.place && one.need == other.need;
}

void fill(uint8_t *bytes, size_t size)
{
    for (size_t i = 0; i < size; i++) bytes[i] = (uint8_t)(0x80 + i % 113);
}

void remember(const uint8_t *paper, size_t size)
{
    check(size <= sizeof as_it_was, "no paper is larger than the diary");
    memcpy(as_it_was, paper, size);
}

void check_the_rest(const uint8_t *paper, size_t size, size_t at, size_t written)
{
    size_t behind = at + written;
    check(memcmp(paper, as_it_was, at) == 0, "every byte before what was written is as it was");
    check(memcmp(paper + behind, as_it_was + behind, size - behind) == 0, "every byte behind what was written is as it was");
}

const uint8_t *bytes_of(const char *text) { return (const uint8_t *)text; }

const char *in_words(uint32_t counted)
{
    static const char *const words[] = {"", " in the house table", " in the farm's table", " in the index"};
    check(counted <= NOS_IN_THE_INDEX, "a place is counted in one of four");
    return words[counted];
}

void print_bytes(const uint8_t *bytes, size_t length)
{
    for (size_t i = 0; i < length; i++) printf(bytes[i] >= 32 && bytes[i] < 127 ? "%c" : "[%d]", bytes[i]);
}

void check_conversion(struct nos_answer answer, size_t zeros, const uint8_t *paper, size_t size, size_t at, size_t room)
{
    size_t written = 0;
    check(answer.counted == NOS_IN_THE_TEXT, "a conversion has nothing to do with a table");
    if (answer.number == NOS_ACCEPTED) {
        written = answer.need;
        check(written <= room, "no more is written than was lent");
        check(answer.place + zeros == answer.need, "the need is the place, and one more for a zero byte");
        check(answer.free == room - answer.place, "a zero byte counts as free");
        check(memchr(paper + at, 0, written) == (zeros > 0 ? paper + at + answer.place : NULL), "the first zero byte, or none");
    } else {
        check(answer.place == 0 || answer.number == NOS_BAD_FIELD, "a refused conversion has the place 0, but for a bad field");
        check(answer.free == room, "the whole room is free");
        check(answer.number == NOS_NO_ROOM ? answer.need > room : answer.need == 0, "a need is over the room; others have none");
    }
    check_the_rest(paper, size, at, written);
}

/* How many zero bytes a call writes behind its string. */
static size_t zeros_of(uint32_t call) { return (call & ~X_FORM) == NOS_DECIMAL ? 0 : 1; }

/* Converts into the part of a paper that starts at `at`. */
static struct nos_answer convert(uint32_t call, uint32_t value, uint8_t *paper, size_t size, size_t at, size_t room)
{
    remember(paper, size);
    struct nos_answer answer = nos_convert(call, value, paper + at, room);
    check_conversion(answer, zeros_of(call), paper, size, at, room);
    return answer;
}

static struct nos_answer on_a_clean_sheet(uint32_t call, uint32_t value, size_t room)
{
    check(room <= SHEET, "a sheet is enough for every call");
    fill(sheet, sizeof sheet);
    return convert(call, value, sheet, sizeof sheet, MARGIN, room);
}

static const char *on_the_sheet(void) { return (const char *)sheet + MARGIN; }

/* Asks with one byte too few, with more room than it takes, and with the need that the refusal carries. */
static void ask_twice(uint32_t call, uint32_t value, const char *string)
{
    size_t length = strlen(string), little = length + zeros_of(call) - 1;
    struct nos_answer refused = on_a_clean_sheet(call, value, little);
    check(refused.number == NOS_NO_ROOM && refused.need == little + 1, "one byte too few is refused, with the need");
    struct nos_answer more = on_a_clean_sheet(call, value, SHEET), answer = on_a_clean_sheet(call, value, refused.need);
    check(answer.number == NOS_ACCEPTED && answer.place == length && memcmp(on_the_sheet(), string, length) == 0, string);
    check(alike(more, answer), "more room gives the same");
    printf("&%02" PRIX32 " of %" PRIu32 ": room %zu, refused %" PRIu32 ", need %zu, no byte changed; room %zu: %.*s\n", call, value,
           little, refused.number, refused.need, refused.need, (int)answer.place, on_the_sheet());
}

static void conversions(void)
{
    ask_twice(NOS_HEX_6, 1048576, "100000");
    ask_twice(NOS_HEX_8, 1048576, "00100000");
    ask_twice(NOS_UNSIGNED_4, 1048576, "1048576");
    ask_twice(NOS_UNSIGNED_1, 1048576, "0");
    ask_twice(NOS_SIGNED_1, 128, "-128");
    ask_twice(NOS_BINARY_2, 321, "0000000101000001");
    ask_twice(NOS_BINARY_4, 4294967295u, "11111111111111111111111111111111");
    ask_twice(NOS_SPACED_UNSIGNED_4, 1048576, "1 048 576");
    ask_twice(NOS_SPACED_SIGNED_4, 2147483648u, "-2 147 483 648");
    ask_twice(NOS_SPACED_SIGNED_4, (uint32_t)-100, "-100");
    ask_twice(X_FORM + NOS_UNSIGNED_4, 96, "96");
}

/* The digits of &28, which have no zero byte behind them, beside those of &DC, which do. */
static void with_and_without_a_zero_byte(void)
{
    static const struct { uint32_t value; const char *string; } lines[] = {
        {0, "0"}, {7, "7"}, {(uint32_t)-7, "-7"}, {1048576, "1048576"}, {2147483647, "2147483647"}, {2147483648u, "-2147483648"},
    };
    for (size_t i = 0; i < sizeof lines / sizeof lines[0]; i++) {
        ask_twice(NOS_DECIMAL, lines[i].value, lines[i].string);
        ask_twice(X_FORM + NOS_DECIMAL, lines[i].value, lines[i].string);
        ask_twice(NOS_SIGNED_4, lines[i].value, lines[i].string);
    }
}

/* A call that nobody knows is refused so at every room; and no bytes lent is a NULL pointer that no one follows. */
static void other_refusals(void)
{
    struct nos_answer with_room = on_a_clean_sheet(0xE9, 1, SHEET), without = on_a_clean_sheet(0xE9, 1, 0);
    check(with_room.number == NOS_UNKNOWN_CALL && alike(with_room, without), "&E9 is unknown at every room");
    printf("&E9: refused %" PRIu32 ", %s, no byte changed\n", without.number, nos_words(without.number));
    check(on_a_clean_sheet(0xC1, 1, SHEET).number == NOS_UNKNOWN_CALL, "&C1 is not nos_convert's, but nos_convert_date's");
    struct nos_answer asked = nos_convert(NOS_UNSIGNED_4, 1048576, NULL, 0);
    check(asked.number == NOS_NO_ROOM && asked.need == 8, "NULL with room 0 is refused, with the need");
    printf("no buffer: refused %" PRIu32 ", %s, need %zu\n", asked.number, nos_words(asked.number), asked.need);
    struct nos_answer digit = nos_convert(NOS_DECIMAL, 7, NULL, 0);
    check(digit.number == NOS_NO_ROOM && digit.need == 1, "the least need that there is, one digit by &28");
    printf("no buffer for a digit by &28: refused %" PRIu32 ", %s, need %zu\n", digit.number, nos_words(digit.number), digit.need);
    struct nos_number empty = nos_read_unsigned(NULL, 0, 1, NOS_NO_LIMIT);
    check(empty.number == NOS_NO_DIGIT && empty.place == 0, "NULL with length 0 has no digit at 0");
    printf("no text: refused %" PRIu32 " at %zu, %s\n", empty.number, empty.place, nos_words(empty.number));
}

/* Every number of a refusal has words, and no two the same ones; the number after the last has none. */
static void words(void)
{
    const char *none = nos_words(NOS_CODE_OVER_255 + 1);
    check(strcmp(none, "No such refusal") == 0, "the numbers end there");
    for (uint32_t number = 0; number <= NOS_CODE_OVER_255; number++) {
        check(strcmp(nos_words(number), none) != 0, "every number has words");
        for (uint32_t other = 0; other < number; other++)
            check(strcmp(nos_words(number), nos_words(other)) != 0, nos_words(number));
    }
    printf("%d refusals, the last is %s\n", NOS_CODE_OVER_255, nos_words(NOS_CODE_OVER_255));
}

/* The diary's case: a quantity that does not fit the end of a page goes to the next one whole, and the rows behind it follow. */
static void across_the_page(void)
{
    static const uint32_t quantities[] = {96, 1250, 1048576, 7, 65536};
    enum { ROWS = sizeof quantities / sizeof quantities[0] };
    size_t place[ROWS], length[ROWS], at = MARGIN + PAGE - 15, left = 15;
    fill(diary, sizeof diary);
    for (size_t row = 0; row < ROWS; row++) {
        struct nos_answer answer = convert(NOS_UNSIGNED_4, quantities[row], diary, sizeof diary, at, left);
        if (answer.number == NOS_NO_ROOM) {
            check(at < MARGIN + PAGE, "a whole page is enough");
            printf("%zu bytes left on the page: %" PRIu32 " refused, need %zu, no byte changed; the next page:\n", left,
                   quantities[row], answer.need);
            at = MARGIN + PAGE;
            left = PAGE;
            answer = convert(NOS_UNSIGNED_4, quantities[row], diary, sizeof diary, at, left);
        }
        char plain[SHEET];
        snprintf(plain, sizeof plain, "%" PRIu32, quantities[row]);
        check(answer.number == NOS_ACCEPTED && strcmp((const char *)diary + at, plain) == 0, plain);
        printf("%zu bytes left on the page: %s\n", left, (const char *)diary + at);
        place[row] = at;
        length[row] = answer.need;
        at += answer.need;
        left -= answer.need;
    }
    check(at > MARGIN + PAGE, "a row did not fit the first page");
    for (size_t row = 0; row < ROWS; row++) {
        /* the row's own length, with its zero byte: a page is longer than any text that is read */
        struct nos_number answer = nos_read_unsigned(diary + place[row], length[row], 1, NOS_NO_LIMIT);
        check(answer.number == NOS_ACCEPTED && answer.value == quantities[row], "every row is read back");
        check(answer.place + 1 == length[row], "up to its zero byte");
    }
    printf("%d rows read back from the pages\n", ROWS);
}

/* Digits with no zero byte may fill a page to its last byte: the next page stays as it was. By &DC they do not fit there. */
static void to_the_end_of_the_page(void)
{
    static const char digits[] = "1048576";
    const size_t left = sizeof digits - 1, at = MARGIN + PAGE - left;
    fill(diary, sizeof diary);
    struct nos_answer ended = convert(NOS_SIGNED_4, 1048576, diary, sizeof diary, at, left);
    check(ended.number == NOS_NO_ROOM && ended.need == left + 1, "&DC has no room for its zero byte");
    struct nos_answer cut = convert(NOS_DECIMAL, 1048576, diary, sizeof diary, at, left - 1);
    check(cut.number == NOS_NO_ROOM && cut.need == left, "&28 has no room for its last digit");
    struct nos_answer answer = convert(NOS_DECIMAL, 1048576, diary, sizeof diary, at, cut.need);
    check(answer.number == NOS_ACCEPTED && memcmp(diary + at, digits, left) == 0, digits);
    check(answer.place == left && answer.free == 0, "nothing of the page is left");
    printf("%zu bytes left on the page: by &DC refused, need %zu; by &28 %.*s, free %zu, and the next page is as it was\n", left,
           ended.need, (int)answer.place, (const char *)diary + at, answer.free);
}

/* Every call whose string can be read: what must stand before it, and the bits of the value that it uses. */
static void read_back(void)
{
    static const struct { uint32_t call; const char *lead; uint32_t bits; } calls[] = {
        {NOS_HEX_1, "&", 0xF},        {NOS_HEX_2, "&", 0xFF},         {NOS_HEX_4, "&", 0xFFFF},
        {NOS_HEX_6, "&", 0xFFFFFF},   {NOS_HEX_8, "&", 0xFFFFFFFF},   {NOS_UNSIGNED_1, "", 0xFF},
        {NOS_UNSIGNED_2, "", 0xFFFF}, {NOS_UNSIGNED_3, "", 0xFFFFFF}, {NOS_UNSIGNED_4, "", 0xFFFFFFFF},
        {NOS_BINARY_1, "2_", 0xFF},   {NOS_BINARY_2, "2_", 0xFFFF},   {NOS_BINARY_3, "2_", 0xFFFFFF},
        {NOS_BINARY_4, "2_", 0xFFFFFFFF},
    };
    static const uint32_t values[] = {0, 1, 9, 10, 255, 256, 65535, 65536, 1048576, 16777215, 2147483648u, 4294967295u};
    enum { CALLS = sizeof calls / sizeof calls[0], VALUES = sizeof values / sizeof values[0] };
    for (size_t c = 0; c < CALLS; c++)
        for (size_t v = 0; v < VALUES; v++) {
            char text[2 + SHEET];
            struct nos_answer made = on_a_clean_sheet(calls[c].call, values[v], SHEET);
            check(made.number == NOS_ACCEPTED, "a sheet is enough for every call");
            size_t length = (size_t)snprintf(text, sizeof text, "%s%s", calls[c].lead, on_the_sheet());
            struct nos_number answer = nos_read_unsigned((const uint8_t *)text, length, 1, NOS_NO_LIMIT);
            check(answer.number == NOS_ACCEPTED && answer.place == length, text);
            check(answer.value == (values[v] & calls[c].bits), text);
        }
    printf("%d values written by %d calls each, and read back\n", VALUES, CALLS);
}

static struct nos_number read_number(const char *text, size_t length, uint32_t whole, uint32_t limit)
{
    struct nos_number answer = nos_read_unsigned((const uint8_t *)text, length, whole, limit);
    check(answer.place <= length, "the place is in the text");
    check(answer.number == NOS_ACCEPTED || answer.value == 0, "a refusal has no value");
    return answer;
}

static void show(const char *text, const char *how, struct nos_number answer)
{
    if (answer.number == NOS_ACCEPTED)
        printf("%s%s: %" PRIu32 ", read up to %zu\n", text, how, answer.value, answer.place);
    else
        printf("%s%s: refused %" PRIu32 " at %zu, %s\n", text, how, answer.number, answer.place, nos_words(answer.number));
}

static void readings(void)
{
    static const struct { const char *text, *how; uint32_t whole, limit, number; size_t place; uint32_t value; } lines[] = {
        {"1048576", "", 0, NOS_NO_LIMIT, NOS_ACCEPTED, 7, 1048576},
        {"  &fFx", "", 0, NOS_NO_LIMIT, NOS_ACCEPTED, 5, 255},
        {"2_1102", "", 0, NOS_NO_LIMIT, NOS_ACCEPTED, 5, 6},
        {"36_Zz", "", 0, NOS_NO_LIMIT, NOS_ACCEPTED, 5, 1295},
        {"4294967295", "", 0, NOS_NO_LIMIT, NOS_ACCEPTED, 10, 4294967295u},
        {" 4294967296", "", 0, NOS_NO_LIMIT, NOS_TOO_BIG, 1, 0},
        {"37_1", "", 0, NOS_NO_LIMIT, NOS_BAD_BASE, 0, 0},
        {"4294967298_1", "", 0, NOS_NO_LIMIT, NOS_BAD_BASE, 0, 0},
        {"&G", "", 0, NOS_NO_LIMIT, NOS_NO_DIGIT, 1, 0},
        {"2_", "", 0, NOS_NO_LIMIT, NOS_NO_DIGIT, 2, 0},
        {"12kg", "", 0, NOS_NO_LIMIT, NOS_ACCEPTED, 2, 12},
        {"12kg", " (whole)", 1, NOS_NO_LIMIT, NOS_NOT_ENDED, 2, 0},
        {"12 sacks", " (whole)", 1, NOS_NO_LIMIT, NOS_ACCEPTED, 2, 12},
        {"99999999999x", " (whole)", 1, NOS_NO_LIMIT, NOS_TOO_BIG, 0, 0},
        {"100", " (limit 100)", 0, 100, NOS_ACCEPTED, 3, 100},
        {" 101", " (limit 100)", 0, 100, NOS_OVER_LIMIT, 1, 0},
    };
    for (size_t i = 0; i < sizeof lines / sizeof lines[0]; i++) {
        struct nos_number answer = read_number(lines[i].text, strlen(lines[i].text), lines[i].whole, lines[i].limit);
        check(answer.number == lines[i].number, lines[i].text);
        check(answer.place == lines[i].place && answer.value == lines[i].value, lines[i].text);
        show(lines[i].text, lines[i].how, answer);
    }
    /* the longest text that is read, and one byte more */
    static char text[NOS_LONGEST + 1];
    memset(text, ' ', sizeof text);
    text[NOS_LONGEST - 1] = '7';
    struct nos_number longest = read_number(text, NOS_LONGEST, 1, NOS_NO_LIMIT);
    check(longest.number == NOS_ACCEPTED && longest.value == 7, "65535 bytes are read");
    check(longest.place == NOS_LONGEST, "the place of a text's end is its length");
    show("65534 spaces and 7", "", longest);
    struct nos_number longer = read_number(text, sizeof text, 1, NOS_NO_LIMIT);
    check(longer.number == NOS_OVER_LENGTH && longer.place == 0, "65536 bytes are not");
    show("the same and a space", "", longer);
}

int main(int argc, char **argv)
{
    if (argc < 2) {
        conversions();
        with_and_without_a_zero_byte();
        other_refusals();
        words();
        across_the_page();
        to_the_end_of_the_page();
        read_back();
        readings();
        dates();
        headings();
        indexes();
    }
    for (int i = 1; i < argc; i++) show(argv[i], "", read_number(argv[i], strlen(argv[i]), 0, NOS_NO_LIMIT));
    puts("nothing is off");
    return 0;
}
