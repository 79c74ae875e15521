/* The clerk's dates: the times of a diary's entries written by formats. */
#include <inttypes.h>
#include <stdio.h>
#include <string.h>

#include "clerk.h"

enum { STRIP = 64, DAY = 8640000 }; /* a day's hundredths of a second */

static uint8_t strip[2 * MARGIN + STRIP];
static uint8_t longest[NOS_LONGEST + 1];

/* What is asked: a time and a format. */
struct asked {
    uint8_t time[NOS_TIME + 1];
    size_t time_length;
    const uint8_t *format;
    size_t length;
};

/* The days are counted from 0, 1 January 1900, and so a year's first day is the number of days in all years before it: 100 years have
 * 24 leap years where they start with 1900 or 2100, and 25 where they start with 2000. */
enum { YEAR_2000 = 36500 + 24, YEAR_2100 = YEAR_2000 + 36500 + 25, YEAR_2200 = YEAR_2100 + 36500 + 24 };

static struct asked ask_of(uint32_t day, uint32_t hundredth, const char *format)
{
    struct asked a = {{0}, NOS_TIME, (const uint8_t *)format, strlen(format)};
    uint64_t time = (uint64_t)day * DAY + hundredth;
    for (size_t i = 0; i < NOS_TIME; i++) a.time[i] = (uint8_t)(time >> 8 * i);
    return a;
}

/* Converts into the part of a paper that starts at `at`. */
static struct nos_answer convert(const struct asked *a, uint8_t *paper, size_t size, size_t at, size_t room)
{
    remember(paper, size);
    struct nos_answer answer = nos_convert_date(a->time, a->time_length, a->format, a->length, paper + at, room);
    check_conversion(answer, 1, paper, size, at, room);
    return answer;
}

static struct nos_answer on_a_clean_strip(const struct asked *a, size_t room)
{
    fill(strip, sizeof strip);
    return convert(a, strip, sizeof strip, MARGIN, room);
}

static const char *on_the_strip(void) { return (const char *)strip + MARGIN; }

/* Asks with one byte too few, with more room than it takes, and with the need that the refusal carries. */
static void ask_twice(struct asked a, const char *string)
{
    size_t little = strlen(string);
    struct nos_answer refused = on_a_clean_strip(&a, little);
    check(refused.number == NOS_NO_ROOM && refused.need == little + 1, "one byte too few is refused, with the need");
    struct nos_answer more = on_a_clean_strip(&a, STRIP), answer = on_a_clean_strip(&a, refused.need);
    check(answer.number == NOS_ACCEPTED && strcmp(on_the_strip(), string) == 0, string);
    check(alike(more, answer), "more room gives the same");
    print_bytes(a.format, a.length);
    printf(": room %zu, refused %" PRIu32 ", need %zu, no byte changed; room %zu: ", little, refused.number, refused.need,
           refused.need);
    print_bytes(strip + MARGIN, answer.place);
    putchar('\n');
}

/* The first and the last time, the date of the book's example, and the days on both sides of a 29 February, or of none. */
static void conversions(void)
{
    static const char full[] = "%W3 %DY.%MN.%CE%YR %24:%MI:%SE.%CS, day %DN", short_one[] = "%W3 %DY %M3 %CE%YR";
    struct asked last = ask_of(0, 0, full), cut = ask_of(0, 0, "%DY\0%MN");
    memset(last.time, 255, NOS_TIME);
    cut.length = 7;
    ask_twice(ask_of(0, 0, full), "Mon 01.01.1900 00:00:00.00, day 001");
    ask_twice(ask_of(32593, 4835400, full), "Tue 28.03.1989 13:25:54.00, day 087");
    ask_twice(ask_of(32593, 4835400, "%W3,%DY %M3 %CE%YR.%24:%MI:%SE"), "Tue,28 Mar 1989.13:25:54");
    ask_twice(last, "Sat 03.06.2248 06:57:57.75, day 155");
    ask_twice(ask_of(58, DAY - 1, full), "Wed 28.02.1900 23:59:59.99, day 059");
    ask_twice(ask_of(59, 0, short_one), "Thu 01 Mar 1900");
    ask_twice(ask_of(YEAR_2000 + 59, 0, short_one), "Tue 29 Feb 2000");
    ask_twice(ask_of(YEAR_2100 - 1, 0, short_one), "Thu 31 Dec 2099");
    ask_twice(ask_of(YEAR_2100 + 59, 0, short_one), "Mon 01 Mar 2100");
    ask_twice(ask_of(YEAR_2200 + 59, 0, short_one), "Sat 01 Mar 2200");
    ask_twice(ask_of(YEAR_2000 + 365, 0, "%DN, %DY.%MN."), "366, 31.12.");
    ask_twice(ask_of(0, 0, "%%CS 100%%"), "%CS 100%");
    ask_twice(ask_of(0, 0, "%DY\n%MN\r"), "01\n01\r");
    ask_twice(cut, "01");
    ask_twice(ask_of(0, 0, ""), "");
}

/* One ask serves a whole column, since the need goes by the format alone: the rows that fit the page are known before the first. */
static void column(void)
{
    static const char format[] = "%DY.%MN.%CE%YR";
    static const uint32_t days[] = {32508, 32566, 32567, 32872};
    static const char *const rows[] = {"02.01.1989", "01.03.1989", "02.03.1989", "01.01.1990"};
    enum { ROWS = sizeof days / sizeof days[0], LEFT = 50 };
    struct asked any = ask_of(0, 0, format);
    size_t need = nos_convert_date(any.time, NOS_TIME, any.format, any.length, NULL, 0).need;
    check(need == 11 && ROWS * need <= LEFT, "the column fits the last bytes of the page");
    fill(diary, sizeof diary);
    for (size_t row = 0, at = MARGIN + PAGE - LEFT; row < ROWS; row++, at += need) {
        struct asked a = ask_of(days[row], 0, format);
        struct nos_answer answer = convert(&a, diary, sizeof diary, at, need);
        check(answer.number == NOS_ACCEPTED && answer.need == need, "the need of one is that of all");
        check(strcmp((const char *)diary + at, rows[row]) == 0, rows[row]);
        printf("row %zu of the column, room %zu: %s\n", row, need, (const char *)diary + at);
    }
}

/* Refused at every room alike: the room is looked at last. */
static void expect_refused(struct asked a, const char *what, uint32_t number, size_t place)
{
    struct nos_answer answer = on_a_clean_strip(&a, STRIP);
    check(answer.number == number && answer.place == place, what);
    check(alike(on_a_clean_strip(&a, 0), answer), "with room 0 it is the same refusal");
    printf("%s: refused %" PRIu32 " at %zu, %s, no byte changed\n", what, answer.number, answer.place, nos_words(answer.number));
}

static void bad_fields(void)
{
    static const struct { const char *format; size_t place; } lines[] = {
        {"%cs", 0}, {"%Cs", 0}, {"%12", 0}, {"%0", 0}, {"%", 0}, {"%D", 0}, {"100%", 3}, {"%DY.%MN.% ", 8}, {"%DY%%%", 5},
        {"%%%CS%MO%WE", 5}, {"%M3 %W4 %M5", 4}, {"%YR%ZMN", 3}, {"%DN%N", 3},
    };
    for (size_t i = 0; i < sizeof lines / sizeof lines[0]; i++)
        expect_refused(ask_of(0, 0, lines[i].format), lines[i].format, NOS_BAD_FIELD, lines[i].place);
    struct asked cut = ask_of(0, 0, "%CS%M\0I");
    cut.length = 7;
    expect_refused(cut, "%CS%M, a zero byte and I", NOS_BAD_FIELD, 3);
}

/* What is lent comes first: a time that is not five bytes, and a format that is too long, though the field is bad besides. */
static void other_lengths(void)
{
    struct asked a = ask_of(0, 0, "%");
    a.time_length = 4;
    expect_refused(a, "% of a time of four bytes", NOS_OVER_LENGTH, 0);
    a.time_length = 6;
    expect_refused(a, "% of a time of six bytes", NOS_OVER_LENGTH, 0);
    a.time_length = NOS_TIME;
    memset(longest, '%', sizeof longest);
    a.format = longest;
    a.length = NOS_LONGEST;
    expect_refused(a, "65535 percent signs", NOS_BAD_FIELD, NOS_LONGEST - 1);
    a.length = sizeof longest;
    expect_refused(a, "65536 percent signs", NOS_OVER_LENGTH, 0);
    longest[0] = 0;
    expect_refused(a, "the same behind a zero byte", NOS_OVER_LENGTH, 0);
}

/* The longest format that is read: the largest need that there is, and every byte. */
static void the_largest(void)
{
    struct asked a = ask_of(0, 0, "");
    for (size_t i = 0; i < NOS_LONGEST; i += 3) memcpy(longest + i, "%DN", 3);
    a.format = longest;
    a.length = NOS_LONGEST;
    fill(diary, sizeof diary);
    struct nos_answer refused = convert(&a, diary, sizeof diary, MARGIN, NOS_LONGEST);
    check(refused.number == NOS_NO_ROOM && refused.need == NOS_LONGEST + 1, "one byte too few is refused, with the need");
    struct nos_answer answer = convert(&a, diary, sizeof diary, MARGIN, refused.need);
    check(answer.number == NOS_ACCEPTED && answer.place == NOS_LONGEST, "the need is enough");
    for (size_t i = 0; i < NOS_LONGEST; i += 3) check(memcmp(diary + MARGIN + i, "001", 3) == 0, "every byte is there");
    printf("%u fields: room %u, refused %" PRIu32 ", need %zu, no byte changed; room %zu: all there\n", NOS_LONGEST / 3, NOS_LONGEST,
           refused.number, refused.need, refused.need);
}

/* NULL pointers that no one follows. */
static void of_nothing(void)
{
    static const uint8_t first[NOS_TIME] = {0};
    struct nos_answer nothing = nos_convert_date(NULL, 0, NULL, 0, NULL, 0);
    check(nothing.number == NOS_OVER_LENGTH && nothing.counted == NOS_IN_THE_TEXT, "no time is refused");
    check(nothing.place == 0 && nothing.need == 0 && nothing.free == 0, "with the need 0");
    printf("no time, no format, no buffer: refused %" PRIu32 ", %s\n", nothing.number, nos_words(nothing.number));
    struct nos_answer asked = nos_convert_date(first, NOS_TIME, NULL, 0, NULL, 0);
    check(asked.number == NOS_NO_ROOM && asked.need == 1, "no format has room for its zero byte as its need");
    printf("no format, no buffer: refused %" PRIu32 ", %s, need %zu\n", asked.number, nos_words(asked.number), asked.need);
    struct asked no_format = ask_of(0, 0, "");
    no_format.format = NULL;
    struct nos_answer empty = on_a_clean_strip(&no_format, asked.need);
    check(empty.number == NOS_ACCEPTED && empty.place == 0, "no format gives the empty string");
    printf("no format, one byte: accepted, need %zu\n", empty.need);
}

void dates(void)
{
    conversions();
    column();
    bad_fields();
    other_lengths();
    the_largest();
    of_nothing();
}
