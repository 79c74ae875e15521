/* Dates in plain C: a five-byte time written by a format, as a careful programmer writes his own strftime where speed counts. It is the
 * opponent of the benchmarks, as plain.c is, and nothing here is proved. It answers as include/nosgoludd.h says; the function's name comes
 * from the command line, PLAIN_DATE. */
#include "calls.h"

#include <stdbool.h>
#include <string.h>

enum { TIME_BYTES = 5, HUNDREDTHS_OF_A_DAY = 8640000, UNTIL_JANUARY = 306, SHORT_RUN = 8 };

/* ---- The calendar. */

/* The values of fields with two digits come first, so that such a field is an index of them. */
enum field { HUNDREDTH, SECOND, MINUTE, HOUR, DAY, MONTH, CENTURY, YEAR, PAIRS, DAY_OF_YEAR = PAIRS, MONTH_NAME, WEEKDAY_NAME };

struct moment {
    uint8_t pair[PAIRS];
    uint32_t days, year, march_day; /* days since 1 January 1900; the whole year; days since the last 1 March */
};

static void split_day(struct moment *m, uint32_t hundredths)
{
    uint32_t seconds = hundredths / 100, minutes = seconds / 60, hours = minutes / 60;
    m->pair[HUNDREDTH] = (uint8_t)(hundredths - 100 * seconds);
    m->pair[SECOND] = (uint8_t)(seconds - 60 * minutes);
    m->pair[MINUTE] = (uint8_t)(minutes - 60 * hours);
    m->pair[HOUR] = (uint8_t)hours;
}

/* With the three 29 Februaries put in that these years do not have, every fourth year has one, and from 1 March 1896 on four years are
 * always 1,461 days. Years that begin in March have the odd month last, and the lengths of the others lie on a line: the month is the
 * whole part of it and the day the rest (Neri and Schneider, Euclidean affine functions, 2022). */
static void split_days(struct moment *m, uint32_t days)
{
    enum { MARCH_1900 = 59, MARCH_2100 = 73108, MARCH_2200 = 109632, FROM_MARCH_1896 = 1401 };
    uint32_t even = days + (days >= MARCH_1900) + (days >= MARCH_2100) + (days >= MARCH_2200) + FROM_MARCH_1896;
    uint32_t years = (4 * even + 3) / 1461, march_day = (4 * even + 3) % 1461 / 4;
    uint32_t line = 2141 * march_day + 197913;
    bool is_next = march_day >= UNTIL_JANUARY;
    m->days = days;
    m->march_day = march_day;
    m->year = 1896 + years + is_next;
    m->pair[DAY] = (uint8_t)((line & 0xFFFF) / 2141 + 1);
    m->pair[MONTH] = (uint8_t)((line >> 16) - (is_next ? 12 : 0));
    m->pair[CENTURY] = (uint8_t)(m->year / 100);
    m->pair[YEAR] = (uint8_t)(m->year % 100);
}

static struct moment moment_of(const uint8_t *time)
{
    struct moment m;
    uint32_t low = time[0] | (uint32_t)time[1] << 8 | (uint32_t)time[2] << 16 | (uint32_t)time[3] << 24;
    uint64_t all = (uint64_t)time[4] << 32 | low;
    uint32_t days = (uint32_t)(all >> 9) / (HUNDREDTHS_OF_A_DAY >> 9); /* 512 divides a day: 32 bits do, and are quicker to divide */
    split_day(&m, low - HUNDREDTHS_OF_A_DAY * days);
    split_days(&m, days);
    return m;
}

static uint32_t day_of_year(const struct moment *m)
{
    bool is_leap = m->year % 4 == 0 && m->year != 1900 && m->year != 2100 && m->year != 2200;
    return m->march_day >= UNTIL_JANUARY ? m->march_day - UNTIL_JANUARY + 1 : m->march_day + 60 + is_leap;
}

/* ---- Fields. */

struct known {
    uint16_t name;
    uint8_t field;
};

/* A field's name as one number, and where it stands in the table: no two of the eleven have the same place. Empty places have the name 0,
 * but the place of two zero bytes is DY's, so that they are no field. */
#define NAME(a, b) ((a) | (b) << 8)
#define PLACE(a, b) (((a) + 5 * (b)) >> 2 & 15)
#define KNOWN(a, b, field) [PLACE(a, b)] = {NAME(a, b), field}

static const struct known known[16] = {
    KNOWN('C', 'S', HUNDREDTH), KNOWN('S', 'E', SECOND), KNOWN('M', 'I', MINUTE), KNOWN('2', '4', HOUR),
    KNOWN('D', 'Y', DAY), KNOWN('M', 'N', MONTH), KNOWN('C', 'E', CENTURY), KNOWN('Y', 'R', YEAR),
    KNOWN('D', 'N', DAY_OF_YEAR), KNOWN('M', '3', MONTH_NAME), KNOWN('W', '3', WEEKDAY_NAME),
};

static size_t put_pair(uint8_t *out, uint32_t value)
{
    static const char pairs[] = "00010203040506070809101112131415161718192021222324252627282930313233343536373839404142434445464748"
                                "49505152535455565758596061626364656667686970717273747576777879808182838485868788899091929394959697"
                                "9899";
    memcpy(out, &pairs[2 * value], 2);
    return 2;
}

/* One of the fields with three characters. */
static size_t put_three(uint8_t *out, const struct moment *m, unsigned field)
{
    static const char months[] = "JanFebMarAprMayJunJulAugSepOctNovDec", weekdays[] = "MonTueWedThuFriSatSun";
    if (field == MONTH_NAME) {
        memcpy(out, &months[3 * (m->pair[MONTH] - 1)], 3);
    } else if (field == WEEKDAY_NAME) {
        memcpy(out, &weekdays[3 * (m->days % 7)], 3);
    } else {
        uint32_t day = day_of_year(m);
        out[0] = (uint8_t)('0' + day / 100);
        put_pair(out + 1, day % 100);
    }
    return 3;
}

/* ---- The format. It is read once, and judged when the string is there: a copy of it becomes the string in its own place, which no
 * field outgrows. Zero bytes behind the copy end it, so that no test of its length stands beside each byte. */

/* Moves a run, up to a percent sign or the zero byte, and gives its length. */
static size_t move_long_run(uint8_t *to, const uint8_t *from, size_t length)
{
    const uint8_t *end = memchr(from, '%', length);
    if (end) length = (size_t)(end - from);
    end = memchr(from, 0, length);
    if (end) length = (size_t)(end - from);
    memmove(to, from, length);
    return length;
}

/* The same. Most runs are a byte or two between fields, for which no call is worth its while. */
static inline size_t move_run(uint8_t *to, const uint8_t *from, const uint8_t *end)
{
    for (size_t i = 0; i < SHORT_RUN; i++) {
        if (from[i] == '%' || from[i] == 0) return i;
        to[i] = from[i];
    }
    return SHORT_RUN + move_long_run(to + SHORT_RUN, from + SHORT_RUN, (size_t)(end - from) - SHORT_RUN);
}

/* How long the string is, or where its format has a bad field. */
struct made {
    bool is_bad;
    size_t length, bad;
};

static inline struct made make(uint8_t *text, size_t length, const struct moment *m)
{
    const uint8_t *from = text;
    uint8_t *to = text;
    for (;;) {
        size_t run = move_run(to, from, text + length);
        to += run;
        from += run;
        if (*from == 0) return (struct made){.length = (size_t)(to - text)};
        const struct known *k = &known[PLACE(from[1], from[2])];
        if (k->name == NAME(from[1], from[2])) {
            to += k->field < PAIRS ? put_pair(to, m->pair[k->field]) : put_three(to, m, k->field);
            from += 3;
        } else if (from[1] == '%') {
            *to++ = '%';
            from += 2;
        } else {
            return (struct made){.is_bad = true, .bad = (size_t)(from - text)};
        }
    }
}

struct nos_answer PLAIN_DATE(const uint8_t *time, size_t time_length, const uint8_t *format, size_t format_length, uint8_t *buf,
                             size_t room)
{
    uint8_t text[NOS_LONGEST + 3]; /* two zero bytes more, for the name of a field that is cut off */
    if (format_length > NOS_LONGEST || time_length != TIME_BYTES) return (struct nos_answer){.number = NOS_OVER_LENGTH, .free = room};
    struct moment m = moment_of(time);
    if (format_length > 0) memcpy(text, format, format_length);
    memset(text + format_length, 0, 3);
    struct made made = make(text, format_length, &m);
    if (made.is_bad) return (struct nos_answer){.number = NOS_BAD_FIELD, .place = made.bad, .free = room};
    if (room <= made.length) return (struct nos_answer){.number = NOS_NO_ROOM, .need = made.length + 1, .free = room};
    memcpy(buf, text, made.length);
    buf[made.length] = 0;
    return (struct nos_answer){.place = made.length, .need = made.length + 1, .free = room - made.length};
}
