/* What a C programmer would call for the same work, over the same inputs: snprintf, strtoul, memcpy, a hash of names, qsort, gmtime_r
 * and strftime. */
#define _POSIX_C_SOURCE 200809L
#include "inputs.h"

#include <stdio.h>
#include <stdlib.h>
#include <string.h>
#include <strings.h>

/* One conversion; the calls of three bytes have no type of C's own. */
static int print(char *to, uint32_t call, uint32_t value)
{
    switch (call) {
    case NOS_HEX_1: return snprintf(to, SLOT, "%X", value & 15);
    case NOS_HEX_2: return snprintf(to, SLOT, "%02X", value & 0xFF);
    case NOS_HEX_4: return snprintf(to, SLOT, "%04X", value & 0xFFFF);
    case NOS_HEX_6: return snprintf(to, SLOT, "%06X", value & 0xFFFFFF);
    case NOS_HEX_8: return snprintf(to, SLOT, "%08X", value);
    case NOS_UNSIGNED_1: return snprintf(to, SLOT, "%u", value & 0xFF);
    case NOS_UNSIGNED_2: return snprintf(to, SLOT, "%u", value & 0xFFFF);
    case NOS_UNSIGNED_3: return snprintf(to, SLOT, "%u", value & 0xFFFFFF);
    case NOS_UNSIGNED_4: return snprintf(to, SLOT, "%u", value);
    case NOS_SIGNED_1: return snprintf(to, SLOT, "%d", (int8_t)value);
    case NOS_SIGNED_2: return snprintf(to, SLOT, "%d", (int16_t)value);
    case NOS_SIGNED_3: return snprintf(to, SLOT, "%d", (int32_t)(value << 8) >> 8);
    default: return snprintf(to, SLOT, "%d", (int32_t)value);
    }
}

uint64_t by_snprintf(struct input *in)
{
    uint64_t sum = 0;
    for (size_t i = 0; i < in->count; i++) {
        size_t length = (size_t)print((char *)in->out + i * SLOT, in->items[i].call, in->items[i].value);
        sum = sum * 31 + sum_of_answer((struct nos_answer){.place = length, .need = length + 1, .free = SLOT - length});
    }
    return sum;
}

uint64_t by_strtoul(struct input *in)
{
    uint64_t sum = 0;
    for (size_t i = 0; i < in->count; i++) {
        const char *start = (const char *)in->text + in->items[i].start;
        char *end;
        unsigned long value = *start == '&' ? strtoul(start + 1, &end, 16) : strtoul(start, &end, 10);
        if (*start != '&' && *end == '_') value = strtoul(end + 1, &end, (int)value);
        sum = sum * 31 + sum_of_number((struct nos_number){.value = (uint32_t)value, .place = (size_t)(end - start)});
    }
    return sum;
}

uint64_t by_memcpy(struct input *in)
{
    memcpy(in->out, in->text, in->length);
    return sum_of_answer((struct nos_answer){.place = in->length, .need = in->length, .free = sizeof in->out - in->length});
}

uint64_t by_hash(struct input *in)
{
    return sum_of_checked(hashed_check_table(in->house, in->house_length));
}

/* Two records by their names. In C's own locale strncasecmp takes A to Z alone as a to z. */
static int by_name(const void *a, const void *b)
{
    const uint8_t *left = *(const uint8_t *const *)a, *right = *(const uint8_t *const *)b;
    int order = strncasecmp((const char *)left + 5, (const char *)right + 5, left[3] < right[3] ? left[3] : right[3]);
    return order ? order : left[3] - right[3];
}

uint64_t by_qsort(struct input *in)
{
    const uint8_t *records[LONGEST_INDEX / 2];
    size_t count = 0;
    if (hashed_check_table(in->house, in->house_length).number) return NOS_BAD_TABLE;
    for (size_t at = 0; at < in->house_length; at += (size_t)5 + in->house[at + 3] + in->house[at + 4])
        records[count++] = in->house + at;
    qsort(records, count, sizeof *records, by_name);
    for (size_t i = 0; i < count; i++) {
        size_t place = (size_t)(records[i] - in->house);
        in->out[2 * i] = (uint8_t)place;
        in->out[2 * i + 1] = (uint8_t)(place >> 8);
    }
    return sum_of_answer((struct nos_answer){.need = 2 * count, .free = sizeof in->out - 2 * count});
}

/* C's own count of a time, in whole seconds from 1970 on. */
static time_t seconds_of(const uint8_t *time)
{
    static const int64_t from_1900_to_1970 = 2208988800;
    uint64_t hundredths = 0;
    for (size_t i = TIME_LENGTH; i > 0; i--) hundredths = hundredths << 8 | time[i - 1];
    return (time_t)((int64_t)(hundredths / 100) - from_1900_to_1970);
}

void make_ready(struct input *in)
{
    for (size_t i = 0; i < in->count; i++) {
        time_t seconds = seconds_of(in->dates.times[i]);
        gmtime_r(&seconds, &in->dates.ready[i]);
    }
}

/* strftime gives 0 where there is no room, and then no need; where it gives a length it wrote the string whole. */
static uint64_t print_date(struct input *in, size_t i, const struct tm *broken)
{
    size_t room = in->dates.room;
    size_t length = strftime((char *)in->out + i * room, room, in->dates.like, broken);
    if (length == 0) return sum_of_answer((struct nos_answer){.number = NOS_NO_ROOM, .free = room});
    return sum_of_answer((struct nos_answer){.place = length, .need = length + 1, .free = room - length});
}

uint64_t by_gmtime_and_strftime(struct input *in)
{
    uint64_t sum = 0;
    for (size_t i = 0; i < in->count; i++) {
        struct tm broken;
        time_t seconds = seconds_of(in->dates.times[i]);
        gmtime_r(&seconds, &broken);
        sum = sum * 31 + print_date(in, i, &broken);
    }
    return sum;
}

uint64_t by_strftime_alone(struct input *in)
{
    uint64_t sum = 0;
    for (size_t i = 0; i < in->count; i++) sum = sum * 31 + print_date(in, i, &in->dates.ready[i]);
    return sum;
}
