/* The check of a table in plain C with a hash of the names: what a C programmer may reach for where 256 names are compared often. */
#include "calls.h"

#include <stdbool.h>
#include <string.h>

enum { MOST_RECORDS = 256, SLOTS = 1024 };

static uint8_t small(uint8_t c)
{
    return c >= 'A' && c <= 'Z' ? c | 32 : c;
}

static bool same(const uint8_t *a, const uint8_t *b, size_t length)
{
    for (size_t i = 0; i < length; i++)
        if (small(a[i]) != small(b[i])) return false;
    return true;
}

/* Whether a record has its shape; *hash is then that of its name, in small letters. */
static bool is_shaped(const uint8_t *at, size_t length, uint32_t *hash)
{
    if (length < 5 || at[0] != 86 || at[1] != 82 || at[2] > NOS_MACRO) return false;
    if (at[3] < 1 || at[3] > 32 || (size_t)5 + at[3] + at[4] > length) return false;
    if (at[2] == NOS_INTEGER && at[4] != 4) return false;
    *hash = 2166136261u;
    for (size_t i = 0; i < at[3]; i++) {
        uint8_t c = at[5 + i];
        if (c <= 32 || c >= 127 || c == '"' || c == '<' || c == '>') return false;
        *hash = (*hash ^ small(c)) * 16777619u;
    }
    return true;
}

struct nos_checked hashed_check_table(const uint8_t *table, size_t length)
{
    const uint8_t *slots[SLOTS];
    size_t count = 0, at = 0;
    uint32_t hash;
    if (length > NOS_LONGEST) return (struct nos_checked){.number = NOS_OVER_LENGTH};
    memset(slots, 0, sizeof slots);
    for (; at < length; count++) {
        const uint8_t *record = table + at;
        if (count == MOST_RECORDS || !is_shaped(record, length - at, &hash)) break;
        size_t slot = (hash ^ hash >> 16) % SLOTS;
        while (slots[slot] && !(slots[slot][3] == record[3] && same(slots[slot] + 5, record + 5, record[3])))
            slot = (slot + 1) % SLOTS;
        if (slots[slot]) break;
        slots[slot] = record;
        at += (size_t)5 + record[3] + record[4];
    }
    if (at < length) return (struct nos_checked){.number = NOS_BAD_TABLE, .place = at};
    return (struct nos_checked){.records = (uint32_t)count};
}
