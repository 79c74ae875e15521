/* The functions that the benchmarks time, as one set: the proved library is one, and each build of the plain C another. They are
 * called through the same pointers and answer by the same structs, so that a call costs the same on every side. */
#ifndef BENCH_CALLS_H
#define BENCH_CALLS_H

#include "nosgoludd.h"

struct calls {
    const char *name;
    struct nos_answer (*convert)(uint32_t call, uint32_t value, uint8_t *buf, size_t room);
    struct nos_number (*read_unsigned)(const uint8_t *text, size_t length, uint32_t whole, uint32_t limit);
    struct nos_checked (*check_table)(const uint8_t *table, size_t length);
    struct nos_answer (*build_index)(const uint8_t *table, size_t length, uint8_t *out, size_t room); /* NULL: the set has no index */
    struct nos_variable (*look_up)(const uint8_t *name, size_t name_length, const uint8_t *farm, size_t farm_length,
                                   const uint8_t *house, size_t house_length, const uint8_t *index, size_t index_length,
                                   uint32_t indexed);
    struct nos_answer (*translate)(const uint8_t *text, size_t length, const uint8_t *farm, size_t farm_length, const uint8_t *house,
                                   size_t house_length, const uint8_t *index, size_t index_length, uint32_t indexed, uint32_t flags,
                                   uint32_t allowance, uint8_t *out, size_t room);
    struct nos_value (*evaluate)(const uint8_t *text, size_t length, const uint8_t *farm, size_t farm_length, const uint8_t *house,
                                 size_t house_length, uint32_t allowance);
    struct nos_answer (*convert_date)(const uint8_t *time, size_t time_length, const uint8_t *format, size_t format_length,
                                      uint8_t *buf, size_t room);
};

/* The library itself, and with WITH_BEFORE that of another commit. */
extern const struct calls proved, before;

/* plain.c compiled by the compiler that the library's code came from, and by the system's own. */
extern const struct calls plain_by_clang, plain_by_gcc;

/* The same of dates.c, for those sets. */
struct nos_answer date_by_clang(const uint8_t *time, size_t time_length, const uint8_t *format, size_t format_length, uint8_t *buf,
                                size_t room);
struct nos_answer date_by_gcc(const uint8_t *time, size_t time_length, const uint8_t *format, size_t format_length, uint8_t *buf,
                              size_t room);

/* The table's check with a hash of the names in place of comparing every pair. */
struct nos_checked hashed_check_table(const uint8_t *table, size_t length);

/* A number that every field of an answer goes into, for the sum of a pass. Its low 16 bits are 0 where the answer is accepted, and
 * of a look-up or a date where its number is the wanted one. */
static inline uint64_t sum_of(uint32_t number, uint64_t place, uint64_t other) { return number ^ place << 16 ^ other << 32; }

static inline uint64_t sum_of_answer(struct nos_answer a)
{
    return sum_of(a.number, a.place, a.counted ^ a.need ^ (uint64_t)a.free << 12);
}

static inline uint64_t sum_of_date(struct nos_answer a, uint32_t wanted) { return sum_of_answer(a) ^ wanted; }
static inline uint64_t sum_of_number(struct nos_number a) { return sum_of(a.number, a.place, a.value); }
static inline uint64_t sum_of_checked(struct nos_checked a) { return sum_of(a.number, a.place, a.records); }

static inline uint64_t sum_of_variable(struct nos_variable a, uint32_t wanted)
{
    return sum_of(a.number ^ wanted, a.place, a.counted ^ a.kind << 2 ^ a.length << 4 ^ (uint64_t)a.start << 12);
}

static inline uint64_t sum_of_value(struct nos_value a) { return sum_of(a.number, a.place, a.counted ^ (uint32_t)a.value); }

#endif
