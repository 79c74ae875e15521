/* The library of another commit, as one set of calls. This file alone is compiled with that commit's header, and bench/run gave its
 * functions the names below. Up to 1.4.0 there is no index: a look-up and a translation without one leave the index's arguments out, at
 * the cost of one more call, and nothing can be asked through an index. */
#define nos_convert before_nos_convert
#define nos_read_unsigned before_nos_read_unsigned
#define nos_check_table before_nos_check_table
#define nos_build_index before_nos_build_index
#define nos_look_up before_nos_look_up
#define nos_translate before_nos_translate
#define nos_evaluate before_nos_evaluate
#define nos_convert_date before_nos_convert_date
#include "calls.h"

#ifdef NOS_INDEXED
#define BUILD_INDEX nos_build_index
#define LOOK_UP nos_look_up
#define TRANSLATE nos_translate
#else
#define BUILD_INDEX NULL
#define LOOK_UP look_up
#define TRANSLATE translate

static struct nos_variable look_up(const uint8_t *name, size_t name_length, const uint8_t *farm, size_t farm_length,
                                   const uint8_t *house, size_t house_length, const uint8_t *index, size_t index_length,
                                   uint32_t indexed)
{
    (void)index, (void)index_length, (void)indexed;
    return nos_look_up(name, name_length, farm, farm_length, house, house_length);
}

static struct nos_answer translate(const uint8_t *text, size_t length, const uint8_t *farm, size_t farm_length, const uint8_t *house,
                                   size_t house_length, const uint8_t *index, size_t index_length, uint32_t indexed, uint32_t flags,
                                   uint32_t allowance, uint8_t *out, size_t room)
{
    (void)index, (void)index_length, (void)indexed;
    return nos_translate(text, length, farm, farm_length, house, house_length, flags, allowance, out, room);
}
#endif

const struct calls before = {
    .name = "before",
    .convert = nos_convert,
    .read_unsigned = nos_read_unsigned,
    .check_table = nos_check_table,
    .build_index = BUILD_INDEX,
    .look_up = LOOK_UP,
    .translate = TRANSLATE,
    .evaluate = nos_evaluate,
    .convert_date = nos_convert_date,
};
