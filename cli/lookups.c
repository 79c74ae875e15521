/* What names are looked up in: see lookups.h. */
#include "lookups.h"
#include "input.h"
#include "options.h"

static bool asks_for_standard_input(const char *file) { return file != NULL && is_standard_input(file); }

enum status check_standard_input(const struct request *request, const char *text_file)
{
    int times = asks_for_standard_input(text_file) + asks_for_standard_input(request->values[OPTION_TABLE])
        + asks_for_standard_input(request->values[OPTION_FARM]) + asks_for_standard_input(request->values[OPTION_INDEX]);
    if (times <= 1) return STATUS_ACCEPTED;
    return wrong_usage(request->command, "standard input can be read only once: give a file's name instead of - or for the text");
}

/* Of an index as much as of a table: one that is longer fits none. */
static bool read_lent(const char *file, struct bytes *lent)
{
    return file == NULL || input_take(file, 0, MOST_TAKEN, lent);
}

bool lookups_read(struct lookups *lookups, const struct request *request)
{
    *lookups = (struct lookups){
        .house_file = request->values[OPTION_TABLE],
        .farm_file = request->values[OPTION_FARM],
        .index_file = request->values[OPTION_INDEX],
        .allowance = number_or(request, OPTION_ALLOWANCE, MOST_LOOKUPS),
    };
    if (!read_lent(lookups->house_file, &lookups->house) || !read_lent(lookups->farm_file, &lookups->farm)
        || !read_lent(lookups->index_file, &lookups->index))
        return false;
    lookups->tables = (struct nos_tables){
        .farm = lookups->farm.at,
        .farm_length = lookups->farm.length,
        .house = lookups->house.at,
        .house_length = lookups->house.length,
        .index = lookups->index.at,
        .index_length = lookups->index.length,
        .indexed = lookups->index_file != NULL,
    };
    return true;
}

void lookups_free(struct lookups *lookups)
{
    bytes_free(&lookups->house);
    bytes_free(&lookups->farm);
    bytes_free(&lookups->index);
}

struct subject subject_of(const struct lookups *lookups, uint32_t counted, const struct subject *text)
{
    switch (counted) {
    case NOS_IN_THE_HOUSE: return (struct subject){OF_THE_HOUSE, NULL, 0, 0, lookups->house_file};
    case NOS_IN_THE_FARM: return (struct subject){OF_THE_FARM, NULL, 0, 0, lookups->farm_file};
    case NOS_IN_THE_INDEX: return (struct subject){OF_THE_INDEX, NULL, 0, 0, lookups->index_file};
    default: return *text;
    }
}
