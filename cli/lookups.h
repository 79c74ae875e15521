/* What names are looked up in: the tables of --table and --farm, the index of --index, and how many look-ups --allowance allows. */
#ifndef LOOKUPS_H
#define LOOKUPS_H

#include "bytes.h"
#include "command.h"
#include "nosgoludd.h"
#include "refusal.h"

/* As many look-ups as the library ever allows. */
enum { MOST_LOOKUPS = 1024 };

struct lookups {
    struct bytes house, farm, index;
    const char *house_file, *farm_file; /* NULL: none, and the table is empty */
    const char *index_file;             /* NULL: the house table is looked through without one */
    struct nos_tables tables;           /* all three, for the library */
    uint32_t allowance;
};

/* Refuses to read standard input twice: for two of the tables, the index and the text. NULL: the text is in no file. */
enum status check_standard_input(const struct request *request, const char *text_file);

/* Reads the tables and the index; false where that failed, which was said. Either way it ends with lookups_free. */
bool lookups_read(struct lookups *lookups, const struct request *request);

void lookups_free(struct lookups *lookups);

/* What the place of an answer is counted in: the text that was given, one of the tables, or the index. */
struct subject subject_of(const struct lookups *lookups, uint32_t counted, const struct subject *text);

#endif
