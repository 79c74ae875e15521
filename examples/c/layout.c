/* The structs of the answers lie in memory as the archive lays them, and the fields of struct nos_tables in the order of the arguments.
 * A claim that does not hold is an array of -1 bytes, which no compiler takes. */
#include "nosgoludd.h"

#define SIZE(type, size) typedef char type##_size[sizeof(struct type) == (size) ? 1 : -1]
#define AT(type, field, place) typedef char type##_##field[offsetof(struct type, field) == (place) ? 1 : -1]

SIZE(nos_answer, 32);
AT(nos_answer, number, 0);
AT(nos_answer, counted, 4);
AT(nos_answer, place, 8);
AT(nos_answer, need, 16);
AT(nos_answer, free, 24);

SIZE(nos_number, 16);
AT(nos_number, number, 0);
AT(nos_number, value, 4);
AT(nos_number, place, 8);

SIZE(nos_checked, 16);
AT(nos_checked, number, 0);
AT(nos_checked, records, 4);
AT(nos_checked, place, 8);

SIZE(nos_variable, 32);
AT(nos_variable, number, 0);
AT(nos_variable, counted, 4);
AT(nos_variable, place, 8);
AT(nos_variable, kind, 16);
AT(nos_variable, length, 20);
AT(nos_variable, start, 24);

SIZE(nos_value, 24);
AT(nos_value, number, 0);
AT(nos_value, counted, 4);
AT(nos_value, place, 8);
AT(nos_value, value, 16);

SIZE(nos_tables, 56);
AT(nos_tables, farm, 0);
AT(nos_tables, farm_length, 8);
AT(nos_tables, house, 16);
AT(nos_tables, house_length, 24);
AT(nos_tables, index, 32);
AT(nos_tables, index_length, 40);
AT(nos_tables, indexed, 48);
