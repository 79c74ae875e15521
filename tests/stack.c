/* Measures how much stack a call of the library takes: each one runs on a stack of its own, filled with a known byte, and the lowest
 * byte that changed tells. The inputs are the deepest that there are: macros in macros and brackets in brackets, 16 of them, around
 * what each level can hold, over two tables of 256 records each, with an index and without. Ends with status 1 where more than NOS_STACK
 * was taken. tests/stack runs it. */
#define _GNU_SOURCE
#include <inttypes.h>
#include <stdio.h>
#include <stdlib.h>
#include <string.h>
#include <sys/mman.h>
#include <ucontext.h>

#include "nosgoludd.h"

enum { STACK = 1 << 20, FILL = 0xA5, DEEPEST = 16 };

static uint8_t *stack, farm[NOS_LONGEST], house[NOS_LONGEST], backward[NOS_LONGEST], places[512], out[1 << 19];
static struct nos_tables tables = {farm, 0, house, 0, places, 0, 0};
static size_t backward_length;
static uint8_t *base; /* the "2" of m0's <2_1000001>: by another digit that number is over 255 */
static char text[NOS_LONGEST];
static size_t most;
static ucontext_t here, there;
static void (*current)(void);

static void run_current(void) { current(); }

/* Runs a call on the filled stack; the bytes that it took, with the few that lead to it. */
static size_t taken_by(void (*call)(void))
{
    current = call;
    memset(stack, FILL, STACK);
    if (getcontext(&there)) exit(2);
    there.uc_stack.ss_sp = stack;
    there.uc_stack.ss_size = STACK;
    there.uc_link = &here;
    makecontext(&there, run_current, 0);
    if (swapcontext(&here, &there)) exit(2);
    size_t low = 0;
    while (low < STACK && stack[low] == FILL) low++;
    return STACK - low;
}

static void measure(const char *what, void (*call)(void))
{
    size_t taken = taken_by(call);
    printf("%-60s %6zu\n", what, taken);
    if (taken > most) most = taken;
}

static void expect(uint32_t number, uint32_t wanted)
{
    if (number == wanted) return;
    printf("OFF: refused %" PRIu32 ", %s\n", number, nos_words(number));
    exit(1);
}

static void nothing(void) {}

static void conversions(void)
{
    for (uint32_t call = NOS_HEX_1; call <= NOS_SPACED_SIGNED_4; call++) expect(nos_convert(call, 1u << 31, out, 64).number, 0);
    expect(nos_convert(NOS_BINARY_4, 0, out, 32).number, NOS_NO_ROOM);
    expect(nos_convert(NOS_DECIMAL, 1u << 31, out, 11).number, 0);
    expect(nos_convert(NOS_DECIMAL, 1u << 31, out, 10).number, NOS_NO_ROOM);
}

static void dates(void)
{
    static const uint8_t times[][NOS_TIME] = {{0, 0, 0, 0, 0}, {255, 255, 255, 255, 255}};
    static const uint8_t format[] = "%CS%SE%MI%24%DY%MN%CE%YR%DN%M3%W3%%, and so on with more than sixteen bytes", bad[] = "%CS%cs";
    for (size_t i = 0; i < sizeof times / sizeof times[0]; i++)
        expect(nos_convert_date(times[i], NOS_TIME, format, sizeof format - 1, out, 128).number, 0);
    expect(nos_convert_date(times[0], NOS_TIME, format, sizeof format - 1, out, 9).number, NOS_NO_ROOM);
    expect(nos_convert_date(times[0], NOS_TIME, bad, sizeof bad - 1, out, 128).number, NOS_BAD_FIELD);
}

static void readings(void)
{
    static const char *const numbers[] = {"  36_Zzzzz", "&FFFFFFFF", "4294967295", "4294967296", "37_1", "_"};
    for (size_t i = 0; i < sizeof numbers / sizeof numbers[0]; i++)
        nos_read_unsigned((const uint8_t *)numbers[i], strlen(numbers[i]), 1, 7);
}

static void add_record(uint8_t *table, size_t *at, uint8_t kind, const char *name, const char *value, size_t length)
{
    const uint8_t head[] = {86, 82, kind, (uint8_t)strlen(name), (uint8_t)length};
    memcpy(table + *at, head, 5);
    memcpy(table + *at + 5, name, head[3]);
    memcpy(table + *at + 5 + head[3], value, length);
    *at += 5u + head[3] + length;
}

/* Brings a table of so many records up to 256, by names that differ in their last digits alone and go up or down by the step. */
static void fill_up(uint8_t *table, size_t *at, int records, int first, int step)
{
    char name[33];
    for (int i = records; i < 256; i++) {
        sprintf(name, "Certified$Fields$Diary$Entry%04d", first + step * i);
        add_record(table, at, NOS_STRING, name, "v", 1);
    }
}

/* A string and an integer of the house, and macros m0 to m16, each naming the one before it, which stands in the other table: the
 * house has the even ones, the farm the odd ones. All names of the house are sought among the farm's 256 records first. */
static void make_tables(void)
{
    char name[33], value[256];
    add_record(house, &tables.house_length, NOS_STRING, "s", "a string of some length, to be copied", 37);
    add_record(house, &tables.house_length, NOS_INTEGER, "i", "\x00\x00\x00\x80", 4);
    add_record(house, &tables.house_length, NOS_MACRO, "m0", "\"a |!|@ <s> \"\"<i> <65> <2_1000001> rows of rye\"", 47);
    base = house + tables.house_length - strlen("2_1000001> rows of rye\"");
    for (int i = 1; i <= DEEPEST; i++) {
        sprintf(name, "m%d", i);
        sprintf(value, "\"a |!|@ <s><i><36_Z> and so on with more than sixteen bytes<m%d>\"\"|?\"", i - 1);
        add_record(i % 2 ? farm : house, i % 2 ? &tables.farm_length : &tables.house_length, NOS_MACRO, name, value, strlen(value));
    }
    fill_up(farm, &tables.farm_length, DEEPEST / 2, 0, 1);
    fill_up(house, &tables.house_length, 3 + DEEPEST / 2, 256, 1);
    fill_up(backward, &backward_length, 0, 255, -1);
}

static void expect_full(const uint8_t *table, size_t length)
{
    struct nos_checked answer = nos_check_table(table, length);
    expect(answer.number, 0);
    if (answer.records == 256) return;
    printf("OFF: %" PRIu32 " records in a table\n", answer.records);
    exit(1);
}

static void check(void)
{
    expect_full(farm, tables.farm_length);
    expect_full(house, tables.house_length);
}

/* Indexes of names that stand in their order, in the opposite one, and mixed with others; the last one stays, as the house's. */
static void build(void)
{
    expect(nos_build_index(farm, tables.farm_length, out, sizeof places).number, 0);
    expect(nos_build_index(backward, backward_length, out, sizeof places).number, 0);
    expect(nos_build_index(house, tables.house_length, places, sizeof places - 1).number, NOS_NO_ROOM);
    expect(nos_build_index(house, tables.house_length - 1, places, sizeof places).number, NOS_BAD_TABLE);
    struct nos_answer answer = nos_build_index(house, tables.house_length, places, sizeof places);
    expect(answer.number, 0);
    tables.index_length = answer.need;
}

static uint32_t looked_up(const char *name) { return nos_look_up((const uint8_t *)name, strlen(name), NOS_INDEXED(tables)).number; }

static void look_up(void)
{
    expect(looked_up("CERTIFIED$Fields$Diary$Entry0255"), 0);
    expect(looked_up("CERTIFIED$Fields$Diary$Entry0511"), 0);
    expect(looked_up("nobody"), NOS_UNKNOWN_NAME);
}

/* The first and the last name of the index too, and two indexes that do not fit: by a byte, and by their length. */
static void look_up_through(void)
{
    look_up();
    expect(looked_up("CERTIFIED$Fields$Diary$Entry0267"), 0);
    expect(looked_up("S"), 0);
    places[0] ^= 1;
    expect(looked_up("s"), NOS_BAD_INDEX);
    places[0] ^= 1;
    tables.index_length--;
    expect(looked_up("s"), NOS_BAD_INDEX);
    tables.index_length++;
}

static uint32_t translated(const char *of, uint32_t flags, uint32_t allowance, size_t room)
{
    return nos_translate((const uint8_t *)of, strlen(of), NOS_INDEXED(tables), flags, allowance, out, room).number;
}

static void translations(void)
{
    expect(translated("<m15>", 0, 1024, sizeof out), 0);
    expect(translated("\"a <m15> |! <m15>\"", NOS_SPACE_ENDS, 1024, sizeof out), 0);
    expect(translated("<m15>", 0, 1024, 9), NOS_NO_ROOM);
    expect(translated("<m15>", 0, 40, sizeof out), NOS_ALLOWANCE_SPENT);
    expect(translated("<m16>", 0, 1024, sizeof out), NOS_TOO_DEEP);
    *base = '9';
    expect(translated("<m15>", 0, 1024, sizeof out), NOS_CODE_OVER_255);
    *base = '2';
}

static uint32_t evaluated(void)
{
    return nos_evaluate((const uint8_t *)text, strlen(text), NOS_TABLES(tables), 1024).number;
}

/* A part so many times, what stands inside, and its close as many times. */
static void nest(const char *part, int times, const char *inside, const char *close)
{
    text[0] = 0;
    for (int i = 0; i < times; i++) strcat(text, part);
    strcat(text, inside);
    for (int i = 0; i < times; i++) strcat(text, close);
}

static void brackets(void)
{
    static const char *const insides[] = {"7", "i", "36_Zz", "1/(2-2)", "nobody"};
    nest("1 OR 2 AND 3 = 4 + 5 * (", DEEPEST, "i", ") MOD 7 - 2 >>> 1 AND 4 EOR 3");
    expect(evaluated(), 0);
    nest("(", DEEPEST, "1 OR 2 AND 3 <> 4 + 5 * i", ")");
    expect(evaluated(), 0);
    nest("(", DEEPEST + 1, "1", ")");
    expect(evaluated(), NOS_TOO_DEEP);
    for (size_t i = 0; i < sizeof insides / sizeof insides[0]; i++) {
        nest("i * (", DEEPEST, insides[i], ")");
        evaluated();
    }
}

static void signs(void)
{
    nest("-", DEEPEST, "i", "");
    expect(evaluated(), 0);
    nest("NOT 1 OR 2 AND 3 = 4 + 5 * -(", DEEPEST / 2, "i", ")");
    expect(evaluated(), 0);
}

int main(void)
{
    stack = (uint8_t *)mmap(NULL, STACK, PROT_READ | PROT_WRITE, MAP_PRIVATE | MAP_ANONYMOUS, -1, 0);
    if (stack == MAP_FAILED) return 2;
    make_tables();
    measure("nothing", nothing);
    measure("nos_convert", conversions);
    measure("nos_convert_date, every field", dates);
    measure("nos_read_unsigned", readings);
    measure("nos_check_table, 256 records", check);
    measure("nos_build_index, 256 records", build);
    measure("nos_look_up, 256 records in each table", look_up);
    measure("nos_translate, 16 macros in one another", translations);
    tables.indexed = 1;
    measure("nos_look_up through an index", look_up_through);
    measure("nos_translate through an index", translations);
    measure("nos_evaluate, 16 brackets in one another", brackets);
    measure("nos_evaluate, 16 signs over one operand", signs);
    printf("the most is %zu bytes, and NOS_STACK is %u\n", most, NOS_STACK);
    return most <= NOS_STACK ? 0 : 1;
}
