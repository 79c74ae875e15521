/* Answers cases through the C face: a line of case in, a line of answer out, both as the oracle has them. tests/fuzz and tests/calendar
 * run it.
 *
 * Whatever is lent is watched. A slice stands, in turn, between known bytes, or at the start or the end of an area where an
 * unreadable page begins: a byte read or written there ends this program. An answer has " touched" behind it where a byte changed
 * that must not: in what was lent to be read, beside a slice, in a buffer behind what was written, or anywhere in one after a refusal.
 * It has " odd" behind it where a field of the answer that the line does not show is not as the header says. Where there is no index,
 * something stands in its stead that must count for nothing: any length, with NULL or an unreadable page. */
#define _GNU_SOURCE
#include <inttypes.h>
#include <stdbool.h>
#include <stdio.h>
#include <stdlib.h>
#include <string.h>
#include <sys/mman.h>
#include <unistd.h>

#include "nosgoludd.h"

#define X_FORM 0x20000u /* the bit of a call that makes no difference */

enum { AREA = 1 << 20, GUARD = 64, TURNS = 251, MOST_ROOM = AREA - 2 * GUARD };

struct area {
    uint8_t *start, *lent;
    size_t length;
    const char *digits; /* what was lent to be read, in hex; NULL for a buffer */
};

/* A name or a format is lent as a text, and a table that is alone as the house's. */
static struct area text, farm, house, places, moment, buffer; /* `places`: an index */
static bool has_index;
static uint8_t known[AREA + TURNS]; /* the known bytes, read from another place for each case */
static size_t turn;

static void make_area(struct area *area)
{
    size_t page = (size_t)sysconf(_SC_PAGESIZE);
    uint8_t *made = mmap(NULL, AREA + 2 * page, PROT_READ | PROT_WRITE, MAP_PRIVATE | MAP_ANONYMOUS, -1, 0);
    if (made == MAP_FAILED || mprotect(made, page, PROT_NONE) || mprotect(made + page + AREA, page, PROT_NONE)) {
        perror("face");
        exit(2);
    }
    area->start = made + page;
}

static const uint8_t *known_at(const struct area *area, const uint8_t *place)
{
    return known + turn % TURNS + (place - area->start);
}

static const uint8_t *watched_from(const struct area *area)
{
    return area->lent - area->start < GUARD ? area->start : area->lent - GUARD;
}

static const uint8_t *watched_to(const struct area *area)
{
    const uint8_t *behind = area->lent + area->length, *end = area->start + AREA;
    return end - behind < GUARD ? end : behind + GUARD;
}

/* Lends so many bytes of an area, all of them and those beside them known ones. */
static void lend(struct area *area, size_t length)
{
    static const size_t in_turn[] = {GUARD, 0, AREA};
    size_t at = in_turn[turn % 3];
    area->length = length;
    area->lent = area->start + (at == AREA ? AREA - length : at);
    const uint8_t *from = watched_from(area), *to = watched_to(area);
    memcpy(area->start + (from - area->start), known_at(area, from), (size_t)(to - from));
}

/* The pointer that the library gets. Nothing is lent by NULL in one turn of three. */
static uint8_t *lent_by(const struct area *area) { return area->length == 0 && turn % 3 == 1 ? NULL : area->lent; }

static bool is_known(const struct area *area, const uint8_t *from, const uint8_t *to)
{
    return memcmp(from, known_at(area, from), (size_t)(to - from)) == 0;
}

/* Whether all but the first bytes of a buffer, and the bytes beside it, are as they were. */
static bool is_whole_behind(const struct area *area, size_t written)
{
    return is_known(area, watched_from(area), area->lent) && is_known(area, area->lent + written, watched_to(area));
}

static int digit_of(char c) { return c >= '0' && c <= '9' ? c - '0' : c >= 'a' && c <= 'f' ? c - 'a' + 10 : -1; }

static int byte_of(const char *pair)
{
    int high = digit_of(pair[0]), low = high < 0 ? -1 : digit_of(pair[1]);
    return low < 0 ? -1 : high * 16 + low;
}

/* Whether what was lent to be read is still there, and the bytes beside it. */
static bool is_whole(const struct area *area)
{
    for (size_t i = 0; i < area->length; i++)
        if (area->lent[i] != byte_of(area->digits + 2 * i)) return false;
    return is_whole_behind(area, area->length);
}

/* A number for yes: any but 0. There are four in turn, and so each of them comes with each way to lend. */
static uint32_t yes(void)
{
    static const uint32_t other_than_0[] = {1, 2, 1u << 31, UINT32_MAX};
    return other_than_0[turn % 4];
}

/* How far a line is read; at a bad field `at` becomes NULL and stays so. A space stands before each field. */
struct line {
    const char *at;
};

static uint32_t take_number(struct line *line)
{
    uint64_t value = 0;
    const char *at = line->at;
    line->at = NULL;
    if (at == NULL || *at++ != ' ' || *at < '0' || *at > '9') return 0;
    while (*at >= '0' && *at <= '9' && value <= UINT32_MAX) value = value * 10 + (uint64_t)(*at++ - '0');
    if (value <= UINT32_MAX) line->at = at;
    return (uint32_t)value;
}

static uint32_t take_limit(struct line *line)
{
    if (line->at == NULL || strncmp(line->at, " -", 2) != 0) return take_number(line);
    line->at += 2;
    return NOS_NO_LIMIT;
}

/* Lends a field's bytes. */
static void take_bytes(struct line *line, struct area *area)
{
    if (line->at == NULL || *line->at != ' ') {
        line->at = NULL;
        return;
    }
    area->digits = line->at + 1;
    size_t digits = strcspn(area->digits, " "), count = digits == 1 && *area->digits == '-' ? 0 : digits / 2;
    line->at = area->digits + digits;
    if ((count > 0 || *area->digits != '-') && (digits % 2 != 0 || count == 0 || count > MOST_ROOM)) line->at = NULL;
    if (line->at == NULL) return;
    lend(area, count);
    for (size_t i = 0; i < count; i++) {
        int byte = byte_of(area->digits + 2 * i);
        if (byte < 0) {
            line->at = NULL;
            return;
        }
        area->lent[i] = (uint8_t)byte;
    }
}

static bool is_done(const struct line *line) { return line->at != NULL && *line->at == 0; }

static void put_hex(const uint8_t *bytes, size_t count)
{
    static const char digits[] = "0123456789abcdef";
    if (count == 0) putchar('-');
    for (size_t i = 0; i < count; i++) {
        putchar(digits[bytes[i] >> 4]);
        putchar(digits[bytes[i] & 15]);
    }
}

/* Ends the line of an answer; true, as for every line that is a case. */
static bool end_line(bool whole, bool as_said)
{
    puts(!whole ? " touched" : !as_said ? " odd" : "");
    return true;
}

/* The line of a string with so many zero bytes behind it, 1 or none; `whole` says whether what was lent to be read still is. */
static bool end_string(struct nos_answer answer, size_t zeros, bool whole)
{
    bool as_said = answer.counted == NOS_IN_THE_TEXT;
    if (answer.number != NOS_ACCEPTED) {
        printf("no %" PRIu32 " %zu %zu %zu", answer.number, answer.place, answer.need, answer.free);
        return end_line(whole && is_whole_behind(&buffer, 0), as_said);
    }
    if (answer.place > buffer.length || zeros > buffer.length - answer.place) return end_line(false, false);
    printf("ok ");
    put_hex(buffer.lent, answer.place);
    printf(" %zu %zu", answer.place, answer.free);
    as_said = as_said && (zeros == 0 || buffer.lent[answer.place] == 0) && answer.need == answer.place + zeros;
    return end_line(whole && is_whole_behind(&buffer, answer.place + zeros), as_said);
}

/* Each operation writes the line of answer, or answers false for a line that is no case. */

/* The case's call, and no answer of the library, tells whether a zero byte has to stand behind the string. */
static bool conv(struct line line)
{
    uint32_t call = take_number(&line), value = take_number(&line), room = take_number(&line);
    if (!is_done(&line) || room > MOST_ROOM) return false;
    lend(&buffer, room);
    return end_string(nos_convert(call, value, lent_by(&buffer), room), (call & ~X_FORM) == NOS_DECIMAL ? 0 : 1, true);
}

static bool date(struct line line)
{
    take_bytes(&line, &moment);
    take_bytes(&line, &text);
    uint32_t room = take_number(&line);
    if (!is_done(&line) || room > MOST_ROOM) return false;
    lend(&buffer, room);
    struct nos_answer answer = nos_convert_date(lent_by(&moment), moment.length, lent_by(&text), text.length, lent_by(&buffer), room);
    return end_string(answer, 1, is_whole(&moment) && is_whole(&text));
}

static bool read_number(struct line line)
{
    take_bytes(&line, &text);
    uint32_t whole = take_number(&line), limit = take_limit(&line);
    if (!is_done(&line) || whole > 1) return false;
    struct nos_number answer = nos_read_unsigned(lent_by(&text), text.length, whole ? yes() : 0, limit);
    if (answer.number == NOS_ACCEPTED) {
        printf("val %" PRIu32 " %zu", answer.value, answer.place);
        return end_line(is_whole(&text), true);
    }
    printf("no %" PRIu32 " %zu", answer.number, answer.place);
    return end_line(is_whole(&text), answer.value == 0);
}

static bool check(struct line line)
{
    take_bytes(&line, &house);
    if (!is_done(&line)) return false;
    struct nos_checked answer = nos_check_table(lent_by(&house), house.length);
    if (answer.number == NOS_ACCEPTED) {
        printf("ok %" PRIu32, answer.records);
        return end_line(is_whole(&house), answer.place == 0);
    }
    printf("no %" PRIu32 " %zu", answer.number, answer.place);
    return end_line(is_whole(&house), answer.records == 0);
}

/* Takes the two tables. Operations that know no index leave it at that. */
static void take_tables(struct line *line)
{
    take_bytes(line, &farm);
    take_bytes(line, &house);
    has_index = false;
}

/* Takes the index that is to go with the tables, an "x" where there is none. */
static void take_index(struct line *line)
{
    has_index = line->at == NULL || strncmp(line->at, " x", 2) != 0;
    if (has_index) take_bytes(line, &places);
    else line->at += 2;
}

static struct nos_tables all_tables(void)
{
    static const size_t any_length[] = {2, 0, 512, SIZE_MAX};
    struct nos_tables tables = {lent_by(&farm), farm.length, lent_by(&house), house.length, lent_by(&places), places.length, yes()};
    if (has_index) return tables;
    tables.index = turn % 3 == 0 ? NULL : places.start + AREA; /* where the unreadable page begins */
    tables.index_length = any_length[turn % 4];
    tables.indexed = 0;
    return tables;
}

static bool are_whole(void) { return is_whole(&text) && is_whole(&farm) && is_whole(&house) && (!has_index || is_whole(&places)); }

/* The letter for what a place is counted in. No line of answer has a "?". */
static char counted_in(uint32_t counted) { return counted <= NOS_IN_THE_INDEX ? "thfi"[counted] : '?'; }

/* Writes what is shown of an answer with a need. `is_silent`: of an accepted one the place is not shown, and 0. */
static bool end_written(struct nos_answer answer, bool is_silent, bool whole)
{
    size_t written = 0;
    bool as_said = true;
    if (answer.number == NOS_ACCEPTED) {
        written = answer.need <= buffer.length ? answer.need : buffer.length;
        printf("ok ");
        put_hex(buffer.lent, written);
        if (!is_silent) printf(" %zu", answer.place);
        printf(" %zu %zu", answer.need, answer.free);
        as_said = answer.counted == NOS_IN_THE_TEXT && (!is_silent || answer.place == 0);
    } else {
        printf("no %" PRIu32 " %c %zu %zu %zu", answer.number, counted_in(answer.counted), answer.place, answer.need, answer.free);
    }
    return end_line(whole && is_whole_behind(&buffer, written), as_said);
}

static bool build(struct line line)
{
    take_bytes(&line, &house);
    uint32_t room = take_number(&line);
    if (!is_done(&line) || room > MOST_ROOM) return false;
    lend(&buffer, room);
    struct nos_answer answer = nos_build_index(lent_by(&house), house.length, lent_by(&buffer), room);
    return end_written(answer, true, is_whole(&house));
}

/* The table that a variable was found in. */
static const struct area *holder_of(struct nos_variable found) { return found.counted == NOS_IN_THE_FARM ? &farm : &house; }

/* Whether a variable that was found has its kind, and its value where its record says, in the table that the answer names. */
static bool is_in_its_record(struct nos_variable found)
{
    const struct area *table = holder_of(found);
    if (found.counted == NOS_IN_THE_TEXT || table->length < 5 || found.place > table->length - 5) return false;
    const uint8_t *record = table->lent + found.place;
    return found.kind == record[2] && found.start == found.place + 5 + record[3] && found.length == record[4]
        && found.start + found.length <= table->length;
}

/* Looks the text up as a name. `is_alone`: the house table is the only one, and an answer does not show which holds the record. */
static bool look_up(bool is_alone)
{
    struct nos_tables tables = all_tables();
    struct nos_variable answer = nos_look_up(lent_by(&text), text.length, NOS_INDEXED(tables));
    if (answer.number == NOS_ACCEPTED) {
        bool as_said = is_in_its_record(answer) && (!is_alone || answer.counted == NOS_IN_THE_HOUSE);
        printf("rec ");
        if (!is_alone) printf("%c ", counted_in(answer.counted));
        printf("%zu %" PRIu32 " ", answer.place, answer.kind);
        if (as_said) put_hex(holder_of(answer)->lent + answer.start, answer.length);
        return end_line(are_whole(), as_said);
    }
    bool as_said = answer.kind == 0 && answer.length == 0 && answer.start == 0;
    if (answer.number == NOS_UNKNOWN_NAME) {
        printf("none");
        as_said = as_said && answer.counted == NOS_IN_THE_TEXT && answer.place == 0;
    } else {
        printf("no %" PRIu32 " %c %zu", answer.number, counted_in(answer.counted), answer.place);
    }
    return end_line(are_whole(), as_said);
}

static bool look(struct line line)
{
    take_tables(&line);
    take_bytes(&line, &text);
    return is_done(&line) && look_up(false);
}

/* The same with a field for an index. */
static bool look_with_index(struct line line)
{
    take_tables(&line);
    take_index(&line);
    take_bytes(&line, &text);
    return is_done(&line) && look_up(false);
}

/* Through an index in one table. */
static bool look_through(struct line line)
{
    lend(&farm, 0);
    take_bytes(&line, &house);
    take_bytes(&line, &places);
    has_index = true;
    take_bytes(&line, &text);
    return is_done(&line) && look_up(true);
}

static bool trans(struct line line)
{
    take_bytes(&line, &text);
    take_tables(&line);
    take_index(&line);
    uint32_t flags = take_number(&line), allowance = take_number(&line), room = take_number(&line);
    if (!is_done(&line) || room > MOST_ROOM) return false;
    lend(&buffer, room);
    struct nos_tables tables = all_tables();
    struct nos_answer answer = nos_translate(lent_by(&text), text.length, NOS_INDEXED(tables), flags, allowance, lent_by(&buffer),
                                             room);
    return end_written(answer, false, are_whole());
}

static bool eval(struct line line)
{
    take_bytes(&line, &text);
    take_tables(&line);
    uint32_t allowance = take_number(&line);
    if (!is_done(&line)) return false;
    struct nos_tables tables = all_tables();
    struct nos_value answer = nos_evaluate(lent_by(&text), text.length, NOS_TABLES(tables), allowance);
    if (answer.number == NOS_ACCEPTED) {
        printf("int %" PRId32 " %zu", answer.value, answer.place);
        return end_line(are_whole(), answer.counted == NOS_IN_THE_TEXT);
    }
    printf("no %" PRIu32 " %c %zu", answer.number, counted_in(answer.counted), answer.place);
    return end_line(are_whole(), answer.value == 0);
}

static bool answer_line(const char *line)
{
    static const struct { const char *word; bool (*answer)(struct line); } operations[] = {
        {"conv ", conv}, {"date ", date}, {"read ", read_number}, {"table ", check}, {"index ", build}, {"look ", look},
        {"flook ", look_with_index}, {"ilook ", look_through}, {"trans ", trans}, {"eval ", eval},
    };
    for (size_t i = 0; i < sizeof operations / sizeof operations[0]; i++) {
        size_t length = strlen(operations[i].word);
        if (strncmp(line, operations[i].word, length) == 0) return operations[i].answer((struct line){line + length - 1});
    }
    return false;
}

int main(void)
{
    make_area(&text);
    make_area(&farm);
    make_area(&house);
    make_area(&places);
    make_area(&moment);
    make_area(&buffer);
    for (size_t i = 0; i < sizeof known; i++) known[i] = (uint8_t)(0x5A + i * 167 + i / 256 * 59);
    setvbuf(stdout, NULL, _IOLBF, 1 << 16); /* so that the last answer shows which case ended the program */
    char *line = NULL;
    size_t size = 0;
    for (ssize_t length; (length = getline(&line, &size, stdin)) > 0; turn++) {
        if (line[length - 1] == '\n') line[--length] = 0;
        if (strlen(line) != (size_t)length || !answer_line(line)) puts("bad line");
    }
    free(line);
    return ferror(stdin) || fflush(stdout) || ferror(stdout) ? 2 : 0;
}
