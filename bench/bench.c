/* Times the proved library against the same work in plain C and against calls of the C library, and through an index against itself
 * without one, in one run. Before that every answer and every byte written is compared. It writes two tables, and behind them lines for
 * bench/plot. Compiled with WITH_BEFORE it has the library of another commit among the sides, where that can do a work. */
#define _POSIX_C_SOURCE 200809L
#include "inputs.h"

#include <stdio.h>
#include <stdlib.h>
#include <string.h>
#include <time.h>

enum { REPEATS = 15 };
static const double least = 20e6; /* nanoseconds of one sample */

const struct calls proved = {
    "proved", nos_convert, nos_read_unsigned, nos_check_table, nos_build_index, nos_look_up, nos_translate, nos_evaluate,
    nos_convert_date,
};
#ifdef WITH_BEFORE
static const struct calls *const sets[] = {&proved, &plain_by_clang, &plain_by_gcc, &before};

/* Up to 1.5.0 a number over 255 was no mistake: <256> gave the byte 0. */
static void find_remainder(void)
{
    uint8_t byte;
    struct nos_answer answer = before.translate((const uint8_t *)"<256>", 5, NULL, 0, NULL, 0, NULL, 0, 0, 0, 0, &byte, 1);
    if (answer.number != NOS_ACCEPTED) return;
    takes_remainder = &before;
    fprintf(stderr, "bench: the library before takes the remainder by 256 of a number: texts with one over 255 are not compared with it\n");
}

/* Up to 1.3.0 the library had a zero byte behind the digits of &28: a digit did not fit one byte. */
static void choose_decimal_call(void)
{
    uint8_t digit;
    if (before.convert(NOS_DECIMAL, 7, &digit, 1).number == NOS_ACCEPTED) return;
    decimal_call = NOS_SIGNED_4;
    fprintf(stderr, "bench: the library before has a zero byte behind the digits of &28: &DC is compared and timed in its place\n");
}
#else
static const struct calls *const sets[] = {&proved, &plain_by_clang, &plain_by_gcc};
static void find_remainder(void) {}
static void choose_decimal_call(void) {}
#endif
enum { PROVED, CLANG, GCC, BEFORE, SETS = sizeof sets / sizeof *sets, RIVAL = SETS, SIDES = SETS + 1 };

/* Nanoseconds of one pass, by scale, side and repeat. */
struct times {
    double of[2][SIDES][REPEATS];
};

static struct input inputs[2];
static struct times times[64];

static double now(void)
{
    struct timespec t;
    clock_gettime(CLOCK_THREAD_CPUTIME_ID, &t);
    return 1e9 * (double)t.tv_sec + (double)t.tv_nsec;
}

static uint64_t run_side(const struct work *w, size_t side, struct input *in)
{
    return side == RIVAL ? w->run_rival(in) : w->run(sets[side], in);
}

static double sample(const struct work *w, size_t side, struct input *in, unsigned long passes)
{
    volatile uint64_t kept = 0;
    double start = now();
    for (unsigned long i = 0; i < passes; i++) kept += run_side(w, side, in);
    return now() - start;
}

/* Whether a side can do a work over an input: not where there is no rival, nor through an index where the side has none. */
static int has_side(const struct work *w, const struct input *in, size_t side)
{
    return side == RIVAL ? w->run_rival != NULL : !in->indexed || sets[side]->build_index != NULL;
}

/* Every side's answer and the bytes that it wrote are those of the proved library. */
static void check(const struct work *w, struct input *in)
{
    static uint8_t wanted[ROOM];
    memset(in->out, 0xEE, ROOM);
    uint64_t first = run_side(w, PROVED, in);
    memcpy(wanted, in->out, ROOM);
    for (size_t side = 1; side < SIDES; side++) {
        if (!has_side(w, in, side)) continue;
        memset(in->out, 0xEE, ROOM);
        uint64_t other = run_side(w, side, in);
        if (first == other && memcmp(wanted, in->out, ROOM) == 0) continue;
        fprintf(stderr, "%s: side %zu answers otherwise, %llx for %llx\n", w->name, side, (unsigned long long)other,
                (unsigned long long)first);
        exit(1);
    }
    /* Of many answers too: a sum of accepted ones has these bits 0, and of refusals that are the wanted ones. */
    if ((first & 0xFFFF) == 0) return;
    fprintf(stderr, "%s: what is timed should be accepted, or refused where that is wanted\n", w->name);
    exit(1);
}

static void measure(const struct work *w, struct times *t)
{
    unsigned long passes[2][SIDES];
    for (size_t scale = 0; scale < 2; scale++) {
        for (size_t side = 0; side < SIDES; side++) {
            if (!has_side(w, &inputs[scale], side)) continue;
            passes[scale][side] = 1;
            while (sample(w, side, &inputs[scale], passes[scale][side]) < least) passes[scale][side] *= 2;
        }
    }
    for (size_t repeat = 0; repeat < REPEATS; repeat++)
        for (size_t scale = 0; scale < 2; scale++)
            for (size_t side = 0; side < SIDES; side++) {
                if (!has_side(w, &inputs[scale], side)) continue;
                unsigned long n = passes[scale][side];
                t->of[scale][side][repeat] = sample(w, side, &inputs[scale], n) / (double)n;
            }
}

/* Whether a work was timed in this run, of a side. */
static int is_timed(size_t i, size_t side)
{
    return times[i].of[1][side][0] > 0;
}

static int by_size(const void *a, const void *b)
{
    double x = *(const double *)a, y = *(const double *)b;
    return (x > y) - (x < y);
}

struct spread {
    double least, median, most;
};

/* The quotients of two rows of samples, repeat by repeat. */
static struct spread quotients(const double *over, const double *under)
{
    double q[REPEATS];
    for (size_t i = 0; i < REPEATS; i++) q[i] = over[i] / under[i];
    qsort(q, REPEATS, sizeof *q, by_size);
    return (struct spread){q[0], q[REPEATS / 2], q[REPEATS - 1]};
}

static struct spread spread_of(const double *samples)
{
    double ones[REPEATS];
    for (size_t i = 0; i < REPEATS; i++) ones[i] = 1;
    return quotients(samples, ones);
}

/* A cell with the quotients of two rows of samples of one work and side, empty where that was not timed; the rival's has its name. */
static void print_cell(size_t i, size_t side, const double *over, const double *under)
{
    if (is_timed(i, side)) {
        struct spread s = quotients(over, under);
        if (side == RIVAL) printf(" %s:", works[i].rival);
        printf(" %.2f (%.2f to %.2f)", s.median, s.least, s.most);
    }
    printf(" |");
}

/* How the proved library's time stands to each other side's, at the larger scale. */
static void print_ratios(void)
{
    int has_before = SETS > BEFORE;
    printf("| work | proved, µs: median (least) | of plain C, clang | of plain C, gcc |%s of a call of C's, or without an index |\n"
           "|---|---|---|---|%s---|\n", has_before ? " of the library before |" : "", has_before ? "---|" : "");
    for (size_t i = 0; i < work_count; i++) {
        if (!is_timed(i, PROVED)) continue;
        struct spread s = spread_of(times[i].of[1][PROVED]);
        printf("| %s | %.2f (%.2f) |", works[i].name, s.median / 1000, s.least / 1000);
        for (size_t side = CLANG; side < SIDES; side++) print_cell(i, side, times[i].of[1][PROVED], times[i].of[1][side]);
        printf("\n");
    }
}

/* How each side's time grows from the smaller scale to the larger. */
static void print_growth(void)
{
    printf("\n| work | doubled, or as it says | proved | plain C, clang | plain C, gcc | a call of C's, or without an index |\n"
           "|---|---|---|---|---|---|\n");
    for (size_t i = 0; i < work_count; i++) {
        if (!is_timed(i, PROVED)) continue;
        printf("| %s | %s |", works[i].name, works[i].grown);
        for (size_t side = PROVED; side < SIDES; side++)
            if (side <= GCC || side == RIVAL) print_cell(i, side, times[i].of[1][side], times[i].of[0][side]);
        printf("\n");
    }
}

/* The same for programs: kind, work, side, median, least, most, with tabs between them. */
static void print_lines(void)
{
    static const char *const names[] = {"proved", "plain-clang", "plain-gcc", "before"};
    printf("\n");
    for (size_t i = 0; i < work_count; i++) {
        for (size_t side = 0; side < SIDES; side++) {
            if (!is_timed(i, side)) continue;
            struct spread t = spread_of(times[i].of[1][side]), g = quotients(times[i].of[1][side], times[i].of[0][side]);
            struct spread r = quotients(times[i].of[1][PROVED], times[i].of[1][side]);
            const char *name = side == RIVAL ? works[i].rival : names[side];
            printf("time\t%s\t%s\t%.1f\t%.1f\t%.1f\n", works[i].name, name, t.median, t.least, t.most);
            printf("growth\t%s\t%s\t%.4f\t%.4f\t%.4f\n", works[i].name, name, g.median, g.least, g.most);
            if (side != PROVED) printf("ratio\t%s\t%s\t%.4f\t%.4f\t%.4f\n", works[i].name, name, r.median, r.least, r.most);
        }
    }
}

static void make(const struct work *w)
{
    for (unsigned scale = 1; scale <= 2; scale++) {
        struct input *in = &inputs[scale - 1];
        memset(in, 0, sizeof *in);
        restart();
        w->make(in, scale);
        check(w, in);
        check_changed(w, in, sets, SETS);
    }
}

/* With a word, only the works whose names have it. */
int main(int argc, char **argv)
{
    find_remainder();
    choose_decimal_call();
    for (size_t i = 0; i < work_count; i++) {
        if (argc > 1 && !strstr(works[i].name, argv[1])) continue;
        make(&works[i]);
        measure(&works[i], &times[i]);
        fprintf(stderr, "bench: timed %s\n", works[i].name);
    }
    print_ratios();
    print_growth();
    print_lines();
    return 0;
}
