/* Prints how long Windhawker takes beside each other contestant, as ratios in two Markdown tables:
 * with the first sources missing, and the mean over sets of packets drawn at random. Every
 * contestant is checked for right answers before it is timed. */
#define _POSIX_C_SOURCE 200809L

#include "job.h"

#include <stdio.h>
#include <stdlib.h>
#include <string.h>
#include <time.h>

static const contestant *const contestants[] = {
    &windhawker, &plain,
#ifdef WITH_ISAL
    &isal,       &isal_kept,
#endif
#ifdef WITH_JERASURE
    &jerasure,
#endif
};

enum { CONTESTANTS = sizeof contestants / sizeof contestants[0] };
enum { ROUNDS = 60, DRAWN_SETS = 50, DRAWN_ROUNDS = 10 };

/* ---- Right answers ---- */

static int bit_at(const uint8_t *bytes, size_t p)
{
    return bytes[p / 8] >> (p % 8) & 1;
}

/* Bit p of parity a, straight from the paper. */
static int sum_at(const job *j, unsigned a, size_t p)
{
    int sum = 0;
    for (unsigned b = 0; b < j->k; b++) {
        size_t shift = j->table[a * j->k + b];
        if (p >= shift && p - shift < 8 * LENGTH) {
            sum ^= bit_at(j->sources + b * (size_t)LENGTH, p - shift);
        }
    }
    return sum;
}

static int right_parities(const job *j, const uint8_t *parities)
{
    for (unsigned a = 0; a < j->m && parities != NULL; a++) {
        for (size_t p = 0; p < 8 * j->parity_bytes[a]; p++) {
            if (bit_at(parities, p) != sum_at(j, a, p)) {
                return 0;
            }
        }
        parities += j->parity_bytes[a];
    }
    return 1;
}

static int right_sources(const job *j, const contestant *c)
{
    for (unsigned i = 0; i < j->lost; i++) {
        unsigned b = j->missing[i];
        if (memcmp(c->source(b), j->sources + b * (size_t)LENGTH, LENGTH) != 0) {
            return 0;
        }
    }
    return 1;
}

static void check(const job *j, const contestant *c)
{
    c->begin(j);
    c->encode(j);
    int right = right_parities(j, c->parities());
    c->lose(j);
    c->rebuild(j);
    if (!right || !right_sources(j, c)) {
        printf("%s is wrong at k %u, m %u, marks %x\n", c->name, j->k, j->m, (unsigned)j->marks);
        exit(1);
    }
}

/* ---- Times ---- */

typedef void work(const job *j);

static double seconds_of(work *do_it, const job *j, unsigned calls)
{
    struct timespec from, to;
    clock_gettime(CLOCK_PROCESS_CPUTIME_ID, &from);
    for (unsigned i = 0; i < calls; i++) {
        do_it(j);
    }
    clock_gettime(CLOCK_PROCESS_CPUTIME_ID, &to);
    return (double)(to.tv_sec - from.tv_sec) + 1e-9 * (double)(to.tv_nsec - from.tv_nsec);
}

/* So many calls that they take about half a millisecond. */
static unsigned calls_for(work *do_it, const job *j)
{
    unsigned calls = 1;
    while (calls < 1u << 20 && seconds_of(do_it, j, calls) < 5e-4) {
        calls *= 2;
    }
    return calls;
}

static work *work_of(const contestant *c, int rebuilding)
{
    return rebuilding ? c->rebuild : c->encode;
}

/* Adds the shortest time of a call of each contestant, taken in turns. */
static void add_times(const job *j, int rebuilding, int rounds, double *totals)
{
    unsigned calls[CONTESTANTS];
    double shortest[CONTESTANTS];
    for (int i = 0; i < CONTESTANTS; i++) {
        check(j, contestants[i]);
        calls[i] = calls_for(work_of(contestants[i], rebuilding), j);
        shortest[i] = 1e9;
    }
    for (int round = 0; round < rounds; round++) {
        for (int i = 0; i < CONTESTANTS; i++) {
            check(j, contestants[i]);
            double took = seconds_of(work_of(contestants[i], rebuilding), j, calls[i]) / calls[i];
            shortest[i] = took < shortest[i] ? took : shortest[i];
        }
    }
    for (int i = 0; i < CONTESTANTS; i++) {
        totals[i] += shortest[i];
    }
}

/* ---- The tables ---- */

static void print_head(const char *names, const char *dashes)
{
    printf("\n%s", names);
    for (int i = 1; i < CONTESTANTS; i++) {
        printf(" %s |", contestants[i]->name);
    }
    printf("\n%s", dashes);
    for (int i = 1; i < CONTESTANTS; i++) {
        printf("---|");
    }
    printf("\n");
}

static void print_ratios(const double *totals)
{
    for (int i = 1; i < CONTESTANTS; i++) {
        printf(" %.2f |", totals[0] / totals[i]);
    }
    printf("\n");
    fflush(stdout);
}

static void print_encode_row(const job *j)
{
    double totals[CONTESTANTS] = {0};
    add_times(j, 0, ROUNDS, totals);
    printf("| %u, %u | encode all |", j->k, j->m);
    print_ratios(totals);
}

static void print_rebuild_row(job *j, unsigned lost)
{
    double totals[CONTESTANTS] = {0};
    lose_first(j, lost);
    add_times(j, 1, ROUNDS, totals);
    printf("| %u, %u | rebuild, %u of %u sources missing |", j->k, j->m, lost, j->k);
    print_ratios(totals);
}

/* The mean over sets drawn at random. Where all packets at hand are all parities there is one set
 * only: that one, but for the house family, which has it in the first table. */
static void print_drawn_row(job *j, unsigned lost)
{
    bool one_set = lost == j->k && lost == j->m;
    int sets = one_set ? 1 : DRAWN_SETS, rounds = one_set ? ROUNDS : DRAWN_ROUNDS, solved = 0;
    double totals[CONTESTANTS] = {0};
    if (one_set && j->family == WH_HOUSE) {
        return;
    }
    for (int set = 0; set < sets; set++) {
        lose_drawn(j, lost);
        solved += has_even_rows(j) || has_even_columns(j);
        add_times(j, 1, rounds, totals);
    }
    printf("| %u | %u, %u | rebuild, %u of %u sources missing | %d %% |", j->family, j->k, j->m,
           lost, j->k, 100 * solved / sets);
    print_ratios(totals);
}

typedef void row(job *j, unsigned lost);

/* From `least` on: one, two, half and all that can be missing, each once. */
static void print_rows(job *j, unsigned least, row *print_row)
{
    unsigned all = j->k < j->m ? j->k : j->m, half = j->k / 2;
    for (unsigned lost = least; lost <= all; lost++) {
        if (lost <= 2 || lost == half || lost == all) {
            print_row(j, lost);
        }
    }
}

static void print_first_lost(void)
{
    print_head("| k, m | |", "|---|---|");
    for (int i = 0; i < SHAPES; i++) {
        job j = make_job(shapes[i], WH_HOUSE);
        print_encode_row(&j);
        print_rows(&j, 1, print_rebuild_row);
    }
}

static void print_drawn_lost(void)
{
    printf("\nSets of packets drawn at random, the mean of %d, for families 1 to %d.\n"
           "Solved at once are those with even rows or columns.\n",
           DRAWN_SETS, WH_FAMILIES);
    print_head("| family | k, m | | solved at once |", "|---|---|---|---|");
    for (unsigned family = 1; family <= WH_FAMILIES; family++) {
        for (int i = 0; i < SHAPES; i++) {
            job j = make_job(shapes[i], family);
            print_rows(&j, 2, print_drawn_row);
        }
    }
}

int main(void)
{
    printf("Windhawker's time divided by the other's: below 1 Windhawker is faster.\n");
    print_first_lost();
    print_drawn_lost();
    return 0;
}
