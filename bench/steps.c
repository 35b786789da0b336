/* Prints how long it takes to check the longest list of steps beside a walk of the same shape, in
 * which all sources are missing, for each family of tables. */
#define _POSIX_C_SOURCE 200809L

#include "windhawker.h"

#include <stdio.h>
#include <stdlib.h>
#include <string.h>
#include <time.h>

#define SHAPE WH_MAX_K, WH_MAX_M, WH_MAX_LENGTH, table, sizeof table, MARKS

enum { STEPS = WH_MAX_K * 8 * WH_MAX_LENGTH, ROUNDS = 201 };
enum { MARKS = ((1 << WH_MAX_M) - 1) << WH_MAX_K };

static uint8_t table[WH_MAX_M * WH_MAX_K];
static uint8_t parities[STEPS], sources[STEPS];

static void must(int right)
{
    if (!right) {
        printf("a list of steps or its answer is wrong\n");
        exit(1);
    }
}

/* The library's own order. */
static void write_list(void)
{
    uint64_t progress[WH_MAX_K] = {0};
    for (size_t i = 0; i < STEPS; i++) {
        wh_stepped step = wh_next_step(SHAPE, progress);
        must(step.number == WH_DONE && step.parity != 0);
        parities[i] = (uint8_t)step.parity;
        sources[i] = (uint8_t)step.source;
        memcpy(progress, step.progress, sizeof progress);
    }
}

static void walk(void)
{
    wh_walked walked = wh_walk(SHAPE);
    must(walked.number == WH_DONE && walked.count == STEPS);
}

static void check_steps(void)
{
    must(wh_check_steps(SHAPE, parities, STEPS, sources, STEPS).number == WH_DONE);
}

static double seconds_of(void do_it(void))
{
    struct timespec from, to;
    clock_gettime(CLOCK_PROCESS_CPUTIME_ID, &from);
    do_it();
    clock_gettime(CLOCK_PROCESS_CPUTIME_ID, &to);
    return (double)(to.tv_sec - from.tv_sec) + 1e-9 * (double)(to.tv_nsec - from.tv_nsec);
}

static int by_size(const void *one, const void *other)
{
    double a = *(const double *)one, b = *(const double *)other;
    return (a > b) - (a < b);
}

static double median(double *took)
{
    qsort(took, ROUNDS, sizeof took[0], by_size);
    return took[ROUNDS / 2];
}

int main(void)
{
    double walks[ROUNDS], checks[ROUNDS];
    printf("\nTo check %d steps, divided by a walk of that shape, families 1 to %d:", STEPS,
           WH_FAMILIES);
    for (uint64_t family = 1; family <= WH_FAMILIES; family++) {
        must(wh_family_table(WH_MAX_K, WH_MAX_M, family, table, sizeof table) == WH_DONE);
        write_list();
        for (int round = 0; round < ROUNDS; round++) {
            walks[round] = seconds_of(walk);
            checks[round] = seconds_of(check_steps);
        }
        printf(" %.2f", median(checks) / median(walks));
    }
    printf("\n");
    return 0;
}
