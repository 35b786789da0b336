/* Prints how long a log takes with one rebuild for each stripe, divided by the same log in one
 * call, as a Markdown table: by size, by how many sources are missing, and by whether these are
 * solved for at once or uncovered step by step. Both are checked for right answers before they are
 * timed. */
#define _POSIX_C_SOURCE 200809L

#include "job.h"
#include "random.h"
#include "windhawker.h"

#include <stdio.h>
#include <stdlib.h>
#include <string.h>
#include <time.h>

enum { ROUNDS = 60, STRIPE_MOST = WH_MAX_K * LENGTH };

/* A log, all its sources, and the packets at hand of all its stripes. */
static job coded;
static unsigned stripes;
static size_t stripe_bytes, packets_bytes; /* of one stripe */
static uint8_t sources[WH_MAX_STRIPES * STRIPE_MOST], rebuilt[WH_MAX_STRIPES * STRIPE_MOST];
static uint8_t packets[WH_MAX_STRIPES * WH_MAX_K * WH_LONGEST];

#define SHAPE coded.k, coded.m, LENGTH, coded.table, coded.m * coded.k

/* ---- The log ---- */

/* Writes the packets at hand of one stripe; gives their bytes. */
static size_t write_packets(const uint8_t *stripe, uint8_t *to)
{
    uint64_t every_source = ((uint64_t)1 << coded.k) - 1;
    size_t used = 0;
    for (unsigned i = 0; i < coded.k; i++) {
        unsigned packet = coded.at_hand[i];
        size_t length = packet < coded.k ? LENGTH : coded.parity_bytes[packet - coded.k];
        must(wh_packet(SHAPE, every_source, stripe, stripe_bytes, packet + 1, to + used, length));
        used += length;
    }
    return used;
}

static void write_log(const job *j)
{
    coded = *j;
    stripe_bytes = (size_t)coded.k * LENGTH;
    random_restart(2);
    random_bytes(sources, sizeof sources);
    packets_bytes = write_packets(sources, packets);
    for (size_t t = 1; t < WH_MAX_STRIPES; t++) {
        write_packets(sources + t * stripe_bytes, packets + t * packets_bytes);
    }
}

/* ---- Two ways to rebuild it ---- */

static void in_one_call(void)
{
    must(wh_rebuild_log(SHAPE, stripes, coded.marks, packets, stripes * packets_bytes, rebuilt,
                        stripes * stripe_bytes)
             .number);
}

static void one_call_a_stripe(void)
{
    for (size_t t = 0; t < stripes; t++) {
        must(wh_rebuild(SHAPE, coded.marks, packets + t * packets_bytes, packets_bytes,
                        rebuilt + t * stripe_bytes, stripe_bytes)
                 .number);
    }
}

static void check(void rebuild(void))
{
    memset(rebuilt, 0, sizeof rebuilt);
    rebuild();
    if (memcmp(rebuilt, sources, stripes * stripe_bytes) != 0) {
        printf("a log is wrong at k %u, m %u, marks %x\n", coded.k, coded.m, (unsigned)coded.marks);
        exit(1);
    }
}

static double seconds_of(void do_it(void), unsigned calls)
{
    struct timespec from, to;
    clock_gettime(CLOCK_PROCESS_CPUTIME_ID, &from);
    for (unsigned i = 0; i < calls; i++) {
        do_it();
    }
    clock_gettime(CLOCK_PROCESS_CPUTIME_ID, &to);
    return (double)(to.tv_sec - from.tv_sec) + 1e-9 * (double)(to.tv_nsec - from.tv_nsec);
}

/* So many calls that they take about half a millisecond. */
static unsigned calls_for(void do_it(void))
{
    unsigned calls = 1;
    while (calls < 1u << 20 && seconds_of(do_it, calls) < 5e-4) {
        calls *= 2;
    }
    return calls;
}

/* The shortest times of either, taken in turns. */
static double ratio(void)
{
    double shortest[2] = {1e9, 1e9};
    check(in_one_call);
    check(one_call_a_stripe);
    unsigned calls = calls_for(one_call_a_stripe);
    for (int round = 0; round < ROUNDS; round++) {
        double rebuilds = seconds_of(one_call_a_stripe, calls);
        double call = seconds_of(in_one_call, calls);
        shortest[0] = rebuilds < shortest[0] ? rebuilds : shortest[0];
        shortest[1] = call < shortest[1] ? call : shortest[1];
    }
    return shortest[0] / shortest[1];
}

/* ---- The table ---- */

static void print_row(const job *j)
{
    static const unsigned counts[] = {1, 4, WH_MAX_STRIPES};
    bool solved = has_even_rows(j) || has_even_columns(j);
    write_log(j);
    printf("| %u, %u | %u of %u sources missing%s |", j->k, j->m, j->lost, j->k,
           j->lost == 0 ? "" : solved ? ", solved at once" : ", in steps");
    for (int i = 0; i < 3; i++) {
        stripes = counts[i];
        printf(" %.2f |", ratio());
    }
    printf("\n");
    fflush(stdout);
}

/* The house table with the first sources missing: none, one, two, half and all that can be. Then a table
 * whose last sources are no even set: three, half, six and all. */
static void print_rows(shape size)
{
    job even = make_job(size, WH_HOUSE), uneven = make_uneven_job(size);
    unsigned all = size.k < size.m ? size.k : size.m, half = size.k / 2;
    for (unsigned lost = 0; lost <= all; lost++) {
        if (lost <= 2 || lost == half || lost == all) {
            lose_first(&even, lost);
            print_row(&even);
        }
    }
    for (unsigned lost = 3; lost <= all; lost++) {
        if (lost == 3 || lost == half || lost == 6 || lost == all) {
            lose_last(&uneven, lost);
            print_row(&uneven);
        }
    }
}

int main(void)
{
    printf("\nOne rebuild a stripe, divided by the log in one call: above 1 that call is faster.\n"
           "\n| k, m | | 1 stripe | 4 stripes | %d stripes |\n|---|---|---|---|---|\n",
           WH_MAX_STRIPES);
    for (int i = 0; i < SHAPES; i++) {
        if (shapes[i].k > 2) {
            print_rows(shapes[i]);
        }
    }
    return 0;
}
