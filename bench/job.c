/* Jobs: made, their packets chosen, and whether these can be solved for at once. */
#include "job.h"

#include "random.h"
#include "windhawker.h"

#include <stdio.h>
#include <stdlib.h>

void must(uint64_t number)
{
    if (number != WH_DONE) {
        printf("refused: %s\n", wh_meaning(number));
        exit(1);
    }
}

const shape shapes[SHAPES] = {{2, 2}, {4, 4}, {6, 3}, {WH_MAX_K, WH_MAX_M}};

/* What goes by the table, which is there. */
static void finish_job(job *j)
{
    unsigned k = j->k, m = j->m;
    for (unsigned a = 0; a < m; a++) {
        wh_measured parity = wh_packet_length(k, m, LENGTH, j->table, m * k, k + a + 1);
        must(parity.number);
        j->parity_bytes[a] = (size_t)parity.length;
    }
    wh_measured all = wh_parities_length(k, m, LENGTH, j->table, m * k);
    must(all.number);
    j->parities_bytes = (size_t)all.length;
    random_restart(1);
    random_bytes(j->sources, sizeof j->sources);
    lose_first(j, 1);
}

job make_job(shape size, unsigned family)
{
    job j = {.k = size.k, .m = size.m, .family = family};
    must(wh_family_table(j.k, j.m, family, j.table, j.m * j.k));
    finish_job(&j);
    return j;
}

job make_uneven_job(shape size)
{
    job j = {.k = size.k, .m = size.m};
    for (unsigned a = 0; a < j.m; a++) {
        for (unsigned b = 0; b < j.k; b++) {
            j.table[a * j.k + b] = (uint8_t)((a + (a + 1 == j.m)) * (b + (b + 1 == j.k)));
        }
    }
    finish_job(&j);
    return j;
}

/* ---- The packets at hand ---- */

void put_at_hand(job *j, uint64_t marks)
{
    unsigned count = 0;
    j->marks = marks;
    j->lost = 0;
    for (unsigned p = 0; p < j->k + j->m; p++) {
        if (marks >> p & 1) {
            j->at_hand[count++] = p;
        } else if (p < j->k) {
            j->missing[j->lost++] = p;
        }
    }
}

static uint64_t lowest_bits(unsigned count)
{
    return ((uint64_t)1 << count) - 1;
}

void lose_first(job *j, unsigned lost)
{
    put_at_hand(j, lowest_bits(j->k) << lost);
}

void lose_last(job *j, unsigned lost)
{
    put_at_hand(j, lowest_bits(j->k - lost) | lowest_bits(lost) << (j->k + j->m - lost));
}

/* So many of the lowest bits, any of them. */
static uint64_t drawn_bits(unsigned bits, unsigned count)
{
    uint64_t drawn = 0;
    for (unsigned i = 0; i < bits; i++) {
        if (random_below(bits - i) < count) {
            drawn |= (uint64_t)1 << i;
            count--;
        }
    }
    return drawn;
}

void lose_drawn(job *j, unsigned lost)
{
    uint64_t sources = drawn_bits(j->k, j->k - lost), parities = drawn_bits(j->m, lost);
    put_at_hand(j, sources | parities << j->k);
}

unsigned parity_at_hand(const job *j, unsigned i)
{
    return j->at_hand[j->k - j->lost + i] - j->k;
}

/* ---- Even rows and columns ---- */

/* The entry of a parity at hand and a missing source, by their places in the lists. */
static int shift_of(const job *j, unsigned i, unsigned b)
{
    return j->table[parity_at_hand(j, i) * j->k + j->missing[b]];
}

/* How much more source b is shifted from the first parity to parity i than the first source is. */
static int growth(const job *j, unsigned i, unsigned b)
{
    return shift_of(j, i, b) + shift_of(j, 0, 0) - shift_of(j, i, 0) - shift_of(j, 0, b);
}

/* A source's shift in the first parity and its growth to the last are a shift together. */
static bool within_reach(const job *j)
{
    for (unsigned b = 0; b < j->lost; b++) {
        if (shift_of(j, 0, b) + growth(j, j->lost - 1, b) > WH_MAX_SHIFT) {
            return false;
        }
    }
    return true;
}

static int growth_along(const job *j, bool columns, unsigned along, unsigned across)
{
    return columns ? growth(j, across, along) : growth(j, along, across);
}

/* Along the rows, or along the columns, the growth is that of the first step times the place, and
 * the first step is larger from one line to the next. */
static bool is_even(const job *j, bool columns)
{
    for (unsigned across = 1; across < j->lost; across++) {
        int step = growth_along(j, columns, 1, across);
        if (step <= growth_along(j, columns, 1, across - 1)) {
            return false;
        }
        for (unsigned along = 2; along < j->lost; along++) {
            if (growth_along(j, columns, along, across) != (int)along * step) {
                return false;
            }
        }
    }
    return within_reach(j);
}

bool has_even_rows(const job *j)
{
    return is_even(j, false);
}

bool has_even_columns(const job *j)
{
    return is_even(j, true);
}
