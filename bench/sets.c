/* Counts, of all sets of k packets, those whose missing sources are solved for at once, and prints
 * the parts as a Markdown table: by family, size and how many sources are missing, two at least. */
#include "job.h"

#include <stdio.h>

typedef struct {
    unsigned sets, rows, columns, either;
} counts;

static void count_set(counts *c, const job *j)
{
    bool rows = has_even_rows(j), columns = has_even_columns(j);
    c->sets++;
    c->rows += rows;
    c->columns += columns;
    c->either += rows || columns;
}

static unsigned ones(uint64_t marks)
{
    unsigned count = 0;
    for (; marks != 0; marks &= marks - 1) {
        count++;
    }
    return count;
}

/* Each set into `all`, and into the counts of sets with as many sources missing. */
static void count_sets(job *j, counts *by_lost, counts *all)
{
    for (uint64_t marks = 0; marks >> (j->k + j->m) == 0; marks++) {
        if (ones(marks) == j->k) {
            put_at_hand(j, marks);
            if (j->lost >= 2) {
                count_set(&by_lost[j->lost], j);
                count_set(all, j);
            }
        }
    }
}

static void print_percents(const counts *c)
{
    if (c->sets > 0) {
        double one = c->sets / 100.0;
        printf(" %.3g / %.3g / %.3g", c->rows / one, c->columns / one, c->either / one);
    }
    printf(" |");
}

static void print_row(job *j)
{
    counts by_lost[WH_MAX_K + 1] = {{0}}, all = {0};
    count_sets(j, by_lost, &all);
    printf("| %u | %u, %u |", j->family, j->k, j->m);
    for (unsigned lost = 2; lost <= WH_MAX_K; lost++) {
        print_percents(&by_lost[lost]);
    }
    print_percents(&all);
    printf("\n");
}

static void print_head(void)
{
    printf("| family | k, m |");
    for (unsigned lost = 2; lost <= WH_MAX_K; lost++) {
        printf(" %u missing |", lost);
    }
    printf(" any of these |\n|---|---|");
    for (unsigned lost = 2; lost <= WH_MAX_K + 1; lost++) {
        printf("---|");
    }
    printf("\n");
}

int main(void)
{
    printf("Of all sets, in percent: with even rows / with even columns / with either.\n\n");
    print_head();
    for (unsigned family = 1; family <= WH_FAMILIES; family++) {
        for (int i = 0; i < SHAPES; i++) {
            job j = make_job(shapes[i], family);
            print_row(&j);
        }
    }
    return 0;
}
