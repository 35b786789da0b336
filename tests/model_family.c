#include "model.h"

/* The sequence h goes from h(0) to h(2N - 2), where N is the larger of k and m. */
enum { N_MOST = WH_MAX_K > WH_MAX_M ? WH_MAX_K : WH_MAX_M, SEQUENCE_MOST = 2 * N_MOST - 1 };

/* Gong and Sung 2017, (11) and (12): h(N - 1) is 0, and h(i + 1) - h(i) is i - N + 2 for each i
 * from 0 to 2N - 3. So the sequence is followed from N - 1 both ways. */
static void set_sequence(int64_t n, int64_t h[SEQUENCE_MOST])
{
    h[n - 1] = 0;
    for (int64_t i = n - 1; i <= 2 * n - 3; i++) {
        h[i + 1] = h[i] + (i - n + 2);
    }
    for (int64_t i = n - 2; i >= 0; i--) {
        h[i] = h[i + 1] - (i - n + 2);
    }
}

/* The same paper, (10) and below (13): entry (i, j) of the N by N matrix H is h(i + j - 2). With m
 * below k the table is m rows of H, from row floor((k - m) / 2) + 1 on; else it is k columns of H,
 * from column floor((m - k) / 2) + 1 on. */
static uint64_t hankel_entry(const question *q, uint64_t a, uint64_t b)
{
    int64_t h[SEQUENCE_MOST];
    if (q->m < q->k) {
        set_sequence((int64_t)q->k, h);
        uint64_t first_row = (q->k - q->m) / 2 + 1;
        return (uint64_t)h[(first_row + a - 1) + b - 2];
    }
    set_sequence((int64_t)q->m, h);
    uint64_t first_column = (q->m - q->k) / 2 + 1;
    return (uint64_t)h[a + (first_column + b - 1) - 2];
}

/* The first is Sung and Gong 2013, (9), the last Gong and Sung 2017, (8). */
static uint64_t family_entry(const question *q, uint64_t a, uint64_t b)
{
    switch (q->family) {
    case WH_HOUSE:
        return a * (b - 1);
    case WH_HANKEL:
        return hankel_entry(q, a, b);
    default:
        return (a - 1) * (b - 1);
    }
}

void write_family_table(const question *q, uint8_t *out)
{
    for (uint64_t a = 1; a <= q->m; a++) {
        for (uint64_t b = 1; b <= q->k; b++) {
            *out++ = (uint8_t)family_entry(q, a, b);
        }
    }
}

answer model_family_table(const question *q, uint8_t *output)
{
    if (bad_size(q)) {
        return refused(WH_SIZE);
    }
    if (q->family < 1 || q->family > WH_FAMILIES) {
        return refused(WH_FAMILY);
    }
    if (q->output.length != q->m * q->k) {
        return refused(WH_OUTPUT);
    }
    write_family_table(q, output);
    return done();
}
