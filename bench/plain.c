/* The code in plain C, as a good student writes it: a byte loop that encodes, and a decoder that
 * uncovers bit by bit. It checks nothing of what it is given but that the packets fit together. */
#include "job.h"

#include <stdbool.h>
#include <string.h>

/* Adds a source, shifted up, into a parity. */
static void shift_add(uint8_t *parity, const uint8_t *source, size_t l, unsigned shift)
{
    uint8_t *at = parity + shift / 8;
    unsigned up = shift % 8;
    if (up == 0) {
        for (size_t i = 0; i < l; i++) {
            at[i] ^= source[i];
        }
        return;
    }
    for (size_t i = 0; i < l; i++) {
        at[i] ^= (uint8_t)(source[i] << up);
        at[i + 1] ^= (uint8_t)(source[i] >> (8 - up));
    }
}

void plain_encode(unsigned k, unsigned m, size_t l, const uint8_t *table, const uint8_t *sources,
                  uint8_t *parities, const size_t *parity_bytes)
{
    for (unsigned a = 0; a < m; a++) {
        memset(parities, 0, parity_bytes[a]);
        for (unsigned b = 0; b < k; b++) {
            shift_add(parities, sources + b * l, l, table[a * k + b]);
        }
        parities += parity_bytes[a];
    }
}

/* ---- Rebuild ---- */

typedef struct {
    unsigned rows[WH_MAX_M], row_count;       /* parities at hand, from 0 */
    unsigned columns[WH_MAX_K], column_count; /* missing sources, from 0 */
    unsigned next[WH_MAX_K];                  /* the next bit of each missing source */
    uint8_t rest[WH_MAX_M][WH_LONGEST];       /* what is left of each parity at hand */
} decoding;

static int bit_at(const uint8_t *bytes, unsigned p)
{
    return bytes[p / 8] >> (p % 8) & 1;
}

static void turn_bit(uint8_t *bytes, unsigned p)
{
    bytes[p / 8] ^= (uint8_t)(1 << (p % 8));
}

/* Sorts the packets: sources at hand to their places, parities at hand into rest. */
static void sort_packets(decoding *d, unsigned k, unsigned m, size_t l, uint64_t marks,
                         const uint8_t *packets, const size_t *parity_bytes, uint8_t *sources)
{
    memset(sources, 0, k * l);
    for (unsigned b = 0; b < k; b++) {
        if (marks >> b & 1) {
            memcpy(sources + b * l, packets, l);
            packets += l;
        } else {
            d->columns[d->column_count++] = b;
        }
    }
    for (unsigned a = 0; a < m; a++) {
        if (marks >> (k + a) & 1) {
            memcpy(d->rest[d->row_count], packets, parity_bytes[a]);
            packets += parity_bytes[a];
            d->rows[d->row_count++] = a;
        }
    }
}

/* The missing source whose next bit stands alone lowest in this row, or -1. */
static int bare_column(const decoding *d, const uint8_t *row, unsigned bits)
{
    int bare = -1;
    unsigned lowest = ~0u;
    for (unsigned i = 0; i < d->column_count; i++) {
        unsigned b = d->columns[i], place = row[b] + d->next[b];
        if (d->next[b] < bits && place <= lowest) {
            bare = place == lowest ? -1 : (int)b;
            lowest = place;
        }
    }
    return bare;
}

/* Takes the next bit of source b, read in row i, out of all parities at hand. */
static void take_bit(decoding *d, unsigned k, const uint8_t *table, unsigned i, unsigned b,
                     uint8_t *source)
{
    unsigned p = d->next[b]++;
    if (bit_at(d->rest[i], table[d->rows[i] * k + b] + p)) {
        turn_bit(source, p);
        for (unsigned other = 0; other < d->row_count; other++) {
            turn_bit(d->rest[other], table[d->rows[other] * k + b] + p);
        }
    }
}

static bool all_zero(const decoding *d, const size_t *parity_bytes)
{
    for (unsigned i = 0; i < d->row_count; i++) {
        for (size_t at = 0; at < parity_bytes[d->rows[i]]; at++) {
            if (d->rest[i][at] != 0) {
                return false;
            }
        }
    }
    return true;
}

/* Gives WH_DONE, or WH_STALL, or WH_FOREIGN when no sources encode to the packets. */
int plain_rebuild(unsigned k, unsigned m, size_t l, const uint8_t *table, uint64_t marks,
                  const uint8_t *packets, const size_t *parity_bytes, uint8_t *sources)
{
    decoding d = {.row_count = 0};
    sort_packets(&d, k, m, l, marks, packets, parity_bytes, sources);
    for (unsigned i = 0; i < d.row_count; i++) {
        for (unsigned b = 0; b < k; b++) {
            if (marks >> b & 1) {
                shift_add(d.rest[i], sources + b * l, l, table[d.rows[i] * k + b]);
            }
        }
    }
    unsigned bits = 8 * (unsigned)l, left = d.column_count * bits;
    while (left > 0) {
        unsigned before = left;
        for (unsigned i = 0; i < d.row_count; i++) {
            int b = bare_column(&d, table + d.rows[i] * k, bits);
            while (b >= 0) {
                take_bit(&d, k, table, i, (unsigned)b, sources + (unsigned)b * l);
                left--;
                b = bare_column(&d, table + d.rows[i] * k, bits);
            }
        }
        if (left == before) {
            return WH_STALL;
        }
    }
    return all_zero(&d, parity_bytes) ? WH_DONE : WH_FOREIGN;
}
