/* Debian's Jerasure: a Reed-Solomon code over bytes. The matrix is kept from call to call, and its
 * rows of the parities at hand, which a rebuild has for the whole; jerasure_matrix_decode inverts
 * in every call. */
#include "job.h"

#include <jerasure.h>
#include <jerasure/reed_sol.h>
#include <stdlib.h>
#include <string.h>

enum { WORD = 8 };

/* Jerasure wants all packets to start alike, so each has 64 bytes of room. */
enum { ROOM = 64 };
static uint64_t bytes[WH_MAX_K + WH_MAX_M][ROOM / 8];
static char *sources[WH_MAX_K], *parities[WH_MAX_M], *at_hand[WH_MAX_K];
static int erased[WH_MAX_K + 1], rows[WH_MAX_K * WH_MAX_K];
static int *matrix;

static void begin(const job *j)
{
    free(matrix);
    matrix = reed_sol_vandermonde_coding_matrix((int)j->k, (int)j->m, WORD);
    for (unsigned i = 0; i < j->k; i++) {
        sources[i] = (char *)bytes[i];
        memcpy(bytes[i], j->sources + i * (size_t)LENGTH, LENGTH);
    }
    for (unsigned i = 0; i < j->m; i++) {
        parities[i] = (char *)bytes[WH_MAX_K + i];
    }
    for (unsigned i = 0; i < j->lost; i++) {
        unsigned a = parity_at_hand(j, i);
        at_hand[i] = parities[a];
        memcpy(rows + i * j->k, matrix + a * j->k, j->k * sizeof rows[0]);
        erased[i] = (int)j->missing[i];
    }
    erased[j->lost] = -1;
}

static void encode(const job *j)
{
    jerasure_matrix_encode((int)j->k, (int)j->m, WORD, matrix, sources, parities, LENGTH);
}

static void lose(const job *j)
{
    for (unsigned i = 0; i < j->lost; i++) {
        memset(bytes[j->missing[i]], 0, sizeof bytes[0]);
    }
}

/* The first row of the matrix, and no other, is all ones. */
static void rebuild(const job *j)
{
    int begins_with_ones = parity_at_hand(j, 0) == 0;
    jerasure_matrix_decode((int)j->k, (int)j->lost, WORD, rows, begins_with_ones, erased, sources,
                           at_hand, LENGTH);
}

static const uint8_t *source(unsigned b)
{
    return (const uint8_t *)bytes[b];
}

static const uint8_t *no_parities(void)
{
    return NULL;
}

const contestant jerasure = {"Jerasure", begin, encode, lose, rebuild, source, no_parities};
