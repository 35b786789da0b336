/* Debian's ISA-L: a Cauchy code. The matrix is kept from call to call, as Windhawker's shift table
 * is. The first contestant makes its tables, and for a rebuild inverts its matrix, in every call;
 * the second keeps those too, as a program does whose lost cards stay the same. Packets are filled
 * up to 64 bytes: on shorter ones ISA-L falls back to a loop that is many times slower. */
#include "job.h"

#include <isa-l/erasure_code.h>
#include <string.h>

enum { PACKETS_MOST = WH_MAX_K + WH_MAX_M, TABLE_BYTES = 32, FILLED = 64 };
enum { ROWS_BYTES = (WH_MAX_K + 1) * WH_MAX_K };

static uint8_t matrix[(PACKETS_MOST + 1) * WH_MAX_K];
static uint8_t encode_tables[TABLE_BYTES * WH_MAX_K * WH_MAX_M];
static uint8_t rebuild_tables[TABLE_BYTES * WH_MAX_K * WH_MAX_K];
static uint8_t bytes[PACKETS_MOST][FILLED], rebuilt[WH_MAX_K][FILLED];
static uint8_t *packets[PACKETS_MOST], *at_hand[WH_MAX_K], *lost[WH_MAX_K];

static void make_encode_tables(const job *j)
{
    ec_init_tables((int)j->k, (int)j->m, matrix + j->k * j->k, encode_tables);
}

/* Takes rows out of a matrix. A copy of as many bytes as the compiler knows of is fastest: what is
 * too much of a row is covered by the next, and after the last there is room for it. */
static void take_rows(uint8_t *rows, const uint8_t *of, const unsigned *which, unsigned count,
                      unsigned k)
{
    for (unsigned i = 0; i < count; i++) {
        memcpy(rows + i * k, of + which[i] * k, WH_MAX_K);
    }
}

/* The rows of the packets at hand, inverted: its rows of the lost sources give them. */
static void make_rebuild_tables(const job *j)
{
    uint8_t rows[ROWS_BYTES], inverted[ROWS_BYTES];
    take_rows(rows, matrix, j->at_hand, j->k, j->k);
    gf_invert_matrix(rows, inverted, (int)j->k);
    take_rows(rows, inverted, j->missing, j->lost, j->k);
    ec_init_tables((int)j->k, (int)j->lost, rows, rebuild_tables);
}

static void begin(const job *j)
{
    gf_gen_cauchy1_matrix(matrix, (int)(j->k + j->m), (int)j->k);
    for (unsigned i = 0; i < PACKETS_MOST; i++) {
        packets[i] = bytes[i];
    }
    for (unsigned i = 0; i < j->k; i++) {
        memcpy(bytes[i], j->sources + i * (size_t)LENGTH, LENGTH);
        at_hand[i] = bytes[j->at_hand[i]];
    }
    for (unsigned i = 0; i < j->lost; i++) {
        lost[i] = rebuilt[j->missing[i]];
    }
    make_encode_tables(j);
    make_rebuild_tables(j);
}

static void encode_kept(const job *j)
{
    ec_encode_data(FILLED, (int)j->k, (int)j->m, encode_tables, packets, packets + j->k);
}

static void encode(const job *j)
{
    make_encode_tables(j);
    encode_kept(j);
}

static void lose(const job *j)
{
    for (unsigned i = 0; i < j->lost; i++) {
        memset(bytes[j->missing[i]], 0, sizeof bytes[0]);
    }
    memset(rebuilt, 0, sizeof rebuilt);
}

static void rebuild_kept(const job *j)
{
    ec_encode_data(FILLED, (int)j->k, (int)j->lost, rebuild_tables, at_hand, lost);
}

static void rebuild(const job *j)
{
    make_rebuild_tables(j);
    rebuild_kept(j);
}

static const uint8_t *source(unsigned b)
{
    return rebuilt[b];
}

static const uint8_t *no_parities(void)
{
    return NULL;
}

const contestant isal = {"ISA-L", begin, encode, lose, rebuild, source, no_parities};
const contestant isal_kept = {"ISA-L, tables kept", begin,  encode_kept, lose,
                              rebuild_kept,         source, no_parities};
