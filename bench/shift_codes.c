/* The two contestants of the shift-and-XOR code: the library, and plain C. */
#include "job.h"
#include "windhawker.h"

#include <string.h>

static uint8_t parities[WH_MAX_M * WH_LONGEST];
static uint8_t packets[(WH_MAX_K + WH_MAX_M) * WH_LONGEST];
static uint8_t rebuilt[WH_MAX_K * LENGTH];
static size_t packets_bytes;

static void begin(const job *j)
{
    (void)j;
}

/* Puts the packets at hand together: the sources that are not lost, then the parities. */
static void lose(const job *j)
{
    const uint8_t *packet = j->sources;
    packets_bytes = 0;
    for (unsigned p = 0; p < j->k + j->m; p++) {
        if (p == j->k) {
            packet = parities;
        }
        size_t length = p < j->k ? LENGTH : j->parity_bytes[p - j->k];
        if (j->marks >> p & 1) {
            memcpy(packets + packets_bytes, packet, length);
            packets_bytes += length;
        }
        packet += length;
    }
    memset(rebuilt, 0, sizeof rebuilt);
}

static const uint8_t *source(unsigned b)
{
    return rebuilt + b * (size_t)LENGTH;
}

static const uint8_t *all_parities(void)
{
    return parities;
}

static void library_encode(const job *j)
{
    must(wh_encode_all(j->k, j->m, LENGTH, j->table, j->m * j->k, j->sources,
                       j->k * (size_t)LENGTH, parities, j->parities_bytes));
}

static void library_rebuild(const job *j)
{
    must(wh_rebuild(j->k, j->m, LENGTH, j->table, j->m * j->k, j->marks, packets, packets_bytes,
                    rebuilt, j->k * (size_t)LENGTH)
             .number);
}

static void student_encode(const job *j)
{
    plain_encode(j->k, j->m, LENGTH, j->table, j->sources, parities, j->parity_bytes);
}

static void student_rebuild(const job *j)
{
    plain_rebuild(j->k, j->m, LENGTH, j->table, j->marks, packets, j->parity_bytes, rebuilt);
}

const contestant windhawker = {"Windhawker",    begin,  library_encode, lose,
                               library_rebuild, source, all_parities};
const contestant plain = {"plain C",       begin,  student_encode, lose,
                          student_rebuild, source, all_parities};
