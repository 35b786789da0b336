/* A program with newlib's printf and malloc: a log of two bytes is read back from the two parities
 * alone. */
#include <stdio.h> /* first: Debian's newlib has PRIu64 only behind it */

#include <inttypes.h>
#include <stdlib.h>

#include "windhawker.h"

enum { K = 2, M = 2, L = 1, PARITIES_3_AND_4 = 12 };

static int refused(uint64_t number)
{
    printf("refused, %" PRIu64 ": %s\n", number, wh_meaning(number));
    return 1;
}

int main(void)
{
    const uint8_t sources[K * L] = {0x80, 0xC0};
    uint8_t table[M * K], parities[M * WH_LONGEST];
    uint8_t *back = malloc(K * L);
    if (back == NULL) {
        return 2;
    }
    uint64_t number = wh_family_table(K, M, WH_HOUSE, table, sizeof table);
    if (number != WH_DONE) {
        return refused(number);
    }
    wh_measured all = wh_parities_length(K, M, L, table, sizeof table);
    if (all.number != WH_DONE) {
        return refused(all.number);
    }
    number =
        wh_encode_all(K, M, L, table, sizeof table, sources, sizeof sources, parities, all.length);
    if (number != WH_DONE) {
        return refused(number);
    }
    wh_rebuilt rebuilt = wh_rebuild(K, M, L, table, sizeof table, PARITIES_3_AND_4, parities,
                                    all.length, back, K * L);
    if (rebuilt.number != WH_DONE) {
        return refused(rebuilt.number);
    }
    printf("%02X %02X in %" PRIu64 " steps\n", back[0], back[1], rebuilt.count);
    free(back);
    return 0;
}
