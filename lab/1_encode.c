/* Lesson 1: make a shift table, and encode.
 *
 *   1_encode           with the house table
 *   1_encode FAMILY    with the table of this family: 1 house, 2 Hankel, 3 Vandermonde
 *
 * Three sources of three bytes become two parities. The picture shows each parity as what it is:
 * the sources, each shifted up by its entry of the table, added bit by bit (XOR). */
#include "show.h"

enum { K = 3, M = 2, L = 3 };

static const char usage[] =
    "usage: 1_encode [FAMILY], a number: 1 house, 2 Hankel, 3 Vandermonde\n";

static void draw_parity(unsigned a, const uint8_t *row, const uint8_t *sources,
                        const uint8_t *parity, size_t length)
{
    printf("\n             0       8       16      24\n");
    for (unsigned b = 1; b <= K; b++) {
        printf("  source %u   %*s", b, row[b - 1], "");
        print_bits(sources + (b - 1) * L, 8 * L);
        printf("%*s shifted up by %d\n", 8 - row[b - 1], "", row[b - 1]);
    }
    printf("  parity %u   ", a);
    print_bits(parity, 8 * length);
    printf("%*s which is ", (int)(8 * (L + 1 - length)), "");
    print_bytes(parity, length);
    printf("\n");
}

/* Each parity takes what its own row of the table needs. */
static void say_lengths(const size_t lengths[M], size_t all)
{
    printf("Parities of");
    for (unsigned a = 1; a <= M; a++) {
        printf("%s %zu", a == 1 ? "" : a == M ? " and" : ",", lengths[a - 1]);
    }
    printf(" bytes, %zu together: each holds %d bits and its own row's largest shift.\n", all,
           8 * L);
}

int main(int words, char **word)
{
    const uint8_t sources[K * L] = {'s', 'u', 'n', 'f', 'o', 'g', 'i', 'c', 'e'};
    uint8_t table[M * K], parities[M * WH_LONGEST];
    size_t lengths[M];
    uint64_t family = WH_HOUSE;

    if (words > 2 || (words == 2 && !read_number(word[1], UINT64_MAX, &family))) {
        fputs(usage, stderr);
        return 2;
    }
    must(wh_family_table(K, M, family, table, sizeof table), "wh_family_table");
    for (unsigned a = 1; a <= M; a++) {
        wh_measured parity = wh_packet_length(K, M, L, table, sizeof table, K + a);
        must(parity.number, "wh_packet_length");
        lengths[a - 1] = (size_t)parity.length;
    }
    wh_measured all = wh_parities_length(K, M, L, table, sizeof table);
    must(all.number, "wh_parities_length");
    must(wh_encode_all(K, M, L, table, sizeof table, sources, sizeof sources, parities, all.length),
         "wh_encode_all");

    printf("Sources \"sun\", \"fog\" and \"ice\", %d bytes each.\n", L);
    say_lengths(lengths, (size_t)all.length);
    const uint8_t *parity = parities;
    for (unsigned a = 1; a <= M; a++) {
        draw_parity(a, table + (a - 1) * K, sources, parity, lengths[a - 1]);
        parity += lengths[a - 1];
    }
    return 0;
}
