/* Lesson 6: erasures, not errors.
 *
 * The code fills in packets that are known to be lost. It does not find packets that are there and
 * wrong: k packets tell nothing about which of them is bad, and WH_STRAY and WH_FOREIGN notice only
 * what no sources encode to. Here every bit of every card that is used is turned over, one at a
 * time, and it is counted what a reader of the cards learns of it. What the log says makes no
 * difference to the counts: a turned bit changes a sum alike, whatever else is in it. */
#include "show.h"

#include <string.h>

enum { K = 4, M = 2, N = K + M, L = 48 };

/* What is counted: choices of lost cards; bits turned over, each on its own; and of these bits
 * those that are refused with WH_STRAY, with WH_FOREIGN, those where two rebuilt logs differ, and
 * those where a wrong log comes out and nobody is told. */
enum { CHOICES, TURNED, STRAY, FOREIGN, DIFFERENT, WRONG, COLUMNS };

static const char *const columns[COLUMNS] = {
    "choices",   "turned", "with " WH_TEXT(WH_STRAY), "with " WH_TEXT(WH_FOREIGN),
    "different", "wrong",
};

static uint8_t table[M * K], sources[K * L];
static uint8_t cards[N][WH_LONGEST];
static size_t lengths[N]; /* bytes of each packet */

static void write_cards(void)
{
    must(wh_family_table(K, M, WH_HOUSE, table, sizeof table), "wh_family_table");
    for (size_t i = 0; i < sizeof sources; i++) {
        sources[i] = (uint8_t)(37 * i + 11);
    }
    for (uint64_t packet = 1; packet <= N; packet++) {
        wh_measured measured = wh_packet_length(K, M, L, table, sizeof table, packet);
        must(measured.number, "wh_packet_length");
        lengths[packet - 1] = (size_t)measured.length;
        must(wh_packet(K, M, L, table, sizeof table, source_marks(K), sources, sizeof sources,
                       packet, cards[packet - 1], lengths[packet - 1]),
             "wh_packet");
    }
}

/* ---- Choices of cards, as marks ---- */

static int marked(uint64_t marks, uint64_t packet)
{
    return marks >> (packet - 1) & 1;
}

/* How many of the packets first to last have marks. */
static unsigned count_marks(uint64_t marks, uint64_t first, uint64_t last)
{
    unsigned count = 0;
    for (uint64_t packet = first; packet <= last; packet++) {
        count += marked(marks, packet) ? 1 : 0;
    }
    return count;
}

/* The first k of the cards at hand, from which `cards read` writes the log. */
static uint64_t first_cards(uint64_t marks)
{
    for (uint64_t packet = N; count_marks(marks, 1, N) > K; packet--) {
        marks &= ~((uint64_t)1 << (packet - 1));
    }
    return marks;
}

/* The last k of them. */
static uint64_t last_cards(uint64_t marks)
{
    for (uint64_t packet = 1; count_marks(marks, 1, N) > K; packet++) {
        marks &= ~((uint64_t)1 << (packet - 1));
    }
    return marks;
}

/* ---- One bit turned over ---- */

/* Rebuilds from k cards and gives the number. */
static uint64_t rebuild(uint64_t marks, uint8_t rebuilt[K * L])
{
    uint8_t packets[K * WH_LONGEST];
    size_t used = 0;
    for (uint64_t packet = 1; packet <= N; packet++) {
        if (marked(marks, packet)) {
            memcpy(packets + used, cards[packet - 1], lengths[packet - 1]);
            used += lengths[packet - 1];
        }
    }
    return wh_rebuild(K, M, L, table, sizeof table, marks, packets, used, rebuilt, K * L).number;
}

/* Rebuilds from one choice of k cards and from another, and counts what is learned by it. */
static void learn(uint64_t one, uint64_t other, unsigned counts[COLUMNS])
{
    uint8_t rebuilt[K * L], again[K * L];
    uint64_t number = rebuild(one, rebuilt);
    if (number == WH_DONE) {
        number = rebuild(other, again);
    }
    if (number == WH_STRAY) {
        counts[STRAY]++;
        return;
    }
    if (number == WH_FOREIGN) {
        counts[FOREIGN]++;
        return;
    }
    must(number, "wh_rebuild");
    if (memcmp(rebuilt, again, sizeof rebuilt) != 0) {
        counts[DIFFERENT]++;
    } else if (memcmp(rebuilt, sources, sizeof rebuilt) != 0) {
        counts[WRONG]++;
    }
}

static void turn_every_bit(uint64_t one, uint64_t other, unsigned counts[COLUMNS])
{
    for (uint64_t packet = 1; packet <= N; packet++) {
        for (uint64_t p = 0; marked(one | other, packet) && p < 8 * lengths[packet - 1]; p++) {
            uint8_t bit = (uint8_t)(1 << p % 8);
            cards[packet - 1][p / 8] ^= bit;
            learn(one, other, counts);
            cards[packet - 1][p / 8] ^= bit;
            counts[TURNED]++;
        }
    }
}

/* ---- The table ---- */

/* Counts for all choices of lost cards that are so many sources and so many parities. */
static void count_choices(unsigned lost_sources, unsigned lost_parities, int twice,
                          unsigned counts[COLUMNS])
{
    for (uint64_t marks = 0; marks < (uint64_t)1 << N; marks++) {
        if (count_marks(marks, 1, K) == K - lost_sources &&
            count_marks(marks, K + 1, N) == M - lost_parities) {
            uint64_t first = first_cards(marks);
            counts[CHOICES]++;
            turn_every_bit(first, twice ? last_cards(marks) : first, counts);
        }
    }
}

static void show_counts(const char *name, const unsigned counts[COLUMNS])
{
    printf("  %-18s", name);
    for (int i = 0; i < COLUMNS; i++) {
        printf("  %9u", counts[i]);
    }
    printf("\n");
}

/* All choices of so many lost cards, by how many of them are sources. */
static void show_lost(const char *title, unsigned lost, int twice)
{
    static const char *const names[M][M + 1] = {
        {"a parity", "a source"},
        {"both parities", "a source, a parity", "two sources"},
    };
    unsigned all[COLUMNS] = {0};
    printf("%s\n", title);
    for (unsigned lost_sources = 0; lost_sources <= lost; lost_sources++) {
        unsigned counts[COLUMNS] = {0};
        count_choices(lost_sources, lost - lost_sources, twice, counts);
        show_counts(names[lost - 1][lost_sources], counts);
        for (int i = 0; i < COLUMNS; i++) {
            all[i] += counts[i];
        }
    }
    show_counts("together", all);
}

int main(void)
{
    write_cards();
    printf("One bit is turned over on one of the cards that are used, k, m, L = %d, %d, %d.\n"
           "Rebuilding refuses it with %d or %d, or two rebuilt logs are different, or the log\n"
           "that comes out is wrong and nobody is told.\n\n",
           K, M, L, WH_STRAY, WH_FOREIGN);
    printf("%-20s", "lost");
    for (int i = 0; i < COLUMNS; i++) {
        printf("  %9s", columns[i]);
    }
    printf("\n");
    show_lost("one card, rebuilt from the first four of five:", 1, 0);
    show_lost("two cards, rebuilt from the four that are left:", 2, 0);
    show_lost("one card, rebuilt twice, from the first four and from the last four of five:", 1, 1);
    return 0;
}
