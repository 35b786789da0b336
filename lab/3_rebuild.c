/* Lesson 3: lose cards, and rebuild.
 *
 * Five cards carry a log of three sources. Any three of them are enough. */
#include "show.h"

#include <string.h>

enum { K = 3, M = 2, N = K + M, L = 8 };

static const char recorded[] = "09:05 hawk, north pier.."; /* K * L bytes */
static const uint8_t *const sources = (const uint8_t *)recorded;
static uint8_t table[M * K];

/* Puts the packets that have marks one after another, as wh_rebuild wants them. */
static size_t gather(uint64_t marks, uint8_t *packets)
{
    size_t used = 0;
    for (uint64_t packet = 1; packet <= N; packet++) {
        if (marks >> (packet - 1) & 1) {
            wh_measured measured = wh_packet_length(K, M, L, table, sizeof table, packet);
            must(measured.number, "wh_packet_length");
            size_t length = (size_t)measured.length;
            must(wh_packet(K, M, L, table, sizeof table, source_marks(K), sources, K * L, packet,
                           packets + used, length),
                 "wh_packet");
            used += length;
        }
    }
    return used;
}

static void show_rebuilt(uint64_t marks, const uint8_t *packets, size_t length)
{
    uint8_t rebuilt[K * L];
    memset(rebuilt, '.', sizeof rebuilt);
    wh_rebuilt done =
        wh_rebuild(K, M, L, table, sizeof table, marks, packets, length, rebuilt, sizeof rebuilt);
    printf("cards");
    print_marks(marks);
    if (done.number != WH_DONE) {
        printf(": refused, %" PRIu64 ": %s\n", done.number, wh_meaning(done.number));
        return;
    }
    printf(": \"%.*s\" in %" PRIu64 " steps\n", K * L, (const char *)rebuilt, done.count);
    for (uint64_t b = 1; b <= K; b++) {
        wh_looked looked = wh_look(K, M, L, table, sizeof table, marks, b, packets, length, rebuilt,
                                   sizeof rebuilt);
        must(looked.number, "wh_look");
        printf("  source %" PRIu64 " \"%.*s\" from the %s\n", b, L,
               (const char *)wh_look_at(looked, packets, rebuilt),
               looked.buffer == 1 ? "card itself" : "rebuilt sources");
    }
}

static void rebuild_from(uint64_t marks)
{
    uint8_t packets[N * WH_LONGEST];
    show_rebuilt(marks, packets, gather(marks, packets));
}

/* A new card for the one that was lost: the same bytes that stood on it. */
static void repair(uint64_t marks, uint64_t packet)
{
    uint8_t packets[N * WH_LONGEST], written[WH_LONGEST], fresh[WH_LONGEST];
    size_t length = gather((uint64_t)1 << (packet - 1), written);
    must(wh_packet(K, M, L, table, sizeof table, marks, packets, gather(marks, packets), packet,
                   fresh, length),
         "wh_packet");
    printf("card %" PRIu64 " repaired: ", packet);
    print_bytes(fresh, length);
    printf(memcmp(written, fresh, length) == 0 ? ", as it was\n" : ", NOT as it was\n");
}

int main(void)
{
    uint8_t packets[N * WH_LONGEST];
    must(wh_family_table(K, M, WH_HOUSE, table, sizeof table), "wh_family_table");
    printf("The log \"%s\" on five cards.\n\n", recorded);

    rebuild_from(0x07); /* nothing that matters is lost */
    rebuild_from(0x1A); /* cards 1 and 3 are lost */
    rebuild_from(0x1C); /* cards 1 and 2 are lost */
    repair(0x1A, 1);

    printf("\nThree cards lost: ");
    rebuild_from(0x18);
    printf("One bit of card 4 turned over, and noticed; lesson 6 counts those that are not: ");
    size_t length = gather(0x1A, packets);
    packets[L] ^= 1;
    show_rebuilt(0x1A, packets, length);
    return 0;
}
