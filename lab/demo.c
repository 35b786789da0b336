/* The whole job on a built-in sample: a logbook is cut into sources and coded onto cards, a reader
 * hands each packet over as a run of blocks, two cards are lost, and the log is read back and
 * compared. Called with the word `size` it prints only k, m and l. */
#include "show.h"

#include <string.h>

enum { K = 4, M = 2, N = K + M };
enum { SIZE = 32, BLOCK = SIZE + 4 }; /* information bytes of a card's block, and all its bytes */

static const char recorded[] = "06:40 bus leaves, 24 of 24 on board\n"
                               "08:15 harbour, wind 3 m/s, 11.2 C\n"
                               "09:05 hawk over the north pier\n"
                               "10:30 rain, all under the old crane\n"
                               "12:10 ferry, wind 9 m/s, 10.4 C\n"
                               "15:55 back at school, 24 of 24\n";

/* The shortest sources that hold the log. */
enum { LENGTH = sizeof recorded - 1, L = (LENGTH + K - 1) / K };

static uint8_t sources[K * L]; /* the log, and zeros to its end */
static uint8_t table[M * K];
static uint8_t cards[N][WH_LONGEST];   /* what is written on each card */
static uint8_t packets[N][WH_LONGEST]; /* what the reader got from it */
static size_t lengths[N];              /* bytes of each packet */

static void show_log(const uint8_t *log)
{
    printf("   | ");
    for (size_t i = 0; i < LENGTH; i++) {
        putchar(log[i]);
        if (log[i] == '\n' && i + 1 < LENGTH) {
            printf("   | ");
        }
    }
}

/* On one line, with / for the ends of the log's lines. */
static void show_source(const uint8_t *source)
{
    for (size_t i = 0; i < L; i++) {
        putchar(source[i] == '\n' ? '/' : source[i]);
    }
    putchar('\n');
}

static void cut(void)
{
    printf("1. The logbook, %d bytes:\n", (int)LENGTH);
    show_log((const uint8_t *)recorded);
    memcpy(sources, recorded, LENGTH);
    printf("\n2. Cut into %d sources of %d bytes:\n", K, (int)L);
    for (int b = 1; b <= K; b++) {
        printf("   source %d  ", b);
        show_source(sources + (b - 1) * L);
    }
}

static void encode(void)
{
    printf("\n3. Coded onto %d cards. The shift table:\n", N);
    must(wh_family_table(K, M, WH_HOUSE, table, sizeof table), "wh_family_table");
    for (int a = 1; a <= M; a++) {
        printf("   parity %d is", a);
        for (int b = 1; b <= K; b++) {
            printf("%s source %d up %d", b == 1 ? "" : " +", b, table[(a - 1) * K + b - 1]);
        }
        printf("\n");
    }
    for (uint64_t packet = 1; packet <= N; packet++) {
        wh_measured measured = wh_packet_length(K, M, L, table, sizeof table, packet);
        must(measured.number, "wh_packet_length");
        lengths[packet - 1] = (size_t)measured.length;
        must(wh_packet(K, M, L, table, sizeof table, source_marks(K), sources, sizeof sources,
                       packet, cards[packet - 1], lengths[packet - 1]),
             "wh_packet");
    }
}

/* What a card reader makes of a packet. Gives the bytes of all its blocks. */
static size_t hand_over(const uint8_t *packet, size_t length, uint8_t run[WH_BLOCKS_LONGEST])
{
    wh_written written = wh_write_blocks(packet, length, SIZE, run, WH_BLOCKS_LONGEST);
    must(written.number, "wh_write_blocks");
    return (size_t)written.length;
}

/* The start and the end of each block. */
static void show_run(const uint8_t *run, size_t length)
{
    for (size_t at = 0; at < length; at += BLOCK) {
        size_t end = length - at < BLOCK ? length : at + BLOCK;
        print_bytes(run + at, 4);
        printf(" ... %02X%s", run[end - 1], end < length ? ", " : "");
    }
}

static void take_runs(void)
{
    uint8_t run[WH_BLOCKS_LONGEST];
    printf("\n4. The reader hands each packet over as blocks of at most %d bytes:\n", SIZE);
    for (int i = 0; i < N; i++) {
        size_t length = hand_over(cards[i], lengths[i], run);
        wh_joined joined = wh_read_blocks(run, length, packets[i], WH_LONGEST);
        must(joined.number, "wh_read_blocks");
        if (joined.length != lengths[i]) {
            printf("   card %d has %" PRIu64 " bytes, not %zu\n", i + 1, joined.length, lengths[i]);
            exit(1);
        }
        printf("   card %d  ", i + 1);
        show_run(run, length);
        printf(": %" PRIu64 " bytes taken\n", joined.length);
    }
    size_t length = hand_over(cards[0], lengths[0], run);
    run[2] = 255;
    wh_joined joined = wh_read_blocks(run, length, packets[0], WH_LONGEST);
    printf("   card 1 once more, its first length byte spoiled: %s, %" PRIu64 ": %s\n",
           joined.number == WH_DONE ? "taken" : "refused", joined.number,
           wh_meaning(joined.number));
}

/* The packets at hand, one after another, lowest number first. */
static size_t gather(uint64_t marks, uint8_t *at_hand)
{
    size_t used = 0;
    for (int i = 0; i < N; i++) {
        if (marks >> i & 1) {
            memcpy(at_hand + used, packets[i], lengths[i]);
            used += lengths[i];
        }
    }
    return used;
}

/* Says whether the log came back. */
static int read_back(uint64_t marks)
{
    uint8_t at_hand[N * WH_LONGEST], rebuilt[K * L];
    size_t length = gather(marks, at_hand);
    printf("\n5. Cards 2 and 3 are lost. At hand:");
    print_marks(marks);
    printf(", %zu bytes.\n", length);

    wh_rebuilt done =
        wh_rebuild(K, M, L, table, sizeof table, marks, at_hand, length, rebuilt, sizeof rebuilt);
    must(done.number, "wh_rebuild");
    printf("\n6. Read back in %" PRIu64 " steps, one uncovered bit each:\n", done.count);
    show_log(rebuilt);
    return memcmp(rebuilt, sources, sizeof rebuilt) == 0;
}

int main(int words, char **word)
{
    if (words > 1 && strcmp(word[1], "size") == 0) {
        printf("%d %d %d\n", K, M, (int)L);
        return 0;
    }
    cut();
    encode();
    take_runs();
    if (!read_back(0x39)) { /* cards 1, 4, 5, 6 */
        printf("\n   This is NOT the log that was recorded.\n");
        return 1;
    }
    printf("\n   Byte for byte the log that was recorded.\n");
    return 0;
}
