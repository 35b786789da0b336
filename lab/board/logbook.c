/* A lesson: four cards of six are read, and the logbook is whole again.
 *
 * The logbook has four sources of eight bytes and two parities. Cards 1 and 4 are lost. The reader
 * hands over each card's packet as a run of T=1 blocks, eight bytes in each at most: a source is
 * one block, a parity, a byte longer, is two. The run from card 3 came damaged at first. */
#include "say.h"
#include "windhawker.h"

enum { K = 4, M = 2, L = 8 };

typedef struct {
    uint8_t card; /* its packet's number */
    uint8_t length;
    uint8_t bytes[17]; /* of each block NAD, PCB, LEN, information, LRC */
} received_run;

/* In the order of the packets' numbers, as wh_rebuild wants them. */
static const received_run received[] = {
    {2, 12, {0x00, 0x00, 0x08, 0x6E, 0x64, 0x20, 0x53, 0x57, 0x2C, 0x20, 0x31, 0x1B}},
    {3, 12, {0x00, 0x00, 0x08, 0x32, 0x20, 0x68, 0x61, 0x57, 0x6B, 0x73, 0x2C, 0x50}},
    {3, 12, {0x00, 0x00, 0x08, 0x32, 0x20, 0x68, 0x61, 0x77, 0x6B, 0x73, 0x2C, 0x50}},
    {5, 17, {0x00, 0x20, 0x08, 0x20, 0xF1, 0xAF, 0x15, 0x4E, 0x76, 0xD1, 0x21, 0x8B,
             0x00, 0x40, 0x01, 0x03, 0x42}},
    {6, 17, {0x00, 0x20, 0x08, 0xAC, 0x7A, 0x41, 0xFD, 0x07, 0x3C, 0x9C, 0xB3, 0x56,
             0x00, 0x40, 0x01, 0x1E, 0x5F}},
};

/* The packets at hand, one after another with no gaps, and their marks. */
static uint8_t packets[K * WH_LONGEST];
static size_t packets_length;
static uint64_t marks;

/* Every call gives a number. Where only WH_DONE will do, this ends the program on any other. */
static void must(uint64_t number, const char *call)
{
    if (number != WH_DONE) {
        say(call);
        say(" refused: ");
        say(wh_meaning(number));
        say("\n");
        leave(1);
    }
}

/* Takes a run's packet behind those that are there; a refused run leaves no trace. */
static void take(const received_run *run)
{
    wh_joined joined = wh_read_blocks(run->bytes, run->length, packets + packets_length,
                                      sizeof packets - packets_length);
    say("card ");
    say_number(run->card);
    say(": ");
    say(wh_meaning(joined.number));
    say_bytes(packets + packets_length, (size_t)joined.length);
    say("\n");
    if (joined.number == WH_DONE) {
        packets_length += (size_t)joined.length;
        marks |= (uint64_t)1 << (run->card - 1);
    }
}

int main(void)
{
    uint8_t table[M * K];
    char logbook[K * L + 1] = {0}; /* a 0 at the end, to be said */

    for (size_t i = 0; i < sizeof received / sizeof received[0]; i++) {
        take(&received[i]);
    }
    must(wh_family_table(K, M, WH_HOUSE, table, sizeof table), "wh_family_table");
    wh_rebuilt rebuilt = wh_rebuild(K, M, L, table, sizeof table, marks, packets, packets_length,
                                    (uint8_t *)logbook, K * L);
    must(rebuilt.number, "wh_rebuild");
    say("rebuild: done, steps ");
    say_number(rebuilt.count);
    say("\n");
    say(logbook);
    say("\n");
    return 0;
}
