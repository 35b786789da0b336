/* Lesson 2: take blocks from a card reader into a packet.
 *
 * A reader hands over whatever came from the card. The packet's four bytes have the shift table
 * right behind them, so a program that trusts the third byte of a block would write into it.
 *
 * Number 0 says that the block is sound, not that it is a packet. M is set while more is to come,
 * N(S) is 0 in a packet's first block: only a block with neither set can be a packet of its own.
 * Packets of several blocks are lesson 7. */
#include "show.h"

#include <string.h>

enum { PACKET = 4, BLOCK = 9 };

typedef struct {
    const char *what;
    size_t length;
    uint8_t bytes[BLOCK];
} handed_over;

/* NAD, PCB, LEN, information, LRC. */
static const handed_over reader[] = {
    {"a packet in one block", 8, {0x00, 0x00, 4, 0x4C, 0x4F, 0x47, 0x31, 0x71}},
    {"the first of two blocks", 8, {0x00, 0x20, 4, 0x4C, 0x4F, 0x47, 0x31, 0x51}},
    {"the last of two blocks", 8, {0x00, 0x40, 4, 0x4C, 0x4F, 0x47, 0x32, 0x32}},
    {"nothing but a start", 3, {0x00, 0x00, 4}},
    {"a length byte of 255", 8, {0x00, 0x00, 255, 0x4C, 0x4F, 0x47, 0x31, 0x8A}},
    {"a byte lost on the way", 7, {0x00, 0x00, 4, 0x4C, 0x4F, 0x47, 0x31}},
    {"a bit turned on the way", 8, {0x00, 0x00, 4, 0x4C, 0x4F, 0x46, 0x31, 0x71}},
    {"a receipt, an R-block", 4, {0x00, 0x80, 0, 0x80}},
    {"five bytes for four", 9, {0x00, 0x00, 5, 0x4C, 0x4F, 0x47, 0x31, 0x21, 0x51}},
    {"two bytes for four", 6, {0x00, 0x00, 2, 0x4C, 0x4F, 0x01}},
};

static const char *what_to_do(uint64_t number)
{
    switch (number) {
    case WH_BLOCK_SHORT:
    case WH_BLOCK_RESERVED:
    case WH_BLOCK_LENGTH:
    case WH_BLOCK_SUM:
        return "ask the card for the block again";
    case WH_BLOCK_HEADER: /* another kind of block */
        return "it carries no part of a packet";
    case WH_ROOM:
        return "this card belongs to longer sources";
    default:
        return "this number is new to the program";
    }
}

static void take(const handed_over *from, uint8_t *packet)
{
    wh_taken taken = wh_block(from->bytes, from->length, packet, PACKET);
    printf("\n%-24s ", from->what);
    print_bytes(from->bytes, from->length);
    if (taken.number != WH_DONE) {
        printf("\n  refused, %" PRIu64 ": %s\n  so: %s\n", taken.number, wh_meaning(taken.number),
               what_to_do(taken.number));
    } else if (taken.more != 0) {
        printf("\n  taken, but not a packet: M is set, more is to come (lesson 7)\n");
    } else if (taken.sequence != 0) {
        printf("\n  taken, but not a packet: N(S) is 1, a block came before it (lesson 7)\n");
    } else if (taken.length != PACKET) {
        printf("\n  taken, but %" PRIu64 " bytes are not a packet of %d\n", taken.length, PACKET);
    } else {
        printf("\n  taken: \"%.*s\"\n", PACKET, (const char *)packet);
    }
}

int main(void)
{
    struct {
        uint8_t packet[PACKET];
        uint8_t table[4]; /* right behind the packet */
    } desk;
    must(wh_family_table(2, 2, WH_HOUSE, desk.table, sizeof desk.table), "wh_family_table");
    for (size_t i = 0; i < sizeof reader / sizeof reader[0]; i++) {
        memset(desk.packet, 0, PACKET);
        take(&reader[i], desk.packet);
    }
    printf("\nThe shift table behind the packet is still ");
    print_bytes(desk.table, sizeof desk.table);
    printf(".\n");
    return 0;
}
