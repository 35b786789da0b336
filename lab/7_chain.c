/* Lesson 7: a packet that comes as a run of blocks.
 *
 * A card's block carries 32 bytes by default, so the longest parity, 64 bytes, comes as two. PCB,
 * the second byte of a block, says where the block belongs: N(S) is 0 in the first, then 1 and 0 in
 * turn; M is 1 as long as more is to come. wh_read_blocks takes a run whole or not at all: refused,
 * it has written nothing, however many of the blocks were sound. */
#include "show.h"

#include <string.h>

enum { SIZE = 32, BLOCK = SIZE + 4, BLOCKS = 2 };

static uint8_t parity[WH_LONGEST];
static uint8_t blocks[BLOCKS * BLOCK]; /* what the card makes of it */

/* The parity of two sources, the second of them shifted up as far as can be. */
static void encode(void)
{
    const uint8_t table[2] = {0, WH_MAX_SHIFT};
    uint8_t sources[2 * WH_MAX_LENGTH];
    for (size_t i = 0; i < sizeof sources; i++) {
        sources[i] = (uint8_t)(i * i + 11);
    }
    must(wh_encode_all(2, 1, WH_MAX_LENGTH, table, sizeof table, sources, sizeof sources, parity,
                       sizeof parity),
         "wh_encode_all");
}

static void cut(void)
{
    wh_written written = wh_write_blocks(parity, sizeof parity, SIZE, blocks, sizeof blocks);
    must(written.number, "wh_write_blocks");
    printf("A parity of %zu bytes as %" PRIu64 " blocks of %d, 4 bytes around each: %" PRIu64
           " bytes.\n",
           sizeof parity, written.length / BLOCK, SIZE, written.length);
}

static void show_block(const uint8_t *block)
{
    printf("  ");
    print_bytes(block, 8);
    printf(" ... %02X   N(S) %d, M %d\n", block[BLOCK - 1], block[1] >> 6 & 1, block[1] >> 5 & 1);
}

/* Reads a run of these blocks, in this order: '1' is the first that was written, '2' the second. */
static void read_run(const char *what, const char *order)
{
    uint8_t run[(BLOCKS + 1) * BLOCK], packet[WH_LONGEST];
    size_t length = 0;
    printf("\n%s\n", what);
    for (size_t i = 0; order[i] != '\0'; i++) {
        memcpy(run + length, blocks + (order[i] - '1') * BLOCK, BLOCK);
        show_block(run + length);
        length += BLOCK;
    }
    wh_joined joined = wh_read_blocks(run, length, packet, sizeof packet);
    if (joined.number != WH_DONE) {
        printf("  refused, %" PRIu64 ": %s\n", joined.number, wh_meaning(joined.number));
    } else if (joined.length != sizeof parity || memcmp(packet, parity, sizeof parity) != 0) {
        printf("  taken, and NOT the parity\n");
    } else {
        printf("  taken: the parity, %" PRIu64 " bytes\n", joined.length);
    }
}

int main(void)
{
    encode();
    cut();
    read_run("as they were written", "12");
    read_run("exchanged", "21");
    read_run("the last one lost", "1");
    read_run("one too many", "121");
    blocks[BLOCK + 4] ^= 1;
    read_run("a bit turned in the second", "12");
    return 0;
}
