/* Runs of blocks: read from a card reader, and written. */
#include "calls_chain.h"
#include "check.h"
#include "random.h"

#include <inttypes.h>
#include <string.h>

enum { NAD, PCB, LEN };

/* ---- Every run of something ------------------------------------------------------------------ */

/* Every run of this length whose bytes are from a telling set. */
static void compare_every_run(size_t length)
{
    static const uint8_t telling[] = {0x00, 0x20, 0x40, 0x60, 0x01};
    uint64_t choices = 1;
    question q = {0};
    q.input.length = length;
    for (size_t i = 0; i < length; i++) {
        choices *= sizeof telling;
    }
    for (uint64_t choice = 0; choice < choices; choice++) {
        uint64_t left = choice;
        for (size_t i = 0; i < length; i++, left /= sizeof telling) {
            q.input.at[i] = telling[left % sizeof telling];
        }
        set_bytes(&q.output, choice % 3);
        compare(&read_blocks_call, &q);
    }
}

static void every_short_run(void)
{
    for (size_t length = 0; length <= 9; length++) {
        compare_every_run(length);
    }
}

/* A block with these bytes in front, so many of information, and these bits of its LRC wrong. */
typedef struct {
    uint8_t front[LEN + 1];
    uint8_t information, wrong;
} kind;

static const kind kinds[] = {
    {{0, 0x00, 0}, 0, 0}, {{0, 0x20, 0}, 0, 0},   {{0, 0x40, 0}, 0, 0}, {{0, 0x60, 0}, 0, 0},
    {{0, 0x00, 1}, 1, 0}, {{0, 0x20, 1}, 1, 0},   {{0, 0x40, 1}, 1, 0}, {{0, 0x60, 1}, 1, 0},
    {{1, 0x20, 0}, 0, 0}, {{0, 0x80, 0}, 0, 0},   {{0, 0xE0, 1}, 1, 0}, {{0, 0x21, 0}, 0, 0},
    {{0, 0x20, 0}, 0, 1}, {{0, 0x20, 255}, 1, 0}, {{0, 0x20, 2}, 1, 0}, {{0, 0x60, 1}, 1, 0x80},
};

enum { KINDS = sizeof kinds / sizeof kinds[0] };

static void add_kind(bytes *run, const kind *added)
{
    uint8_t information[1] = {0x5A}, *block = run->at + run->length;
    add_block(run, 0, information, added->information);
    uint8_t *lrc = run->at + run->length - 1;
    for (size_t i = NAD; i <= LEN; i++) {
        *lrc ^= (uint8_t)(block[i] ^ added->front[i]);
        block[i] = added->front[i];
    }
    *lrc ^= added->wrong;
}

/* Every run of so many blocks of these kinds, with none to four bytes after them. */
static void compare_every_run_of_kinds(size_t count)
{
    uint64_t choices = 1;
    for (size_t i = 0; i < count; i++) {
        choices *= KINDS;
    }
    for (uint64_t choice = 0; choice < choices; choice++) {
        question q = {0};
        uint64_t left = choice;
        for (size_t i = 0; i < count; i++, left /= KINDS) {
            add_kind(&q.input, &kinds[left % KINDS]);
        }
        for (size_t after = 0; after <= 4; after++, q.input.length++) {
            for (size_t room = 0; room <= count; room++) {
                set_bytes(&q.output, room);
                compare(&read_blocks_call, &q);
            }
        }
    }
}

static void every_run_of_telling_blocks(void)
{
    for (size_t count = 1; count <= 3; count++) {
        compare_every_run_of_kinds(count);
    }
}

/* ---- Each number in each block --------------------------------------------------------------- */

enum { BLOCKS = 3, INFORMATION = 2 + 3 + 1 };

/* A good run of three blocks, and where each starts and the last ends. */
static question three_blocks(size_t starts[BLOCKS + 1])
{
    static const size_t lengths[BLOCKS] = {2, 3, 1};
    bytes information;
    question q = {0};
    for (size_t i = 0; i < BLOCKS; i++) {
        starts[i] = q.input.length;
        set_bytes(&information, lengths[i]);
        add_block(&q.input, pcb_with(i % 2, i + 1 < BLOCKS), information.at, lengths[i]);
    }
    starts[BLOCKS] = q.input.length;
    return q;
}

/* Refused with this number into any destination: whether there is room is looked at last. */
static void expect_refused(question *q, uint64_t number)
{
    for (size_t room = 0; room <= INFORMATION + 1; room++) {
        set_bytes(&q->output, room);
        expect_number(compare(&read_blocks_call, q).number, number);
    }
}

/* The run with some bits of a byte of a block turned over, and some of its LRC. */
static void expect_turned(size_t block, size_t place, unsigned bits, unsigned lrc_bits,
                          uint64_t number)
{
    size_t starts[BLOCKS + 1];
    question q = three_blocks(starts);
    q.input.at[starts[block] + place] ^= (uint8_t)bits;
    q.input.at[starts[block + 1] - 1] ^= (uint8_t)lrc_bits;
    expect_refused(&q, number);
}

static void numbers_of_a_block(void)
{
    for (size_t block = 0; block < BLOCKS; block++) {
        expect_turned(block, NAD, 0, 0x10, WH_BLOCK_SUM);
        expect_turned(block, NAD, 0x10, 0, WH_BLOCK_SUM);
        expect_turned(block, PCB, 0x60, 0, WH_BLOCK_SUM);
        expect_turned(block, NAD, 0x10, 0x10, WH_BLOCK_HEADER);
        for (unsigned bit = 1; bit < 256; bit *= 2) {
            bool other = bit != 0x40 && bit != 0x20;
            uint64_t number = bit == 0x40 ? WH_BLOCK_TURN : WH_BLOCK_END;
            expect_turned(block, PCB, bit, bit, other ? WH_BLOCK_HEADER : number);
        }
        expect_turned(block, PCB, 0x60, 0x60, WH_BLOCK_TURN);
        expect_turned(block, PCB, 0xE0, 0xE0, WH_BLOCK_HEADER);
    }
}

/* With an LRC that is right, so that only these two bytes decide. */
static void every_nad_and_pcb_in_each_block(void)
{
    for (size_t block = 0; block < BLOCKS; block++) {
        size_t starts[BLOCKS + 1];
        question q = three_blocks(starts);
        uint8_t *front = q.input.at + starts[block];
        uint8_t *lrc = q.input.at + starts[block + 1] - 1;
        uint8_t others = (uint8_t)(*lrc ^ front[NAD] ^ front[PCB]);
        set_bytes(&q.output, INFORMATION);
        for (unsigned both = 0; both < 256 * 256; both++) {
            front[NAD] = (uint8_t)(both / 256);
            front[PCB] = (uint8_t)(both % 256);
            *lrc = (uint8_t)(others ^ front[NAD] ^ front[PCB]);
            compare(&read_blocks_call, &q);
        }
    }
}

/* As many bytes as LEN 255 would have, and one fewer and more, their XOR 0. */
static void len_255_with_its_bytes(void)
{
    for (size_t before = 0; before < 2; before++) {
        for (size_t length = 255 + BLOCK_FRAME - 1; length <= 255 + BLOCK_FRAME + 1; length++) {
            question q = {0};
            bytes none = {0};
            add_block(&q.input, pcb_with(0, 1), none.at, 3 * before);
            size_t start = before == 0 ? 0 : q.input.length;
            q.input.length = start + length;
            memset(q.input.at + start, 0, length);
            q.input.at[start + PCB] = pcb_with(before, 0);
            q.input.at[start + LEN] = 255;
            q.input.at[start + 254 + BLOCK_FRAME] = (uint8_t)(pcb_with(before, 0) ^ 255);
            expect_refused(&q, WH_BLOCK_RESERVED);
        }
    }
}

static void len_255_in_each_block(void)
{
    for (size_t block = 0; block < BLOCKS; block++) {
        size_t starts[BLOCKS + 1];
        question q = three_blocks(starts);
        q.input.at[starts[block] + LEN] = 255;
        expect_refused(&q, WH_BLOCK_RESERVED);
        q.input.length = starts[block] + BLOCK_FRAME;
        expect_refused(&q, WH_BLOCK_RESERVED);
    }
}

/* The number of a run that is cut off so many bytes into a block, before the block's end. */
static uint64_t cut_number(size_t block, size_t into)
{
    if (into == 0 && block > 0) {
        return WH_BLOCK_END;
    }
    return into < BLOCK_FRAME ? WH_BLOCK_SHORT : WH_BLOCK_LENGTH;
}

static void cut_off_anywhere(void)
{
    size_t starts[BLOCKS + 1];
    question q = three_blocks(starts);
    for (size_t block = 0; block < BLOCKS; block++) {
        for (size_t at = starts[block]; at < starts[block + 1]; at++) {
            q.input.length = at;
            expect_refused(&q, cut_number(block, at - starts[block]));
        }
    }
}

/* Any bytes after a block without M, be it one, or a good run. */
static void bytes_after_the_end(void)
{
    static const uint8_t telling[] = {0x00, 0x20, 0x40, 0x60, 0xFF};
    size_t starts[BLOCKS + 1];
    question good = three_blocks(starts);
    for (size_t after = 1; after <= 2 * BLOCK_FRAME; after++) {
        for (size_t i = 0; i < sizeof telling; i++) {
            question q = good;
            memset(q.input.at + q.input.length, telling[i], after);
            q.input.length += after;
            expect_refused(&q, WH_BLOCK_END);
        }
    }
    memcpy(good.input.at + good.input.length, good.input.at, good.input.length);
    good.input.length *= 2;
    expect_refused(&good, WH_BLOCK_END);
}

static void room_for_the_joined_bytes(void)
{
    size_t starts[BLOCKS + 1];
    question q = three_blocks(starts);
    for (size_t room = 0; room <= INFORMATION + 3; room++) {
        set_bytes(&q.output, room);
        uint64_t right = room < INFORMATION ? WH_ROOM : WH_DONE;
        expect_number(compare(&read_blocks_call, &q).number, right);
    }
}

/* ---- Runs of any length ---------------------------------------------------------------------- */

enum { RUN_MOST = 350000, JOINED_MOST = 80000 };

typedef struct {
    size_t length, joined_length, last; /* of all blocks; of their information; where the last is */
    uint8_t at[RUN_MOST], joined[JOINED_MOST];
} long_run;

static void make_long_run(long_run *run, size_t blocks, size_t information)
{
    run->length = run->joined_length = 0;
    for (size_t i = 0; i < blocks; i++) {
        uint8_t *joined = run->joined + run->joined_length;
        bytes block;
        block.length = 0;
        random_bytes(joined, information);
        add_block(&block, pcb_with(i % 2, i + 1 < blocks), joined, information);
        run->last = run->length;
        memcpy(run->at + run->length, block.at, block.length);
        run->length += block.length;
        run->joined_length += information;
    }
}

static void expect_read(const long_run *run, size_t room, uint64_t number)
{
    static uint8_t dest[JOINED_MOST], right[JOINED_MOST];
    memset(dest, 0xAA, sizeof dest);
    memset(right, 0xAA, sizeof right);
    bool done = number == WH_DONE;
    memcpy(right, run->joined, done ? run->joined_length : 0);
    wh_joined read = wh_read_blocks(run->at, run->length, dest, room);
    expect_number(read.number, number);
    if (read.length != (done ? run->joined_length : 0) || memcmp(dest, right, sizeof dest) != 0) {
        fail("a run of %zu bytes is read otherwise", run->length);
    }
}

/* Read into a destination that is exact, longer, one byte short; then with its last block spoiled,
 * in each way that it can be. */
static void expect_long_run(size_t blocks, size_t information)
{
    static long_run run;
    make_long_run(&run, blocks, information);
    expect_read(&run, run.joined_length, WH_DONE);
    expect_read(&run, JOINED_MOST, WH_DONE);
    if (run.joined_length > 0) {
        expect_read(&run, run.joined_length - 1, WH_ROOM);
    }
    for (size_t place = NAD; place <= PCB; place++) {
        run.at[run.last + place] ^= 0x01;
        expect_read(&run, JOINED_MOST, WH_BLOCK_SUM);
        run.at[run.length - 1] ^= 0x01;
        expect_read(&run, JOINED_MOST, WH_BLOCK_HEADER);
        run.at[run.last + place] ^= 0x01;
        run.at[run.length - 1] ^= 0x01;
    }
    run.at[run.length - 1] ^= 0x40;
    expect_read(&run, JOINED_MOST, WH_BLOCK_SUM);
    run.at[run.last + PCB] ^= 0x40;
    expect_read(&run, JOINED_MOST, WH_BLOCK_TURN);
    run.length = run.last;
    expect_read(&run, JOINED_MOST, WH_BLOCK_END);
}

static void runs_of_any_length(void)
{
    expect_long_run(2, WH_MAX_INFORMATION);
    expect_long_run(4, 3);
    expect_long_run(5, 3);
    expect_long_run(256, 1);
    expect_long_run(257, 1);
    expect_long_run(300, WH_MAX_INFORMATION);
    expect_long_run(70000, 0);
    expect_long_run(70000, 1);
}

/* ---- Written --------------------------------------------------------------------------------- */

static void every_size_and_length_written_and_read(void)
{
    for (uint64_t size = 1; size <= WH_MAX_INFORMATION; size++) {
        for (uint64_t length = 0; length <= WH_LONGEST; length++) {
            compare_written_and_read(length, size);
        }
    }
}

/* Into more room than 16 bits can count: what is behind the blocks stays. */
static void written_into_much_room(void)
{
    static uint8_t dest[(1 << 16) + 8];
    static const uint8_t packet[2] = {0xAA, 0x55}, blocks[6] = {0x00, 0x00, 0x02, 0xAA, 0x55, 0xFD};
    for (uint64_t room = 1 << 16; room <= sizeof dest; room++) {
        memset(dest, 0xCC, sizeof dest);
        wh_written written = wh_write_blocks(packet, 2, 32, dest, room);
        expect_number(written.number, WH_DONE);
        if (written.length != 6 || memcmp(dest, blocks, 6) != 0) {
            fail("written otherwise into %" PRIu64 " bytes", room);
        }
        for (size_t i = 6; i < sizeof dest; i++) {
            if (dest[i] != 0xCC) {
                fail("byte %zu of %" PRIu64 " is changed", i, room);
                break;
            }
        }
    }
}

/* The writer refuses in this order: the size, the packet, the room. */
static void expect_written(uint64_t length, uint64_t size, uint64_t room, uint64_t number)
{
    question q = {0};
    q.size = size;
    set_bytes(&q.input, length);
    set_bytes(&q.output, room);
    expect_number(compare(&write_blocks_call, &q).number, number);
}

static void sizes_outside(void)
{
    static const uint64_t sizes[] = {
        0,          WH_MAX_INFORMATION + 1,           WH_MAX_INFORMATION + 2,    256 + 32,
        65536 + 32, ((uint64_t)1 << 32) + 32, (uint64_t)1 << 63, UINT64_MAX};
    for (size_t i = 0; i < sizeof sizes / sizeof sizes[0]; i++) {
        for (uint64_t length = 0; length <= BYTES_MOST; length++) {
            expect_written(length, sizes[i], BYTES_MOST, WH_CUT);
            expect_written(length, sizes[i], length % 4, WH_CUT);
        }
    }
}

static void packets_too_long(void)
{
    for (uint64_t size = 1; size <= WH_MAX_INFORMATION; size++) {
        for (uint64_t length = WH_LONGEST + 1; length <= WH_LONGEST + 3; length++) {
            expect_written(length, size, BYTES_MOST, WH_INPUT);
            expect_written(length, size, 0, WH_INPUT);
        }
        expect_written(256 + 64, size, BYTES_MOST, WH_INPUT);
    }
}

static void no_room_for_an_empty_packet(void)
{
    for (uint64_t room = 0; room <= BLOCK_FRAME; room++) {
        expect_written(0, 32, room, room < BLOCK_FRAME ? WH_ROOM : WH_DONE);
    }
}

/* ---- Any questions --------------------------------------------------------------------------- */

static void drawn_runs(void)
{
    question q;
    for (int i = 0; i < 3000; i++) {
        draw_for_read_blocks(&q);
        compare(&read_blocks_call, &q);
        compare_into_outputs(&read_blocks_call, &q, q.output.length);
    }
}

static void take_any_numbers(void)
{
    compare_any_numbers(&read_blocks_call, 20);
    compare_any_numbers(&write_blocks_call, 20);
}

static void spoiled(void)
{
    compare_spoiled(&read_blocks_call, 10000);
    compare_spoiled(&write_blocks_call, 10000);
}

static void slots_are_set_when_refused(void)
{
    const uint8_t block[4] = {0, 0x20, 0, 0x20};
    uint8_t dest[1] = {0};
    uint64_t read = 77, written = 77;
    expect_number(whx_read_blocks(block, 4, dest, 1, &read), WH_BLOCK_END);
    expect_number(whx_write_blocks(block, 4, 0, dest, 1, &written), WH_CUT);
    expect_zeros(&read, 1);
    expect_zeros(&written, 1);
}

int main(void)
{
    static const named_test tests[] = {
        {"chain_every_short_run", every_short_run},
        {"chain_every_run_of_telling_blocks", every_run_of_telling_blocks},
        {"chain_numbers_of_a_block_in_each_block", numbers_of_a_block},
        {"chain_every_nad_and_pcb_in_each_block", every_nad_and_pcb_in_each_block},
        {"chain_len_255_in_each_block", len_255_in_each_block},
        {"chain_len_255_with_its_bytes", len_255_with_its_bytes},
        {"chain_cut_off_anywhere", cut_off_anywhere},
        {"chain_bytes_after_the_end", bytes_after_the_end},
        {"chain_room_for_the_joined_bytes", room_for_the_joined_bytes},
        {"chain_runs_of_any_length", runs_of_any_length},
        {"chain_every_size_and_length_written_and_read", every_size_and_length_written_and_read},
        {"chain_written_into_much_room", written_into_much_room},
        {"chain_sizes_outside", sizes_outside},
        {"chain_packets_too_long", packets_too_long},
        {"chain_no_room_for_an_empty_packet", no_room_for_an_empty_packet},
        {"chain_drawn_runs", drawn_runs},
        {"chain_takes_any_numbers", take_any_numbers},
        {"chain_spoiled", spoiled},
        {"chain_slots_are_set_when_refused", slots_are_set_when_refused},
    };
    return run_named_tests(tests, sizeof tests / sizeof tests[0]);
}
