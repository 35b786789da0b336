/* One block from a card reader. */
#include "calls_block.h"
#include "check.h"
#include "random.h"

/* Every block of this length whose bytes are from a telling set. */
static void compare_every_block(size_t length)
{
    static const uint8_t telling[] = {0x00, 0x01, 0x20, 0x40, 0x60, 0x80, 0xFE, 0xFF};
    question q = {0};
    q.input.length = length;
    for (uint64_t choice = 0; choice < (uint64_t)1 << (3 * length); choice++) {
        for (size_t i = 0; i < length; i++) {
            q.input.at[i] = telling[choice >> (3 * i) & 7];
        }
        set_bytes(&q.output, choice % 4);
        compare(&block_call, &q);
    }
}

static void every_short_block(void)
{
    for (size_t length = 0; length <= 5; length++) {
        compare_every_block(length);
    }
}

static void set_lrc(question *q)
{
    uint8_t *lrc = &q->input.at[q->input.length - 1];
    *lrc = 0;
    for (size_t i = 0; i + 1 < q->input.length; i++) {
        *lrc ^= q->input.at[i];
    }
}

/* Every NAD and PCB, with an LRC that fits. */
static void every_nad_and_pcb(void)
{
    question q;
    draw_for_block(&q);
    q.output.length = WH_MAX_INFORMATION;
    for (int nad = 0; nad < 256; nad++) {
        for (int pcb = 0; pcb < 256; pcb++) {
            q.input.at[0] = (uint8_t)nad;
            q.input.at[1] = (uint8_t)pcb;
            set_lrc(&q);
            compare(&block_call, &q);
        }
    }
}

/* Every LEN with every length near what it says, LRC right. */
static void every_len(void)
{
    question q = {0};
    for (size_t len = 0; len < 256; len++) {
        for (size_t length = len + 2; length <= len + 6; length++) {
            set_bytes(&q.input, length);
            q.input.at[0] = 0;
            q.input.at[1] = pcb_with(len % 2, len / 2 % 2);
            q.input.at[2] = (uint8_t)len;
            set_lrc(&q);
            compare_into_outputs(&block_call, &q, len);
        }
    }
}

static void every_length_with_len_255(void)
{
    question q = {0};
    for (size_t length = 0; length <= 300; length++) {
        set_bytes(&q.input, length);
        q.input.at[0] = q.input.at[1] = 0;
        q.input.at[2] = 0xFF;
        compare_into_outputs(&block_call, &q, 255);
    }
}

/* A good block with one byte changed, every byte to every value. */
static void every_single_byte_changed(void)
{
    question drawn;
    for (int i = 0; i < 4; i++) {
        draw_for_block(&drawn);
        drawn.output.length = WH_MAX_INFORMATION;
        for (size_t at = 0; at < drawn.input.length; at++) {
            for (int value = 0; value < 256; value++) {
                question q = drawn;
                q.input.at[at] = (uint8_t)value;
                compare(&block_call, &q);
            }
        }
    }
}

static void good_blocks(void)
{
    question q;
    for (int i = 0; i < 3000; i++) {
        draw_for_block(&q);
        compare(&block_call, &q);
        compare_into_outputs(&block_call, &q, q.input.length - 4);
    }
}

static void random_blocks(void)
{
    question q = {0};
    for (int i = 0; i < 20000; i++) {
        set_bytes(&q.input, random_below(BYTES_MOST + 1));
        if (i % 2 == 0) {
            q.input.at[2] = (uint8_t)(q.input.length - 4);
        }
        set_bytes(&q.output, random_below(300));
        compare(&block_call, &q);
    }
}

static void block_takes_any_lengths(void)
{
    compare_any_numbers(&block_call, 20);
}

static void block_spoiled(void)
{
    compare_spoiled(&block_call, 10000);
}

static void slots_are_set_when_refused(void)
{
    const uint8_t reserved[4] = {0, 0x60, 0xFF, 0}, no_room[5] = {0, 0x60, 1, 0, 0x61};
    uint8_t dest[1] = {0};
    uint64_t slots[3] = {77, 78, 79};
    expect_number(whx_block(reserved, 4, dest, 1, &slots[0], &slots[1], &slots[2]),
                  WH_BLOCK_RESERVED);
    expect_zeros(slots, 3);
    slots[0] = slots[1] = slots[2] = 77;
    expect_number(whx_block(no_room, 5, dest, 0, &slots[0], &slots[1], &slots[2]), WH_ROOM);
    expect_zeros(slots, 3);
}

int main(void)
{
    static const named_test tests[] = {
        {"block_every_short_block", every_short_block},
        {"block_every_nad_and_pcb", every_nad_and_pcb},
        {"block_every_len", every_len},
        {"block_every_length_with_len_255", every_length_with_len_255},
        {"block_every_single_byte_changed", every_single_byte_changed},
        {"block_good_blocks", good_blocks},
        {"block_random_blocks", random_blocks},
        {"block_takes_any_lengths", block_takes_any_lengths},
        {"block_spoiled", block_spoiled},
        {"block_slots_are_set_when_refused", slots_are_set_when_refused},
    };
    return run_named_tests(tests, sizeof tests / sizeof tests[0]);
}
