/* What is said of a buffer beside what it is: NULL with a length, and a length that would be right
 * if it were cut to 32 bits. Every call, every buffer. A board runs it too. */
#include "calls.h"
#include "check.h"

enum { QUESTIONS = 8 };

static void null_with_a_length(void)
{
    for (size_t i = 0; i < EVERY_CALL; i++) {
        compare_null(calls[i], QUESTIONS);
    }
}

static void too_long(void)
{
    for (size_t i = 0; i < EVERY_CALL; i++) {
        compare_too_long(calls[i], QUESTIONS);
    }
}

/* Right when cut: a table of four bytes, two sources of one byte, no steps where nothing is
 * missing, a log of two stripes with none missing, a block of four, a packet of four in blocks of
 * four. */
static void two_to_the_32_and_4(void)
{
    static const uint8_t table[4] = {0, 1, 0, 2}, sources[2] = {0x80, 0xC0}, block[4] = {0};
    static volatile uint64_t more = (uint64_t)1 << 32;
    uint8_t out[8];
    expect_number(wh_family_table(2, 2, WH_HOUSE, out, more + 4), WH_OUTPUT);
    expect_number(wh_judge(2, 2, table, more + 4).number, WH_TABLE);
    expect_number(wh_encode_all(2, 2, 1, table, 4, sources, more + 2, out, 4), WH_INPUT);
    expect_number(wh_encode_all(2, 2, 1, table, 4, sources, 2, out, more + 4), WH_OUTPUT);
    expect_number(wh_check_steps(2, 2, 1, table, 4, 3, block, more, sources, 0).number,
                  WH_STEPS_UNEQUAL);
    expect_number(wh_check_steps(2, 2, 1, table, 4, 3, block, 0, sources, more).number,
                  WH_STEPS_UNEQUAL);
    expect_number(wh_rebuild_log(2, 2, 1, table, 4, more + 2, 3, block, 4, out, 4).number,
                  WH_STRIPES);
    expect_number(wh_rebuild_log(2, 2, 1, table, 4, 2, 3, block, more + 4, out, 4).number,
                  WH_INPUT);
    expect_number(wh_rebuild_log(2, 2, 1, table, 4, 2, 3, block, 4, out, more + 4).number,
                  WH_OUTPUT);
    expect_number(wh_block(block, more + 4, out, 4).number, WH_BLOCK_LENGTH);
    expect_number(wh_read_blocks(block, more + 4, out, 4).number, WH_BLOCK_END);
    expect_number(wh_write_blocks(table, more + 4, 4, out, 8).number, WH_INPUT);
    expect_number(wh_write_blocks(table, 4, more + 4, out, 8).number, WH_CUT);
}

int main(void)
{
    static const named_test tests[] = {
        {"lengths_null_with_a_length", null_with_a_length},
        {"lengths_too_long_by_what_32_bits_lose", too_long},
        {"lengths_two_to_the_32_and_4", two_to_the_32_and_4},
    };
    return run_named_tests(tests, sizeof tests / sizeof tests[0]);
}
