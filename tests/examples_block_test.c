/* Worked examples of blocks,
 * and inputs that tell known wrong programs from right ones. */
#include "calls_block.h"
#include "check.h"
#include "example.h"

#include <string.h>

static question block(const char *hex)
{
    question none = {0};
    return with_input(none, hex);
}

static answer taken(uint64_t length, uint64_t sequence, uint64_t more)
{
    answer given = done_with(length);
    given.results[1] = sequence;
    given.results[2] = more;
    return given;
}

static void block_AA_55(void)
{
    gives(&block_call, block("00 00 02 AA 55 FD"), taken(2, 0, 0), "AA 55");
    gives(&block_call, block("00 40 02 AA 55 BD"), taken(2, 1, 0), "AA 55");
}

/* The first of two, and the second of three: no whole packets. */
static void block_with_more_to_come(void)
{
    gives(&block_call, block("00 20 02 01 02 21"), taken(2, 0, 1), "01 02");
    gives(&block_call, block("00 60 02 AA 55 9D"), taken(2, 1, 1), "AA 55");
    gives(&block_call, block("00 20 00 20"), taken(0, 0, 1), "");
}

static void block_refused_has_no_sequence_and_no_more(void)
{
    refuses(&block_call, block("00 60 02 AA 55 9D"), refused(WH_ROOM), 1);
    refuses(&block_call, block("00 60 02 AA 55 9C"), refused(WH_BLOCK_SUM), 2);
}

static void block_keeps_the_tail(void)
{
    gives(&block_call, block("00 00 02 12 34 24"), taken(2, 0, 0), "12 34 AA AA");
}

static void block_of_no_bytes(void)
{
    gives(&block_call, block("00 00 00 00"), taken(0, 0, 0), "");
    gives(&block_call, block("00 00 00 00"), taken(0, 0, 0), "AA AA AA");
}

static void block_len_FF_is_12(void)
{
    refuses(&block_call, block("00 00 FF 00"), refused(WH_BLOCK_RESERVED), 64);
    refuses(&block_call, block("21 80 FF 00 00 00 07"), refused(WH_BLOCK_RESERVED), 0);
}

static void block_len_65_into_64_is_16(void)
{
    question q = block("00 00 41");
    memset(q.input.at + 3, 0, 65);
    q.input.at[68] = 0x41;
    q.input.length = 69;
    refuses(&block_call, q, refused(WH_ROOM), 64);
}

static void block_numbers_in_order(void)
{
    refuses(&block_call, block("01 01 FF"), refused(WH_BLOCK_SHORT), 0);
    refuses(&block_call, block("01 01 02 00"), refused(WH_BLOCK_LENGTH), 0);
    refuses(&block_call, block("01 01 00 01"), refused(WH_BLOCK_SUM), 0);
    refuses(&block_call, block("01 00 01 00 00"), refused(WH_BLOCK_HEADER), 0);
    refuses(&block_call, block("00 00 01 00 01"), refused(WH_ROOM), 0);
}

static void block_r_and_s_are_15(void)
{
    refuses(&block_call, block("00 80 00 80"), refused(WH_BLOCK_HEADER), 4);
    refuses(&block_call, block("00 C0 00 C0"), refused(WH_BLOCK_HEADER), 4);
    refuses(&block_call, block("00 10 00 10"), refused(WH_BLOCK_HEADER), 4);
}

int main(void)
{
    static const named_test tests[] = {
        {"example_block_AA_55", block_AA_55},
        {"example_block_with_more_to_come", block_with_more_to_come},
        {"example_block_refused_has_no_sequence_and_no_more",
         block_refused_has_no_sequence_and_no_more},
        {"example_block_keeps_the_tail", block_keeps_the_tail},
        {"example_block_of_no_bytes", block_of_no_bytes},
        {"example_block_len_FF_is_12", block_len_FF_is_12},
        {"example_block_len_65_into_64_is_16", block_len_65_into_64_is_16},
        {"example_block_numbers_in_order", block_numbers_in_order},
        {"example_block_r_and_s_are_15", block_r_and_s_are_15},
    };
    return run_named_tests(tests, sizeof tests / sizeof tests[0]);
}
