/* Worked examples of runs of blocks,
 * and inputs that tell known wrong programs from right ones. */
#include "calls_chain.h"
#include "check.h"
#include "example.h"

#include <string.h>

static question run(const char *hex)
{
    question none = {0};
    return with_input(none, hex);
}

static question packet(const char *hex, uint64_t size)
{
    question q = run(hex);
    q.size = size;
    return q;
}

static void reads(const char *blocks, uint64_t length, const char *dest)
{
    gives(&read_blocks_call, run(blocks), done_with(length), dest);
}

static void does_not_read(const char *blocks, uint64_t number, size_t room)
{
    refuses(&read_blocks_call, run(blocks), refused(number), room);
}

static void run_of_01_02_03(void)
{
    reads("00 20 02 01 02 21 00 40 01 03 42", 3, "01 02 03");
    gives(&write_blocks_call, packet("01 02 03", 2), done_with(11),
          "00 20 02 01 02 21 00 40 01 03 42");
}

static void run_of_AA_55(void)
{
    gives(&write_blocks_call, packet("AA 55", 1), done_with(10), "00 20 01 AA 8B 00 40 01 55 14");
    reads("00 20 01 AA 8B 00 40 01 55 14", 2, "AA 55");
}

/* A third block has N(S) 0 again. */
static void run_of_three(void)
{
    gives(&write_blocks_call, packet("01 02 03", 1), done_with(15),
          "00 20 01 01 20 00 60 01 02 63 00 00 01 03 02");
    reads("00 20 01 01 20 00 60 01 02 63 00 00 01 03 02", 3, "01 02 03");
}

static void run_of_one(void)
{
    reads("00 00 02 AA 55 FD", 2, "AA 55");
    gives(&write_blocks_call, packet("AA 55", 2), done_with(6), "00 00 02 AA 55 FD");
    gives(&write_blocks_call, packet("AA 55", 254), done_with(6), "00 00 02 AA 55 FD");
}

static void run_keeps_the_tail(void)
{
    reads("00 20 02 01 02 21 00 40 01 03 42", 3, "01 02 03 AA AA");
    gives(&write_blocks_call, packet("55", 1), done_with(5), "00 00 01 55 54 AA");
}

static void run_of_no_bytes(void)
{
    gives(&write_blocks_call, packet("", 32), done_with(4), "00 00 00 00");
    reads("00 00 00 00", 0, "");
    reads("00 00 00 00", 0, "AA AA");
}

/* LEN 0 with M is taken, though no card would send it. */
static void run_with_blocks_of_no_bytes(void)
{
    reads("00 20 00 20 00 40 00 40", 0, "");
    reads("00 20 00 20 00 60 01 07 66 00 20 00 20 00 40 00 40", 1, "07");
}

static void run_of_nothing_is_11(void)
{
    does_not_read("", WH_BLOCK_SHORT, 4);
}

static void run_that_ends_with_more_is_21(void)
{
    does_not_read("00 20 02 01 02 21", WH_BLOCK_END, 4);
}

/* Not 11, however few they are. */
static void run_with_bytes_after_its_end_is_21(void)
{
    does_not_read("00 00 00 00 00", WH_BLOCK_END, 4);
    does_not_read("00 00 00 00 00 40", WH_BLOCK_END, 4);
    does_not_read("00 00 00 00 00 40 00", WH_BLOCK_END, 4);
    does_not_read("00 00 00 00 00 40 00 40", WH_BLOCK_END, 4);
}

static void run_with_bytes_before_its_end_is_11(void)
{
    does_not_read("00 20 00 20 00", WH_BLOCK_SHORT, 4);
    does_not_read("00 20 00 20 00 40 FF", WH_BLOCK_SHORT, 4);
}

static void run_out_of_turn_is_20(void)
{
    does_not_read("00 40 01 03 42", WH_BLOCK_TURN, 4);
    does_not_read("00 20 01 AA 8B 00 00 01 55 54", WH_BLOCK_TURN, 4);
    does_not_read("00 40 01 03 42 00 20 02 01 02 21", WH_BLOCK_TURN, 4); /* exchanged */
}

/* In a run a block may be shorter than what is left, and has an LRC of its own. */
static void run_has_its_blocks_checked_alone(void)
{
    does_not_read("00 20 02 01 02 21 00 40 02 03 42", WH_BLOCK_LENGTH, 4);
    does_not_read("00 20 02 01 02 20 00 40 01 03 43", WH_BLOCK_SUM, 4);
    does_not_read("00 20 02 01 02 21 00 40 01 03 43", WH_BLOCK_SUM, 4);
}

/* Each has what the next number refuses too. */
static void run_numbers_in_order(void)
{
    does_not_read("00 20 00 20 01 C0 FF", WH_BLOCK_SHORT, 0);
    does_not_read("00 20 00 20 01 C0 FF 00", WH_BLOCK_RESERVED, 0);
    does_not_read("00 20 00 20 01 C0 01 00", WH_BLOCK_LENGTH, 0);
    does_not_read("00 20 00 20 01 A0 00 00", WH_BLOCK_SUM, 0);
    does_not_read("00 20 00 20 00 A0 00 A0", WH_BLOCK_HEADER, 0);
    does_not_read("00 20 00 20 00 20 00 20", WH_BLOCK_TURN, 0);
    does_not_read("00 20 01 07 26 00 60 00 60", WH_BLOCK_END, 0);
    does_not_read("00 20 01 07 26 00 40 00 40", WH_ROOM, 0);
}

/* The first block that is refused decides, whatever is wrong with those after it. */
static void run_blocks_in_order(void)
{
    does_not_read("00 40 00 40 00 00 FF", WH_BLOCK_TURN, 0);
    does_not_read("00 00 01 07 06 00 00 FF 00", WH_BLOCK_END, 0);
    does_not_read("00 20 01 07 26 00 00 FF 00", WH_BLOCK_RESERVED, 0);
}

static void run_joined_into_too_few_is_16(void)
{
    does_not_read("00 20 02 01 02 21 00 40 01 03 42", WH_ROOM, 2);
}

/* 64 bytes at 32 are two blocks, and no empty third. */
static void writer_cuts_64_at_32(void)
{
    char blocks[3 * 72 + 1] = "00 20 20 ";
    question q = packet("", 32);
    memset(q.input.at, 0, q.input.length = 64);
    for (int i = 0; i < 64; i++) {
        strcat(blocks, i == 32 ? "00 00 40 20 00 " : "00 ");
    }
    strcat(blocks, "60");
    gives(&write_blocks_call, q, done_with(72), blocks);
    refuses(&write_blocks_call, q, refused(WH_ROOM), 71);
}

static void writer_numbers_in_order(void)
{
    question q = packet("", 0);
    q.input.length = WH_LONGEST + 1;
    refuses(&write_blocks_call, q, refused(WH_CUT), 0);
    q.size = 255;
    refuses(&write_blocks_call, q, refused(WH_CUT), 0);
    q.size = 254;
    refuses(&write_blocks_call, q, refused(WH_INPUT), 0);
    q.input.length = WH_LONGEST;
    refuses(&write_blocks_call, q, refused(WH_ROOM), WH_LONGEST + 3);
}

int main(void)
{
    static const named_test tests[] = {
        {"example_run_of_01_02_03", run_of_01_02_03},
        {"example_run_of_AA_55", run_of_AA_55},
        {"example_run_of_three", run_of_three},
        {"example_run_of_one", run_of_one},
        {"example_run_keeps_the_tail", run_keeps_the_tail},
        {"example_run_of_no_bytes", run_of_no_bytes},
        {"example_run_with_blocks_of_no_bytes", run_with_blocks_of_no_bytes},
        {"example_run_of_nothing_is_11", run_of_nothing_is_11},
        {"example_run_that_ends_with_more_is_21", run_that_ends_with_more_is_21},
        {"example_run_with_bytes_after_its_end_is_21", run_with_bytes_after_its_end_is_21},
        {"example_run_with_bytes_before_its_end_is_11", run_with_bytes_before_its_end_is_11},
        {"example_run_out_of_turn_is_20", run_out_of_turn_is_20},
        {"example_run_has_its_blocks_checked_alone", run_has_its_blocks_checked_alone},
        {"example_run_numbers_in_order", run_numbers_in_order},
        {"example_run_blocks_in_order", run_blocks_in_order},
        {"example_run_joined_into_too_few_is_16", run_joined_into_too_few_is_16},
        {"example_writer_cuts_64_at_32", writer_cuts_64_at_32},
        {"example_writer_numbers_in_order", writer_numbers_in_order},
    };
    return run_named_tests(tests, sizeof tests / sizeof tests[0]);
}
