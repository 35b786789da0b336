/* Worked examples of rebuild and look,
 * and inputs that tell known wrong programs from right ones. */
#include "calls_rebuild.h"
#include "check.h"
#include "example.h"

static void rebuild_marks_12(void)
{
    question q = with_marks(example(), 12, "03 00 05 00");
    gives(&rebuild_call, q, done_with(16), "01 01");
}

static void rebuild_marks_9_counts_8(void)
{
    gives(&rebuild_call, with_marks(example(), 9, "01 05 00"), done_with(8), "01 01");
}

static void rebuild_marks_3_counts_0(void)
{
    gives(&rebuild_call, with_marks(example(), 3, "80 C0"), done_with(0), "80 C0");
}

static void rebuild_stray_one_is_9(void)
{
    refuses(&rebuild_call, with_marks(example(), 12, "03 00 05 04"), refused(WH_STRAY), 2);
}

static void rebuild_no_sources_is_10(void)
{
    refuses(&rebuild_call, with_marks(example(), 12, "03 00 05 01"), refused(WH_FOREIGN), 2);
}

static void rebuild_9_goes_by_the_row(void)
{
    refuses(&rebuild_call, with_marks(example(), 12, "00 02 00 00"), refused(WH_STRAY), 2);
}

static void rebuild_with_uneven_rows(void)
{
    question q = with_table(2, 2, "00 01 00 09");
    gives(&rebuild_call, with_marks(q, 12, "03 00 01 02 00"), done_with(16), "01 01");
    gives(&rebuild_call, with_marks(q, 12, "00 01 80 80 01"), done_with(16), "80 C0");
    gives(&rebuild_call, with_marks(q, 6, "C0 00 01"), done_with(8), "80 C0");
    gives(&rebuild_call, with_marks(q, 10, "C0 80 80 01"), done_with(8), "80 C0");
}

/* Bits 8 and 16 are the last of the two parities. */
static void rebuild_9_with_uneven_rows(void)
{
    question q = with_table(2, 2, "00 01 00 09");
    refuses(&rebuild_call, with_marks(q, 12, "00 02 00 00 00"), refused(WH_STRAY), 2);
    refuses(&rebuild_call, with_marks(q, 12, "00 00 00 00 02"), refused(WH_STRAY), 2);
    refuses(&rebuild_call, with_marks(q, 12, "00 01 00 00 00"), refused(WH_FOREIGN), 2);
    refuses(&rebuild_call, with_marks(q, 12, "00 00 00 00 01"), refused(WH_FOREIGN), 2);
}

/* Both parities as long as the longer one, or as the shorter. */
static void rebuild_of_one_length_for_all_is_4(void)
{
    question q = with_table(2, 2, "00 01 00 09");
    refuses(&rebuild_call, with_marks(q, 12, "03 00 00 01 02 00"), refused(WH_INPUT), 2);
    refuses(&rebuild_call, with_marks(q, 12, "03 00 01 02"), refused(WH_INPUT), 2);
    refuses(&rebuild_call, with_marks(q, 6, "C0 00 01 00"), refused(WH_INPUT), 2);
}

/* A row without a shift: its parity is as long as a source, and every one of its bits is a
 * source's. */
static void rebuild_9_never_in_a_row_of_noughts(void)
{
    question q = with_table(2, 2, "00 00 00 01");
    gives(&rebuild_call, with_marks(q, 5, "80 40"), done_with(8), "80 C0");
    refuses(&rebuild_call, with_marks(q, 5, "80 40 00"), refused(WH_INPUT), 2);
    gives(&rebuild_call, with_marks(q, 5, "00 FF"), done_with(8), "00 FF");
}

static void rebuild_bit_that_no_step_reads(void)
{
    refuses(&rebuild_call, with_marks(example(), 9, "01 04 00"), refused(WH_FOREIGN), 2);
}

static void rebuild_zeros_are_steps_too(void)
{
    question q = with_marks(example(), 12, "00 00 00 00");
    gives(&rebuild_call, q, done_with(16), "00 00");
}

static void rebuild_reads_at_the_shift(void)
{
    question q = with_marks(example(), 12, "00 01 80 03");
    gives(&rebuild_call, q, done_with(16), "80 C0");
}

static void rebuild_tie_is_8_after_7(void)
{
    question q = with_marks(with_table(2, 2, "00 07 00 07"), 12, "00 00 00 00");
    refuses(&rebuild_call, q, numbered(WH_STALL, 7), 2);
}

static void rebuild_stall_before_damage(void)
{
    question q = with_marks(with_table(2, 2, "00 07 00 07"), 12, "FF FF FF FF");
    refuses(&rebuild_call, q, numbered(WH_STALL, 7), 2);
}

static void rebuild_finished_source_covers_nothing(void)
{
    question q = with_marks(with_table(2, 2, "00 08 00 08"), 12, "12 34 12 34");
    gives(&rebuild_call, q, done_with(16), "12 34");
}

static void rebuild_three_rows_is_8_after_0(void)
{
    question q = with_input(with_table(3, 3, "00 00 05 00 05 00 05 00 00"), "00 00 00 00 00 00");
    lose_every_source(&q);
    refuses(&rebuild_call, q, refused(WH_STALL), 3);
}

static void rebuild_marks_before_lengths(void)
{
    refuses(&rebuild_call, with_marks(example(), 15, "00"), refused(WH_MARKS), 9);
    refuses(&rebuild_call, with_marks(example(), 0x18, "00"), refused(WH_PACKET), 9);
}

static answer look_answer(uint64_t buffer, uint64_t start)
{
    answer right = done_with(buffer);
    right.results[1] = start;
    right.results[2] = 1;
    return right;
}

static void look_chooses_by_the_mark(void)
{
    question q = with_marks(example(), 10, "C0 00 00");
    set_hex(&q.rebuilt, "80 C0");
    q.source = 1;
    gives(&look_call, q, look_answer(2, 0), "");
    q.source = 2;
    gives(&look_call, q, look_answer(1, 0), "");
    q.source = 3;
    gives(&look_call, q, refused(WH_PACKET), "");
}

/* The survivors' length goes by the rows of the parities at hand. */
static void look_with_uneven_rows(void)
{
    question q = with_table(2, 2, "00 01 00 09");
    set_hex(&q.rebuilt, "80 C0");
    q.source = 2;
    gives(&look_call, with_marks(q, 6, "C0 00 01"), look_answer(1, 0), "");
    gives(&look_call, with_marks(q, 10, "C0 80 80 01"), look_answer(1, 0), "");
    gives(&look_call, with_marks(q, 12, "00 01 80 80 01"), look_answer(2, 1), "");
    gives(&look_call, with_marks(q, 6, "C0 00 01 00"), refused(WH_INPUT), "");
    gives(&look_call, with_marks(q, 10, "C0 80 80"), refused(WH_INPUT), "");
}

int main(void)
{
    static const named_test tests[] = {
        {"example_rebuild_marks_12", rebuild_marks_12},
        {"example_rebuild_marks_9_counts_8", rebuild_marks_9_counts_8},
        {"example_rebuild_marks_3_counts_0", rebuild_marks_3_counts_0},
        {"example_rebuild_stray_one_is_9", rebuild_stray_one_is_9},
        {"example_rebuild_no_sources_is_10", rebuild_no_sources_is_10},
        {"example_rebuild_9_goes_by_the_row", rebuild_9_goes_by_the_row},
        {"example_rebuild_with_uneven_rows", rebuild_with_uneven_rows},
        {"example_rebuild_9_with_uneven_rows", rebuild_9_with_uneven_rows},
        {"example_rebuild_of_one_length_for_all_is_4", rebuild_of_one_length_for_all_is_4},
        {"example_rebuild_9_never_in_a_row_of_noughts", rebuild_9_never_in_a_row_of_noughts},
        {"example_rebuild_bit_that_no_step_reads", rebuild_bit_that_no_step_reads},
        {"example_rebuild_zeros_are_steps_too", rebuild_zeros_are_steps_too},
        {"example_rebuild_reads_at_the_shift", rebuild_reads_at_the_shift},
        {"example_rebuild_tie_is_8_after_7", rebuild_tie_is_8_after_7},
        {"example_rebuild_stall_before_damage", rebuild_stall_before_damage},
        {"example_rebuild_finished_source_covers_nothing", rebuild_finished_source_covers_nothing},
        {"example_rebuild_three_rows_is_8_after_0", rebuild_three_rows_is_8_after_0},
        {"example_rebuild_marks_before_lengths", rebuild_marks_before_lengths},
        {"example_look_chooses_by_the_mark", look_chooses_by_the_mark},
        {"example_look_with_uneven_rows", look_with_uneven_rows},
    };
    return run_named_tests(tests, sizeof tests / sizeof tests[0]);
}
