/* Worked examples of the walk and its steps,
 * and inputs that tell known wrong programs from right ones. */
#include "calls_walk.h"
#include "check.h"
#include "example.h"

static answer walk_answer(uint64_t count, uint64_t is_whole, uint64_t first, uint64_t second)
{
    answer right = done_with(count);
    right.results[1] = is_whole;
    right.results[2] = first;
    right.results[3] = second;
    return right;
}

static void walk_marks_12(void)
{
    gives(&walk_call, with_marks(example(), 12, ""), walk_answer(16, 1, 8, 8), "");
}

static void walk_marks_9_keeps_present_at_0(void)
{
    gives(&walk_call, with_marks(example(), 9, ""), walk_answer(8, 1, 0, 8), "");
}

static void walk_marks_3(void)
{
    gives(&walk_call, with_marks(example(), 3, ""), walk_answer(0, 1, 0, 0), "");
}

static void walk_tie_stalls_after_7(void)
{
    question q = with_marks(with_table(2, 2, "00 07 00 07"), 12, "");
    gives(&walk_call, q, walk_answer(7, 0, 7, 0), "");
}

static void walk_finished_source_covers_nothing(void)
{
    question q = with_marks(with_table(2, 2, "00 08 00 08"), 12, "");
    gives(&walk_call, q, walk_answer(16, 1, 8, 8), "");
}

static void walk_three_rows_stall_at_once(void)
{
    question q = with_table(3, 3, "00 00 05 00 05 00 05 00 00");
    lose_every_source(&q);
    gives(&walk_call, q, walk_answer(0, 0, 0, 0), "");
}

/* The answer of next step has the pair where walk's has count and whole. */
static void step_takes_lowest_parity(void)
{
    gives(&next_step_call, with_marks(example(), 12, ""), walk_answer(1, 1, 1, 0), "");
}

static void step_gives_row_not_packet_number(void)
{
    gives(&next_step_call, with_marks(example(), 9, ""), walk_answer(2, 2, 0, 1), "");
}

static void step_at_a_tie_keeps_progress(void)
{
    question q = with_marks(with_table(2, 2, "00 07 00 07"), 12, "");
    q.progress[0] = 7;
    gives(&next_step_call, q, walk_answer(0, 0, 7, 0), "");
}

static void step_refuses_progress_with_17(void)
{
    question q = with_marks(example(), 12, "");
    q.progress[0] = 9;
    gives(&next_step_call, q, refused(WH_PROGRESS), "");
    q.progress[0] = 8;
    gives(&next_step_call, q, walk_answer(1, 2, 8, 1), "");
    q.progress[2] = 1;
    gives(&next_step_call, q, refused(WH_PROGRESS), "");
    q.progress[2] = 0;
    q.marks = 9;
    gives(&next_step_call, q, refused(WH_PROGRESS), "");
}

int main(void)
{
    static const named_test tests[] = {
        {"example_walk_marks_12", walk_marks_12},
        {"example_walk_marks_9_keeps_present_at_0", walk_marks_9_keeps_present_at_0},
        {"example_walk_marks_3", walk_marks_3},
        {"example_walk_tie_stalls_after_7", walk_tie_stalls_after_7},
        {"example_walk_finished_source_covers_nothing", walk_finished_source_covers_nothing},
        {"example_walk_three_rows_stall_at_once", walk_three_rows_stall_at_once},
        {"example_step_takes_lowest_parity", step_takes_lowest_parity},
        {"example_step_gives_row_not_packet_number", step_gives_row_not_packet_number},
        {"example_step_at_a_tie_keeps_progress", step_at_a_tie_keeps_progress},
        {"example_step_refuses_progress_with_17", step_refuses_progress_with_17},
    };
    return run_named_tests(tests, sizeof tests / sizeof tests[0]);
}
