/* Worked examples of lists of steps. */
#include "calls_steps.h"
#include "check.h"
#include "example.h"

static question with_steps(question q, uint64_t marks, const char *parities, const char *sources)
{
    q.marks = marks;
    set_hex(&q.step_parities, parities);
    set_hex(&q.step_sources, sources);
    return q;
}

static void accepts(question q)
{
    gives(&check_steps_call, q, done(), "");
}

static void refuses_at(question q, uint64_t number, uint64_t place)
{
    gives(&check_steps_call, q, numbered(number, place), "");
}

/* Both sources missing: a complete order, as the library takes it. */
static question in_turns(void)
{
    return with_steps(example(), 12, "1 2 1 2 1 2 1 2 1 2 1 2 1 2 1 1",
                      "1 1 2 1 2 1 2 1 2 1 2 1 2 1 2 2");
}

static void takes_the_own_order(void)
{
    accepts(in_turns());
}

static void takes_another_order(void)
{
    accepts(with_steps(example(), 12, "2 2 1 2 1 2 1 2 1 2 1 2 1 2 2 2",
                       "1 1 2 1 2 1 2 1 2 1 2 1 2 1 2 2"));
}

/* A bit of source 1 is uncovered, and the next bits of both stand at place 1 of parity 1. */
static void refuses_a_tie_with_23(void)
{
    refuses_at(with_steps(example(), 12, "1 1", "1 2"), WH_STEP_NOT_BARE, 2);
}

static void one_step_short_is_24(void)
{
    question q = in_turns();
    q.step_parities.length = q.step_sources.length = 15;
    refuses_at(q, WH_STEPS_EARLY, 15);
}

static void one_step_more_is_23(void)
{
    refuses_at(with_steps(example(), 12, "1 2 1 2 1 2 1 2 1 2 1 2 1 2 1 1 1",
                          "1 1 2 1 2 1 2 1 2 1 2 1 2 1 2 2 2"),
               WH_STEP_NOT_BARE, 17);
}

static void stalled_after_7_is_24(void)
{
    question q = with_table(2, 2, "00 07 00 07");
    refuses_at(with_steps(q, 12, "1 1 1 1 1 1 1", "1 1 1 1 1 1 1"), WH_STEPS_EARLY, 7);
}

static void the_one_list_of_marks_9(void)
{
    accepts(with_steps(example(), 9, "2 2 2 2 2 2 2 2", "2 2 2 2 2 2 2 2"));
    refuses_at(with_steps(example(), 9, "2 2 2 2 1 2 2 2", "2 2 2 2 2 2 2 2"), WH_STEP_NOT_BARE, 5);
    refuses_at(with_steps(example(), 9, "2 2 2 2 2 2 2 2", "2 2 1 2 2 2 2 2"), WH_STEP_NOT_BARE, 3);
}

static void no_steps_where_nothing_is_missing(void)
{
    accepts(with_steps(example(), 3, "", ""));
}

static void no_steps_where_something_is_missing(void)
{
    refuses_at(with_steps(example(), 12, "", ""), WH_STEPS_EARLY, 0);
}

static void entries_that_are_no_step(void)
{
    refuses_at(with_steps(example(), 12, "0", "1"), WH_STEP_NOT_BARE, 1);
    refuses_at(with_steps(example(), 12, "1", "0"), WH_STEP_NOT_BARE, 1);
    refuses_at(with_steps(example(), 12, "1 9", "1 1"), WH_STEP_NOT_BARE, 2);
    refuses_at(with_steps(example(), 12, "1 1", "1 FF"), WH_STEP_NOT_BARE, 2);
}

/* Be the steps that both lists have bad, complete or none. */
static void unequal_lists_are_22(void)
{
    question q = in_turns();
    refuses_at(with_steps(example(), 12, "0 1", "1"), WH_STEPS_UNEQUAL, 0);
    refuses_at(with_steps(example(), 3, "", "1"), WH_STEPS_UNEQUAL, 0);
    q.step_parities.at[q.step_parities.length++] = 1;
    refuses_at(q, WH_STEPS_UNEQUAL, 0);
}

int main(void)
{
    static const named_test tests[] = {
        {"example_steps_takes_the_own_order", takes_the_own_order},
        {"example_steps_takes_another_order", takes_another_order},
        {"example_steps_refuses_a_tie_with_23", refuses_a_tie_with_23},
        {"example_steps_one_step_short_is_24", one_step_short_is_24},
        {"example_steps_one_step_more_is_23", one_step_more_is_23},
        {"example_steps_stalled_after_7_is_24", stalled_after_7_is_24},
        {"example_steps_the_one_list_of_marks_9", the_one_list_of_marks_9},
        {"example_steps_no_steps_where_nothing_is_missing", no_steps_where_nothing_is_missing},
        {"example_steps_no_steps_where_something_is_missing", no_steps_where_something_is_missing},
        {"example_steps_entries_that_are_no_step", entries_that_are_no_step},
        {"example_steps_unequal_lists_are_22", unequal_lists_are_22},
    };
    return run_named_tests(tests, sizeof tests / sizeof tests[0]);
}
