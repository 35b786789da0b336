/* Worked examples of rebuild log. */
#include "calls_log.h"
#include "check.h"
#include "example.h"

static question with_stripes(question q, uint64_t stripes, uint64_t marks, const char *packets)
{
    q.stripes = stripes;
    return with_marks(q, marks, packets);
}

static void log_stops_at_10(void)
{
    question q = with_stripes(example(), 3, 12, "03 00 05 00 03 00 05 01 03 00 05 04");
    gives(&rebuild_log_call, q, log_answer(WH_FOREIGN, 1, 0), "01 01 AA AA AA AA");
}

static void log_stops_at_9(void)
{
    question q = with_stripes(example(), 3, 12, "03 00 05 00 03 00 05 04 03 00 05 01");
    gives(&rebuild_log_call, q, log_answer(WH_STRAY, 1, 0), "01 01 AA AA AA AA");
}

static void log_counts_once(void)
{
    question q = with_stripes(example(), 3, 12, "03 00 05 00 03 00 05 00 03 00 05 00");
    gives(&rebuild_log_call, q, log_answer(WH_DONE, 3, 16), "01 01 01 01 01 01");
}

static void log_tie_is_8_after_7(void)
{
    question q = with_table(2, 2, "00 07 00 07");
    q = with_stripes(q, 2, 12, "00 00 00 00 00 00 00 00");
    refuses(&rebuild_log_call, q, log_answer(WH_STALL, 0, 7), 4);
}

static void log_stall_before_damage(void)
{
    question q = with_table(2, 2, "00 07 00 07");
    q = with_stripes(q, 2, 12, "00 00 00 00 FF FF FF FF");
    refuses(&rebuild_log_call, q, log_answer(WH_STALL, 0, 7), 4);
}

static void log_of_other_stripes(void)
{
    question q = with_stripes(example(), 2, 12, "00 01 80 03 03 00 05 00");
    gives(&rebuild_log_call, q, log_answer(WH_DONE, 2, 16), "80 C0 01 01");
    q = with_stripes(example(), 2, 9, "01 05 00 80 80 03");
    gives(&rebuild_log_call, q, log_answer(WH_DONE, 2, 8), "01 01 80 C0");
    q = with_stripes(example(), 2, 3, "80 C0 01 02");
    gives(&rebuild_log_call, q, log_answer(WH_DONE, 2, 0), "80 C0 01 02");
}

/* `Hi` and `Ho`, as docs/LAB.md has them. */
static void log_of_the_labs_page(void)
{
    question q = with_stripes(example(), 2, 12, "9A 00 EC 01 96 00 F4 01");
    gives(&rebuild_log_call, q, log_answer(WH_DONE, 2, 16), "48 69 48 6F");
}

/* Parities of two and three bytes: a stripe has five. */
static void log_with_uneven_rows(void)
{
    question q = with_table(2, 2, "00 01 00 09");
    q = with_stripes(q, 2, 12, "03 00 01 02 00 00 01 80 80 01");
    gives(&rebuild_log_call, q, log_answer(WH_DONE, 2, 16), "01 01 80 C0");
}

static void log_of_one_stripe(void)
{
    question q = with_stripes(example(), 1, 12, "03 00 05 00");
    gives(&rebuild_log_call, q, log_answer(WH_DONE, 1, 16), "01 01");
    refuses(&rebuild_log_call, with_stripes(example(), 1, 12, "03 00 05 04"),
            log_answer(WH_STRAY, 0, 0), 2);
    refuses(&rebuild_log_call, with_stripes(example(), 1, 12, "03 00 05 01"),
            log_answer(WH_FOREIGN, 0, 0), 2);
}

static void log_last_stripe_is_bad(void)
{
    question q = with_stripes(example(), 3, 12, "03 00 05 00 00 01 80 03 03 00 05 04");
    gives(&rebuild_log_call, q, log_answer(WH_STRAY, 2, 0), "01 01 80 C0 AA AA");
}

static void log_25_after_3_before_6(void)
{
    static const uint64_t outside[] = {0, WH_MAX_STRIPES + 1, UINT64_MAX};
    for (size_t i = 0; i < sizeof outside / sizeof outside[0]; i++) {
        question q = with_stripes(example(), outside[i], 12, "03 00 05 00");
        refuses(&rebuild_log_call, q, refused(WH_STRIPES), 2);
        q.marks = 16;
        refuses(&rebuild_log_call, q, refused(WH_STRIPES), 2);
        q.marks = 7;
        refuses(&rebuild_log_call, q, refused(WH_STRIPES), 2);
        q.table.at[3] = WH_MAX_SHIFT + 1;
        refuses(&rebuild_log_call, q, refused(WH_TABLE), 2);
    }
}

static void log_one_byte_more_is_4_or_5(void)
{
    question q = with_stripes(example(), 2, 12, "03 00 05 00 03 00 05 00 00");
    refuses(&rebuild_log_call, q, refused(WH_INPUT), 4);
    q.input.length = 7;
    refuses(&rebuild_log_call, q, refused(WH_INPUT), 4);
    refuses(&rebuild_log_call, q, refused(WH_INPUT), 5);
    q.input.length = 8;
    refuses(&rebuild_log_call, q, refused(WH_OUTPUT), 5);
    refuses(&rebuild_log_call, q, refused(WH_OUTPUT), 3);
    refuses(&rebuild_log_call, q, refused(WH_OUTPUT), 2);
}

int main(void)
{
    static const named_test tests[] = {
        {"example_log_stops_at_10", log_stops_at_10},
        {"example_log_stops_at_9", log_stops_at_9},
        {"example_log_counts_once", log_counts_once},
        {"example_log_tie_is_8_after_7", log_tie_is_8_after_7},
        {"example_log_stall_before_damage", log_stall_before_damage},
        {"example_log_of_other_stripes", log_of_other_stripes},
        {"example_log_of_the_labs_page", log_of_the_labs_page},
        {"example_log_with_uneven_rows", log_with_uneven_rows},
        {"example_log_of_one_stripe", log_of_one_stripe},
        {"example_log_last_stripe_is_bad", log_last_stripe_is_bad},
        {"example_log_25_after_3_before_6", log_25_after_3_before_6},
        {"example_log_one_byte_more_is_4_or_5", log_one_byte_more_is_4_or_5},
    };
    return run_named_tests(tests, sizeof tests / sizeof tests[0]);
}
