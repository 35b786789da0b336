/* The macros of the limits: what the library takes and refuses. */
#include "calls_chain.h"
#include "calls_log.h"
#include "calls_table.h"
#include "check.h"

static void expect_measured(question q, uint64_t number)
{
    q.packet = q.k + 1;
    expect_number(compare(&packet_length_call, &q).number, number);
}

static void one_more_is_refused(void)
{
    question q = largest_question();
    q.table.at[0] = WH_MAX_SHIFT;
    expect_measured(q, WH_DONE);
    q.table.at[0] = WH_MAX_SHIFT + 1;
    expect_measured(q, WH_TABLE);
    expect_measured(house_question(WH_MAX_K, WH_MAX_M, WH_MAX_LENGTH + 1), WH_LENGTH);
    expect_measured(house_question(WH_MAX_K + 1, WH_MAX_M, 1), WH_SIZE);
    expect_measured(house_question(WH_MAX_K, WH_MAX_M + 1, 1), WH_SIZE);
}

static void one_more_family_is_refused(void)
{
    question q = largest_question();
    set_bytes(&q.output, q.m * q.k);
    q.family = WH_FAMILIES;
    expect_number(compare(&family_table_call, &q).number, WH_DONE);
    q.family = WH_FAMILIES + 1;
    expect_number(compare(&family_table_call, &q).number, WH_FAMILY);
}

static void one_more_stripe_is_refused(void)
{
    question q = house_question(2, 2, 1);
    keep_every_source(&q);
    q.stripes = WH_MAX_STRIPES;
    fit_log(&q);
    expect_number(compare(&rebuild_log_call, &q).number, WH_DONE);
    q.stripes = WH_MAX_STRIPES + 1;
    fit_log(&q);
    expect_number(compare(&rebuild_log_call, &q).number, WH_STRIPES);
}

static void longest_packet_is_reached(void)
{
    question q = largest_question();
    q.packet = WH_MAX_K + 1;
    q.table.at[0] = WH_MAX_SHIFT;
    if (compare(&packet_length_call, &q).results[0] != WH_LONGEST) {
        fail("another length");
    }
}

static void longest_parities_are_reached(void)
{
    question q = longest_question();
    if (compare(&parities_length_call, &q).results[0] != WH_MAX_M * WH_LONGEST) {
        fail("another length");
    }
}

/* The longest packet in the smallest blocks is the most that is written; a byte less of room and a
 * byte more of packet are refused. */
static void most_blocks_are_reached(void)
{
    question q = {0};
    q.size = 1;
    set_bytes(&q.input, WH_LONGEST);
    set_bytes(&q.output, WH_BLOCKS_LONGEST);
    if (compare(&write_blocks_call, &q).results[0] != WH_BLOCKS_LONGEST) {
        fail("another length");
    }
    q.output.length--;
    expect_number(compare(&write_blocks_call, &q).number, WH_ROOM);
    q.input.length++;
    expect_number(compare(&write_blocks_call, &q).number, WH_INPUT);
}

int main(void)
{
    static const named_test tests[] = {
        {"limits_one_more_is_refused", one_more_is_refused},
        {"limits_one_more_family_is_refused", one_more_family_is_refused},
        {"limits_one_more_stripe_is_refused", one_more_stripe_is_refused},
        {"limits_longest_packet_is_reached", longest_packet_is_reached},
        {"limits_longest_parities_are_reached", longest_parities_are_reached},
        {"limits_most_blocks_are_reached", most_blocks_are_reached},
    };
    return run_named_tests(tests, sizeof tests / sizeof tests[0]);
}
