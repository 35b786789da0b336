/* The walk and the next step. */
#include "calls_walk.h"
#include "check.h"
#include "random.h"

#include <inttypes.h>
#include <string.h>

/* Any k packets of a family's table: whole, after 8 l steps for each missing source. */
static void walk_every_choice_of_every_family_table(void)
{
    for (uint64_t table = 0; table < FAMILY_TABLES; table++) {
        question q = family_question(table);
        while (next_choice(&q)) {
            if (compare(&walk_call, &q).results[1] != 1) {
                fail("a family's table stalls");
            }
        }
    }
}

/* Every table of two rows and two columns with shifts to 9, all marks. */
static void walk_every_small_table(void)
{
    question q = house_question(2, 2, 1);
    for (int table = 0; table < 10000; table++) {
        int digits = table;
        for (int i = 0; i < 4; i++) {
            q.table.at[i] = (uint8_t)(digits % 10);
            digits /= 10;
        }
        q.l = random_between(1, 2);
        for (q.marks = 0; next_choice(&q);) {
            compare(&walk_call, &q);
        }
    }
}

/* Small shifts in three rows and three columns: ties everywhere. */
static void walk_tables_full_of_ties(void)
{
    question q = house_question(3, 3, 1);
    lose_every_source(&q);
    for (int i = 0; i < 8000; i++) {
        for (int j = 0; j < 9; j++) {
            q.table.at[j] = (uint8_t)random_below(i % 2 == 0 ? 3 : 12);
        }
        compare(&walk_call, &q);
    }
}

static void walk_all_marks_of_small_shapes(void)
{
    question q = {0};
    for (q.k = 1; q.k <= 3; q.k++) {
        for (q.m = 1; q.m <= 3; q.m++) {
            for (q.marks = 0; q.marks < 200; q.marks++) {
                q.l = random_between(1, 3);
                draw_table(&q);
                compare(&walk_call, &q);
            }
        }
    }
}

static void walk_at_the_limits(void)
{
    question q = largest_question();
    for (int i = 0; i < 12; i++) {
        set_house_table(&q);
        q.table.at[random_below(q.table.length)] = i < 2 ? q.table.at[0] : WH_MAX_SHIFT;
        lose_every_source(&q);
        compare(&walk_call, &q);
        draw_marks(&q);
        compare(&walk_call, &q);
    }
}

static void walk_takes_any_numbers(void)
{
    compare_any_numbers(&walk_call, 8);
}

static void walk_spoiled(void)
{
    compare_spoiled(&walk_call, 8000);
}

/* Whichever bare pair is taken each time, the end is where the call says. */
static void every_order_ends_where_walk_ends(void)
{
    question q;
    for (int i = 0; i < 1500; i++) {
        draw_for_walk(&q);
        q.l = q.l > 9 ? q.l % 9 + 1 : q.l;
        wh_walked ended = wh_walk(q.k, q.m, q.l, q.table.at, q.table.length, q.marks);
        for (int order = 0; order < 5; order++) {
            walked walk = walk_in_random_order(&q);
            if (ended.number != WH_DONE || walk.count != ended.count ||
                memcmp(walk.progress, ended.progress, sizeof walk.progress) != 0) {
                fail("an order of %" PRIu64 " steps ends elsewhere, walk has %" PRIu64, walk.count,
                     ended.count);
            }
        }
    }
}

/* Steps taken one by one, until none is bare, are the walk: one bit a step. */
static void next_steps_make_the_walk(void)
{
    question q;
    for (int i = 0; i < 400; i++) {
        draw_for_walk(&q);
        q.l = q.l > 9 ? q.l % 9 + 1 : q.l;
        uint64_t count = 0;
        answer stepped = compare(&next_step_call, &q);
        while (stepped.results[0] != 0) {
            memcpy(q.progress, &stepped.results[2], sizeof q.progress);
            count++;
            stepped = compare(&next_step_call, &q);
        }
        answer ended = compare(&walk_call, &q);
        if (count != ended.results[0] ||
            memcmp(q.progress, &ended.results[2], sizeof q.progress) != 0) {
            fail("%" PRIu64 " steps, walk has %" PRIu64, count, ended.results[0]);
        }
    }
}

/* Every progress of two sources, also that which no walk reaches, and one too far. */
static void next_step_from_every_progress(void)
{
    static const uint8_t tables[][4] = {{0, 1, 0, 2}, {0, 7, 0, 7},
                                        {0, 8, 0, 8}, {3, 3, 3, 3},
                                        {5, 0, 2, 4}, {WH_MAX_SHIFT, 0, 0, WH_MAX_SHIFT}};
    question q = house_question(2, 2, 1);
    for (size_t i = 0; i < sizeof tables / sizeof tables[0]; i++) {
        memcpy(q.table.at, tables[i], 4);
        for (q.marks = 0; next_choice(&q);) {
            for (q.progress[0] = 0; q.progress[0] <= 9; q.progress[0]++) {
                for (q.progress[1] = 0; q.progress[1] <= 9; q.progress[1]++) {
                    compare(&next_step_call, &q);
                }
            }
        }
    }
}

/* A one where no missing source has that number. */
static void next_step_with_progress_of_no_source(void)
{
    question q;
    for (int i = 0; i < 3000; i++) {
        draw_for_next_step(&q);
        q.progress[random_below(WH_MAX_K)] += 1;
        compare(&next_step_call, &q);
    }
}

static void next_step_takes_any_numbers(void)
{
    compare_any_numbers(&next_step_call, 20);
}

static void next_step_spoiled(void)
{
    compare_spoiled(&next_step_call, 15000);
}

static void whole_at_1_stalled_at_2(void)
{
    const uint8_t table[4] = {0, 8, 0, 8};
    wh_walked short_walk = wh_walk(2, 2, 1, table, 4, 12);
    wh_walked long_walk = wh_walk(2, 2, 2, table, 4, 12);
    if (short_walk.number != WH_DONE || short_walk.whole != 1 || short_walk.count != 16) {
        fail("not whole at l = 1");
    }
    if (long_walk.number != WH_DONE || long_walk.whole != 0 || long_walk.count != 8) {
        fail("not stalled after 8 at l = 2");
    }
}

static void slots_are_set_when_refused(void)
{
    const uint8_t table[4] = {0, 1, 0, 2};
    const uint64_t progress[WH_MAX_K] = {9};
    uint64_t slots[RESULTS_MOST];
    memset(slots, 0x77, sizeof slots);
    expect_number(whx_walk(2, 2, 1, table, 4, 7, &slots[0], &slots[1], &slots[2]), WH_MARKS);
    expect_zeros(slots, RESULTS_MOST);
    memset(slots, 0x77, sizeof slots);
    expect_number(
        whx_next_step(2, 2, 1, table, 4, 12, progress, &slots[0], &slots[1], &slots[2]),
        WH_PROGRESS);
    expect_zeros(slots, RESULTS_MOST);
}

int main(void)
{
    static const named_test tests[] = {
        {"walk_every_choice_of_every_family_table", walk_every_choice_of_every_family_table},
        {"walk_every_small_table", walk_every_small_table},
        {"walk_tables_full_of_ties", walk_tables_full_of_ties},
        {"walk_all_marks_of_small_shapes", walk_all_marks_of_small_shapes},
        {"walk_at_the_limits", walk_at_the_limits},
        {"walk_takes_any_numbers", walk_takes_any_numbers},
        {"walk_spoiled", walk_spoiled},
        {"walk_whole_at_1_stalled_at_2", whole_at_1_stalled_at_2},
        {"every_order_ends_where_walk_ends", every_order_ends_where_walk_ends},
        {"next_steps_make_the_walk", next_steps_make_the_walk},
        {"next_step_from_every_progress", next_step_from_every_progress},
        {"next_step_with_progress_of_no_source", next_step_with_progress_of_no_source},
        {"next_step_takes_any_numbers", next_step_takes_any_numbers},
        {"next_step_spoiled", next_step_spoiled},
        {"walk_slots_are_set_when_refused", slots_are_set_when_refused},
    };
    return run_named_tests(tests, sizeof tests / sizeof tests[0]);
}
