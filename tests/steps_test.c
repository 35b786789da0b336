/* Lists of steps, good and bad. */
#include "calls_steps.h"

#include <string.h>

/* ---- Every list of something ----------------------------------------------------------------- */

typedef struct {
    uint8_t parity, source;
} step;

/* Every list of up to `most` of these steps. */
static void compare_every_list(question *q, const step *choices, size_t count, size_t most)
{
    size_t lists = 1;
    for (size_t length = 0; length <= most; length++, lists *= count) {
        for (size_t list = 0; list < lists; list++) {
            size_t left = list;
            set_steps(q, 0);
            for (size_t i = 0; i < length; i++, left /= count) {
                add_step(q, choices[left % count].parity, choices[left % count].source);
            }
            compare(&check_steps_call, q);
        }
    }
}

/* All pairs of 0 to 3, some of which are no step at all. */
enum { PAIRS = 16 };

static void make_pairs(step pairs[PAIRS])
{
    for (uint8_t i = 0; i < PAIRS; i++) {
        pairs[i].parity = i / 4;
        pairs[i].source = i % 4;
    }
}

static void every_list_of_three(void)
{
    static const uint8_t tables[][4] = {
        {0, 1, 0, 2}, {0, 7, 0, 7}, {3, 3, 3, 3}, {5, 0, 2, 4}, {1, 0, 0, 1}};
    question q = house_question(2, 2, 1);
    step pairs[PAIRS];
    make_pairs(pairs);
    for (size_t i = 0; i < sizeof tables / sizeof tables[0]; i++) {
        memcpy(q.table.at, tables[i], sizeof tables[i]);
        for (q.marks = 0; next_choice(&q);) {
            compare_every_list(&q, pairs, PAIRS, 3);
        }
    }
}

/* Parities of 0 to 2, sources of 1 to 3; both sources are missing. */
static void every_list_of_six(void)
{
    question q = house_question(2, 2, 1);
    step pairs[PAIRS], fewer[PAIRS];
    size_t count = 0;
    make_pairs(pairs);
    for (size_t i = 0; i < PAIRS; i++) {
        if (pairs[i].parity <= 2 && pairs[i].source >= 1) {
            fewer[count++] = pairs[i];
        }
    }
    lose_every_source(&q);
    compare_every_list(&q, fewer, count, 6);
}

/* Source 2 is missing and parity 2 at hand: eight right steps are complete. */
static void every_list_of_ten(void)
{
    static const step choices[] = {{2, 2}, {1, 2}, {2, 1}};
    question q = house_question(2, 2, 1);
    q.marks = 9;
    compare_every_list(&q, choices, 3, 10);
}

/* ---- Entries --------------------------------------------------------------------------------- */

static bool is_parity_at_hand(const question *q, uint64_t number)
{
    return number >= 1 && number <= q->m && at_hand(q, q->k + number);
}

static bool is_missing_source(const question *q, uint64_t number)
{
    return number >= 1 && number <= q->k && missing(q, number);
}

/* Each byte as this entry. One that can be in no step is refused at its place. */
static void try_every_byte(question *q, uint8_t *entry_at, size_t place,
                           bool can_be(const question *q, uint64_t number))
{
    uint8_t old = *entry_at;
    for (unsigned byte = 0; byte < 256; byte++) {
        *entry_at = (uint8_t)byte;
        if (can_be(q, byte)) {
            compare(&check_steps_call, q);
        } else {
            expect_checked(q, WH_STEP_NOT_BARE, place);
        }
    }
    *entry_at = old;
}

/* In most of these sizes a parity is not at hand, in the last three a source is. */
static void every_byte_at_every_step(void)
{
    static const struct {
        uint64_t k, m, marks;
    } sizes[] = {{1, 2, 4}, {2, 2, 12}, {2, 3, 20}, {4, 4, 0xA5}, {8, 3, 0x5E7}, {8, 8, 0xC03F}};
    for (size_t i = 0; i < sizeof sizes / sizeof sizes[0]; i++) {
        question q = house_question(sizes[i].k, sizes[i].m, 1);
        q.marks = sizes[i].marks;
        fit_steps(&q);
        for (size_t j = 0; j < q.step_parities.length; j++) {
            try_every_byte(&q, &q.step_parities.at[j], j + 1, is_parity_at_hand);
            try_every_byte(&q, &q.step_sources.at[j], j + 1, is_missing_source);
        }
    }
}

/* ---- Lengths --------------------------------------------------------------------------------- */

/* A complete order of 16 steps. What is behind it in the lists is 0. */
static question sixteen_steps(void)
{
    question q = house_question(2, 2, 1);
    lose_every_source(&q);
    fit_steps(&q);
    return q;
}

static void expect_unequal(question q, size_t parities, size_t sources)
{
    q.step_parities.length = parities;
    q.step_sources.length = sources;
    expect_checked(&q, WH_STEPS_UNEQUAL, 0);
}

/* Be the part that both have good, complete or too long; or the first step bad. */
static void every_two_lengths(void)
{
    question good = sixteen_steps(), bad = good;
    bad.step_parities.at[0] = 0;
    for (size_t i = 0; i <= 20; i++) {
        for (size_t j = 0; j <= 20; j++) {
            if (i != j) {
                expect_unequal(good, i, j);
                expect_unequal(bad, i, j);
            }
        }
        set_steps(&good, i);
        set_steps(&bad, i);
        if (i <= 16) {
            expect_checked(&good, i < 16 ? WH_STEPS_EARLY : WH_DONE, i < 16 ? i : 0);
        } else {
            expect_checked(&good, WH_STEP_NOT_BARE, 17);
        }
        expect_checked(&bad, i == 0 ? WH_STEPS_EARLY : WH_STEP_NOT_BARE, i == 0 ? 0 : 1);
    }
}

static void unequal_by_256(void)
{
    question q = sixteen_steps();
    for (size_t more = 256; more <= 512; more += 256) {
        for (size_t length = 0; length <= 16; length += 16) {
            expect_unequal(q, length + more, length);
            expect_unequal(q, length, length + more);
        }
    }
}

/* The shape and the marks are looked at first. */
static void unequal_beside_other_faults(void)
{
    question q = sixteen_steps();
    q.step_parities.at[0] = 0;
    expect_checked(&q, WH_STEP_NOT_BARE, 1);
    q.step_sources.length--;
    expect_checked(&q, WH_STEPS_UNEQUAL, 0);
    q.marks = 4;
    expect_checked(&q, WH_MARKS, 0);
    q.marks = 16;
    expect_checked(&q, WH_PACKET, 0);
    q.table.length--;
    expect_checked(&q, WH_TABLE, 0);
    q.l = 0;
    expect_checked(&q, WH_LENGTH, 0);
    q.k = 0;
    expect_checked(&q, WH_SIZE, 0);
}

/* Right where no source is missing, and there nothing else is. */
static void empty_lists(void)
{
    for (uint64_t table = 0; table < FAMILY_TABLES; table++) {
        question q = family_question(table);
        uint64_t all_sources = ((uint64_t)1 << q.k) - 1;
        while (next_choice(&q)) {
            expect_checked(&q, q.marks == all_sources ? WH_DONE : WH_STEPS_EARLY, 0);
        }
        q.marks = all_sources;
        add_step(&q, 1, 1);
        expect_checked(&q, WH_STEP_NOT_BARE, 1);
    }
}

/* ---- A stall --------------------------------------------------------------------------------- */

/* Seven steps with either parity, then a tie for ever. */
static void steps_before_a_stall(void)
{
    static const uint8_t table[4] = {0, 7, 0, 7};
    question q = house_question(2, 2, 1);
    memcpy(q.table.at, table, sizeof table);
    lose_every_source(&q);
    for (unsigned choice = 0; choice < 1u << 7; choice++) {
        set_steps(&q, 0);
        for (unsigned i = 0; i < 7; i++) {
            expect_checked(&q, WH_STEPS_EARLY, i);
            add_step(&q, 1 + (choice >> i & 1), 1);
        }
        expect_checked(&q, WH_STEPS_EARLY, 7);
        for (uint64_t pair = 0; pair < 4; pair++) {
            add_step(&q, 1 + pair / 2, 1 + pair % 2);
            expect_checked(&q, WH_STEP_NOT_BARE, 8);
            set_steps(&q, 7);
        }
    }
}

/* ---- Any questions --------------------------------------------------------------------------- */

static void take_any_numbers(void)
{
    compare_any_numbers(&check_steps_call, 20);
}

static void spoiled(void)
{
    compare_spoiled(&check_steps_call, 6000);
}

static void slot_is_set_when_refused(void)
{
    const uint8_t table[4] = {0, 1, 0, 2}, parities[2] = {1, 1}, sources[2] = {1, 1};
    uint64_t place = 77;
    expect_number(whx_check_steps(2, 2, 1, table, 4, 7, parities, 2, sources, 2, &place), WH_MARKS);
    expect_zeros(&place, 1);
    place = 77;
    expect_number(whx_check_steps(2, 2, 1, table, 4, 12, parities, 2, sources, 1, &place),
                  WH_STEPS_UNEQUAL);
    expect_zeros(&place, 1);
    place = 77;
    expect_number(whx_check_steps(2, 2, 1, table, 4, 3, parities, 0, sources, 0, &place), WH_DONE);
    expect_zeros(&place, 1);
}

int main(void)
{
    static const named_test tests[] = {
        {"steps_every_list_of_three", every_list_of_three},
        {"steps_every_list_of_six", every_list_of_six},
        {"steps_every_list_of_ten", every_list_of_ten},
        {"steps_every_byte_at_every_step", every_byte_at_every_step},
        {"steps_every_two_lengths", every_two_lengths},
        {"steps_unequal_by_256", unequal_by_256},
        {"steps_unequal_beside_other_faults", unequal_beside_other_faults},
        {"steps_empty_lists", empty_lists},
        {"steps_before_a_stall", steps_before_a_stall},
        {"steps_take_any_numbers", take_any_numbers},
        {"steps_spoiled", spoiled},
        {"steps_slot_is_set_when_refused", slot_is_set_when_refused},
    };
    return run_named_tests(tests, sizeof tests / sizeof tests[0]);
}
