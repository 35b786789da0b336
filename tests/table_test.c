/* Family tables, the judge, and the lengths of packets. */
#include "calls_table.h"
#include "check.h"
#include "random.h"

#include <string.h>

/* Every size and some beyond, each with an output of every length. */
static void compare_every_size(uint64_t family)
{
    question q = {.family = family};
    for (q.k = 0; q.k <= WH_MAX_K + 2; q.k++) {
        for (q.m = 0; q.m <= WH_MAX_M + 2; q.m++) {
            for (uint64_t length = 0; length <= (WH_MAX_K + 2) * (WH_MAX_M + 3); length++) {
                set_bytes(&q.output, length);
                compare(&family_table_call, &q);
            }
        }
    }
}

static void family_table_of_every_size(void)
{
    for (uint64_t family = 0; family <= WH_FAMILIES + 1; family++) {
        compare_every_size(family);
    }
    compare_every_size(UINT64_MAX);
}

/* The largest entry of each table that the library writes is what the papers' formulas say. */
static void family_table_largest_entries(void)
{
    for (uint64_t table = 0; table < FAMILY_TABLES; table++) {
        question q = family_question(table);
        uint64_t half = (q.k + q.m) / 2;
        const uint64_t largest[] = {q.m * (q.k - 1), half * (half - 1) / 2, (q.m - 1) * (q.k - 1)};
        memset(q.table.at, 0xAA, q.table.length);
        expect_number(wh_family_table(q.k, q.m, q.family, q.table.at, q.table.length), WH_DONE);
        if (largest_entry(&q) != largest[q.family - 1]) {
            fail("another largest entry");
        }
    }
}

static void family_table_takes_any_numbers(void)
{
    compare_any_numbers(&family_table_call, 20);
}

static void family_table_spoiled(void)
{
    compare_spoiled(&family_table_call, 5000);
}

/* Every m by k table whose entries are below a bound, counted up like the digits of a number. */
static void judge_every_table(uint64_t k, uint64_t m, uint8_t bound)
{
    question q = house_question(k, m, 1);
    size_t i = 0;
    memset(q.table.at, 0, q.table.length);
    while (i < q.table.length) {
        compare(&judge_call, &q);
        for (i = 0; i < q.table.length && ++q.table.at[i] == bound; i++) {
            q.table.at[i] = 0;
        }
    }
}

static void judge_every_small_table(void)
{
    judge_every_table(1, 1, WH_MAX_SHIFT + 3);
    judge_every_table(1, 3, 8);
    judge_every_table(3, 1, 8);
    judge_every_table(2, 2, 10);
    judge_every_table(3, 2, 4);
    judge_every_table(2, 3, 4);
    judge_every_table(3, 3, 3);
}

static void judge_says_yes_of_every_family_table(void)
{
    for (uint64_t table = 0; table < FAMILY_TABLES; table++) {
        question q = family_question(table);
        if (compare(&judge_call, &q).results[0] != 1) {
            fail("a family's table does not grow");
        }
    }
}

/* One entry of a growing table one up or one down: the edge of "less than". */
static void judge_family_tables_bent(void)
{
    for (uint64_t table = 0; table < FAMILY_TABLES; table++) {
        question q = family_question(table);
        for (size_t i = 0; i < q.table.length; i++) {
            q.table.at[i]++;
            compare(&judge_call, &q);
            q.table.at[i] = (uint8_t)(q.table.at[i] - 2);
            compare(&judge_call, &q);
            q.table.at[i]++;
        }
    }
}

/* Differences that grow from below 0 to above it. */
static void judge_falling_rows(void)
{
    question q = house_question(2, 2, 1);
    for (int i = 0; i < 20000; i++) {
        random_bytes(q.table.at, 4);
        for (int j = 0; j < 4; j++) {
            q.table.at[j] = (uint8_t)(q.table.at[j] % (WH_MAX_SHIFT + 1));
        }
        compare(&judge_call, &q);
    }
}

static void judge_takes_any_numbers(void)
{
    compare_any_numbers(&judge_call, 20);
}

static void judge_spoiled(void)
{
    compare_spoiled(&judge_call, 10000);
}

/* Every source length and every largest shift of its row, at every packet; any in the other row. */
static void packet_length_of_every_packet(void)
{
    question q = house_question(2, 2, 1);
    for (q.l = 0; q.l <= WH_MAX_LENGTH + 2; q.l++) {
        for (uint8_t r = 0; r <= WH_MAX_SHIFT + 2; r++) {
            for (q.packet = 0; q.packet <= 6; q.packet++) {
                uint8_t other = (uint8_t)random_below(WH_MAX_SHIFT + 1);
                memset(q.table.at, 0, 4);
                q.table.at[random_below(2)] = q.packet == 4 ? other : r;
                q.table.at[2 + random_below(2)] = q.packet == 4 ? r : other;
                compare(&packet_length_call, &q);
            }
        }
    }
}

static void packet_length_takes_any_numbers(void)
{
    compare_any_numbers(&packet_length_call, 20);
}

static void packet_length_spoiled(void)
{
    compare_spoiled(&packet_length_call, 10000);
}

/* Every source length, with every pair of largest shifts of two rows. */
static void parities_length_of_every_pair_of_rows(void)
{
    question q = house_question(2, 2, 1);
    for (q.l = 0; q.l <= WH_MAX_LENGTH + 1; q.l++) {
        for (uint8_t r1 = 0; r1 <= WH_MAX_SHIFT + 1; r1++) {
            for (uint8_t r2 = 0; r2 <= WH_MAX_SHIFT + 1; r2++) {
                memset(q.table.at, 0, 4);
                q.table.at[random_below(2)] = r1;
                q.table.at[2 + random_below(2)] = r2;
                compare(&parities_length_call, &q);
            }
        }
    }
}

/* What the library says of all is what it says of each, added up. */
static void parities_length_is_the_sum(void)
{
    for (int i = 0; i < 2000; i++) {
        question q;
        uint64_t sum = 0;
        draw_shape(&q);
        for (q.packet = q.k + 1; q.packet <= q.k + q.m; q.packet++) {
            sum += compare(&packet_length_call, &q).results[0];
        }
        if (compare(&parities_length_call, &q).results[0] != sum) {
            fail("another sum");
        }
    }
}

static void parities_length_takes_any_numbers(void)
{
    compare_any_numbers(&parities_length_call, 20);
}

static void parities_length_spoiled(void)
{
    compare_spoiled(&parities_length_call, 10000);
}

static void survivors_length_of_all_marks(void)
{
    question q = {0};
    for (q.k = 1; q.k <= WH_MAX_K; q.k++) {
        for (q.m = 1; q.m <= WH_MAX_M; q.m++) {
            for (q.marks = 0; q.marks < (uint64_t)2 << (q.k + q.m); q.marks += 1 + q.marks / 200) {
                q.l = random_between(1, WH_MAX_LENGTH);
                draw_table(&q);
                compare(&survivors_length_call, &q);
            }
        }
    }
}

static void survivors_length_takes_any_numbers(void)
{
    compare_any_numbers(&survivors_length_call, 20);
}

static void survivors_length_spoiled(void)
{
    compare_spoiled(&survivors_length_call, 10000);
}

static void slots_are_set_when_refused(void)
{
    const uint8_t table[4] = {0, 1, 0, 2};
    uint64_t slots[4] = {77, 77, 77, 77};
    expect_number(whx_judge(WH_MAX_K + 1, 2, table, 4, &slots[0]), WH_SIZE);
    expect_number(whx_packet_length(2, 2, 1, table, 4, 5, &slots[1]), WH_PACKET);
    expect_number(whx_survivors_length(2, 2, 1, table, 4, 7, &slots[2]), WH_MARKS);
    expect_number(whx_parities_length(2, 2, 0, table, 4, &slots[3]), WH_LENGTH);
    expect_zeros(slots, 4);
}

int main(void)
{
    static const named_test tests[] = {
        {"family_table_of_every_size", family_table_of_every_size},
        {"family_table_largest_entries", family_table_largest_entries},
        {"family_table_takes_any_numbers", family_table_takes_any_numbers},
        {"family_table_spoiled", family_table_spoiled},
        {"judge_every_small_table", judge_every_small_table},
        {"judge_says_yes_of_every_family_table", judge_says_yes_of_every_family_table},
        {"judge_family_tables_bent", judge_family_tables_bent},
        {"judge_falling_rows", judge_falling_rows},
        {"judge_takes_any_numbers", judge_takes_any_numbers},
        {"judge_spoiled", judge_spoiled},
        {"packet_length_of_every_packet", packet_length_of_every_packet},
        {"packet_length_takes_any_numbers", packet_length_takes_any_numbers},
        {"packet_length_spoiled", packet_length_spoiled},
        {"parities_length_of_every_pair_of_rows", parities_length_of_every_pair_of_rows},
        {"parities_length_is_the_sum", parities_length_is_the_sum},
        {"parities_length_takes_any_numbers", parities_length_takes_any_numbers},
        {"parities_length_spoiled", parities_length_spoiled},
        {"survivors_length_of_all_marks", survivors_length_of_all_marks},
        {"survivors_length_takes_any_numbers", survivors_length_takes_any_numbers},
        {"survivors_length_spoiled", survivors_length_spoiled},
        {"table_slots_are_set_when_refused", slots_are_set_when_refused},
    };
    return run_named_tests(tests, sizeof tests / sizeof tests[0]);
}
