/* Worked examples of tables and lengths,
 * and inputs that tell known wrong programs from right ones. */
#include "calls_table.h"
#include "check.h"
#include "example.h"

static void family_table_3_3(void)
{
    question q = house_question(3, 3, 1);
    gives(&family_table_call, q, done(), "00 01 02  00 02 04  00 03 06");
    q.packet = 4;
    gives(&packet_length_call, q, done_with(2), "");
}

static question of_family(uint64_t family, uint64_t k, uint64_t m)
{
    question q = house_question(k, m, 1);
    q.family = family;
    return q;
}

static void family_table_hankel(void)
{
    gives(&family_table_call, of_family(WH_HANKEL, 3, 4), done(),
          "03 01 00  01 00 00  00 00 01  00 01 03");
    gives(&family_table_call, of_family(WH_HANKEL, 4, 3), done(),
          "03 01 00 00  01 00 00 01  00 00 01 03");
}

static void family_table_hankel_8_8(void)
{
    gives(&family_table_call, of_family(WH_HANKEL, 8, 8), done(),
          "15 0F 0A 06 03 01 00 00  0F 0A 06 03 01 00 00 01  0A 06 03 01 00 00 01 03 "
          "06 03 01 00 00 01 03 06  03 01 00 00 01 03 06 0A  01 00 00 01 03 06 0A 0F "
          "00 00 01 03 06 0A 0F 15  00 01 03 06 0A 0F 15 1C");
}

static void family_table_vandermonde_3_3(void)
{
    gives(&family_table_call, of_family(WH_VANDERMONDE, 3, 3), done(),
          "00 00 00  00 01 02  00 02 04");
}

static void family_table_into_a_wrong_buffer(void)
{
    refuses(&family_table_call, example(), refused(WH_OUTPUT), 3);
    refuses(&family_table_call, of_family(WH_HANKEL, 2, 2), refused(WH_OUTPUT), 5);
}

static void family_table_of_no_family(void)
{
    static const uint64_t families[] = {0, WH_FAMILIES + 1, UINT64_MAX};
    for (size_t i = 0; i < sizeof families / sizeof families[0]; i++) {
        refuses(&family_table_call, of_family(families[i], 2, 2), refused(WH_FAMILY), 4);
        refuses(&family_table_call, of_family(families[i], 2, 2), refused(WH_FAMILY), 3);
        refuses(&family_table_call, of_family(families[i], 0, 2), refused(WH_SIZE), 4);
    }
}

static void judge_house_table(void)
{
    gives(&judge_call, example(), done_with(1), "");
}

static void judge_says_no_of_decodable_table(void)
{
    gives(&judge_call, with_table(2, 2, "00 07 00 07"), done_with(0), "");
    gives(&judge_call, with_table(2, 2, "00 08 00 08"), done_with(0), "");
}

static void judge_one_row_or_one_column(void)
{
    gives(&judge_call, with_table(3, 1, "05 00 09"), done_with(1), "");
    gives(&judge_call, with_table(1, 3, "05 00 09"), done_with(1), "");
}

static void largest_entry_taken_one_more_refused(void)
{
    question q = example();
    q.table.at[3] = WH_MAX_SHIFT;
    gives(&judge_call, q, done_with(1), "");
    q.table.at[3] = WH_MAX_SHIFT + 1;
    gives(&judge_call, q, refused(WH_TABLE), "");
}

static void longest_source_taken_one_more_refused(void)
{
    question q = house_question(2, 2, WH_MAX_LENGTH);
    q.packet = 1;
    gives(&packet_length_call, q, done_with(WH_MAX_LENGTH), "");
    q.packet = 3;
    gives(&packet_length_call, q, done_with(WH_MAX_LENGTH + 1), "");
    q.l = WH_MAX_LENGTH + 1;
    gives(&packet_length_call, q, refused(WH_LENGTH), "");
}

static void expect_length(question q, uint64_t packet, uint64_t length)
{
    q.packet = packet;
    gives(&packet_length_call, q, done_with(length), "");
}

static void longest_parity_is_reached(void)
{
    question q = largest_question();
    expect_length(q, WH_MAX_K + 1, WH_MAX_LENGTH + 1);
    expect_length(q, WH_MAX_K + WH_MAX_M, WH_LONGEST - 1);
    q.table.at[0] = WH_MAX_SHIFT;
    expect_length(q, WH_MAX_K + 1, WH_LONGEST);
    expect_length(q, WH_MAX_K + 2, WH_MAX_LENGTH + 2);
}

static void each_parity_at_its_own_length(void)
{
    question q = with_table(2, 2, "00 01 00 09");
    expect_length(q, 1, 1);
    expect_length(q, 3, 2);
    expect_length(q, 4, 3);
    gives(&parities_length_call, q, done_with(5), "");
    gives(&survivors_length_call, with_marks(q, 12, ""), done_with(5), "");
    gives(&survivors_length_call, with_marks(q, 6, ""), done_with(3), "");
    gives(&survivors_length_call, with_marks(q, 10, ""), done_with(4), "");
}

static void row_of_noughts_takes_a_sources_length(void)
{
    question q = house_question(3, 3, 7);
    set_family_table(&q, WH_VANDERMONDE);
    expect_length(q, 4, 7);
    expect_length(q, 5, 8);
}

/* The table of docs/TESTED.md. */
static void parities_length_of_8_and_8(void)
{
    static const uint64_t lengths[] = {1, 8, WH_MAX_LENGTH};
    static const uint64_t bytes[WH_FAMILIES][3] = {{43, 99, 483}, {27, 83, 467}, {36, 92, 476}};
    for (size_t i = 0; i < WH_FAMILIES * 3; i++) {
        question q = house_question(8, 8, lengths[i % 3]);
        set_family_table(&q, i / 3 + 1);
        gives(&parities_length_call, q, done_with(bytes[i / 3][i % 3]), "");
    }
}

static void parities_length_refused_in_order(void)
{
    question q = largest_question();
    q.table.at[63] = WH_MAX_SHIFT + 1;
    gives(&parities_length_call, q, refused(WH_TABLE), "");
    q.l = 0;
    gives(&parities_length_call, q, refused(WH_LENGTH), "");
    q.k = 0;
    gives(&parities_length_call, q, refused(WH_SIZE), "");
}

static void marks_16_refused_with_6(void)
{
    gives(&survivors_length_call, with_marks(example(), 16, ""), refused(WH_PACKET), "");
}

static void marks_7_refused_with_7(void)
{
    gives(&survivors_length_call, with_marks(example(), 7, ""), refused(WH_MARKS), "");
    gives(&survivors_length_call, with_marks(example(), 0, ""), refused(WH_MARKS), "");
}

static void marks_are_not_cut_to_16_bits(void)
{
    gives(&survivors_length_call, with_marks(example(), 0x1000C, ""), refused(WH_PACKET), "");
    gives(&survivors_length_call, with_marks(example(), 0xC, ""), done_with(4), "");
}

int main(void)
{
    static const named_test tests[] = {
        {"example_family_table_3_3", family_table_3_3},
        {"example_family_table_hankel", family_table_hankel},
        {"example_family_table_hankel_8_8", family_table_hankel_8_8},
        {"example_family_table_vandermonde_3_3", family_table_vandermonde_3_3},
        {"example_family_table_into_a_wrong_buffer", family_table_into_a_wrong_buffer},
        {"example_family_table_of_no_family", family_table_of_no_family},
        {"example_judge_house_table", judge_house_table},
        {"example_judge_says_no_of_decodable_table", judge_says_no_of_decodable_table},
        {"example_judge_one_row_or_one_column", judge_one_row_or_one_column},
        {"example_largest_entry_taken_one_more_refused", largest_entry_taken_one_more_refused},
        {"example_longest_source_taken_one_more_refused", longest_source_taken_one_more_refused},
        {"example_longest_parity_is_reached", longest_parity_is_reached},
        {"example_each_parity_at_its_own_length", each_parity_at_its_own_length},
        {"example_row_of_noughts_takes_a_sources_length", row_of_noughts_takes_a_sources_length},
        {"example_parities_length_of_8_and_8", parities_length_of_8_and_8},
        {"example_parities_length_refused_in_order", parities_length_refused_in_order},
        {"example_marks_16_refused_with_6", marks_16_refused_with_6},
        {"example_marks_7_refused_with_7", marks_7_refused_with_7},
        {"example_marks_are_not_cut_to_16_bits", marks_are_not_cut_to_16_bits},
    };
    return run_named_tests(tests, sizeof tests / sizeof tests[0]);
}
