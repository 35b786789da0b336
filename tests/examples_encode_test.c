/* Worked examples of encoding,
 * and inputs that tell known wrong programs from right ones. */
#include "calls_encode.h"
#include "calls_packet.h"
#include "check.h"
#include "example.h"

static void encode_01_01(void)
{
    question q = with_input(example(), "01 01");
    gives(&encode_all_call, q, done(), "03 00 05 00");
}

static void encode_80_C0_with_carry(void)
{
    question q = with_input(example(), "80 C0");
    gives(&encode_all_call, q, done(), "00 01 80 03");
    gives(&packet_of_sources_call, wanting(q, 4), done(), "80 03");
}

static void encode_with_uneven_rows(void)
{
    question q = with_input(with_table(2, 2, "00 01 00 09"), "01 01");
    gives(&encode_all_call, q, done(), "03 00 01 02 00");
    gives(&encode_all_call, with_input(q, "80 C0"), done(), "00 01 80 80 01");
    gives(&packet_of_sources_call, wanting(q, 3), done(), "03 00");
    gives(&packet_of_sources_call, wanting(q, 4), done(), "01 02 00");
}

/* As long as if both were as long as the longer one, or as the shorter. */
static void encode_with_one_length_for_all_is_5(void)
{
    question q = with_input(with_table(2, 2, "00 01 00 09"), "01 01");
    refuses(&encode_all_call, q, refused(WH_OUTPUT), 6);
    refuses(&encode_all_call, q, refused(WH_OUTPUT), 4);
    refuses(&packet_of_sources_call, wanting(q, 3), refused(WH_OUTPUT), 3);
    refuses(&packet_of_sources_call, wanting(q, 4), refused(WH_OUTPUT), 2);
}

/* The third parity stands behind the longer second one. */
static void encode_three_rows_of_three_lengths(void)
{
    question q = with_input(with_table(2, 3, "00 00 00 09 00 01"), "01 01");
    gives(&encode_all_call, q, done(), "00  01 02 00  03 00");
}

/* Eight times the first parity's length is what all take here, but parity 4 is shorter and parity 8
 * longer. */
static void encode_where_the_first_length_fits_by_chance(void)
{
    question q = with_input(house_question(2, 8, 1), "01 01");
    set_family_table(&q, WH_HANKEL);
    gives(&encode_all_call, q, done(), "48 00  0A 00  03 00  00  03 00  0A 00  48 00  40 04 00");
}

static void encode_of_a_source_is_a_copy(void)
{
    question q = wanting(with_input(example(), "80 C0"), 2);
    gives(&packet_of_sources_call, q, done(), "C0");
    refuses(&packet_of_sources_call, q, refused(WH_OUTPUT), 2);
}

static void encode_of_packet_99_is_6(void)
{
    question q = wanting(with_input(example(), "80"), 99);
    refuses(&packet_of_sources_call, q, refused(WH_PACKET), 7);
}

static void encode_input_before_output(void)
{
    question q = with_input(example(), "80 C0 00");
    refuses(&encode_all_call, q, refused(WH_INPUT), 5);
    refuses(&packet_of_sources_call, wanting(q, 3), refused(WH_INPUT), 5);
}

int main(void)
{
    static const named_test tests[] = {
        {"example_encode_01_01", encode_01_01},
        {"example_encode_80_C0_with_carry", encode_80_C0_with_carry},
        {"example_encode_with_uneven_rows", encode_with_uneven_rows},
        {"example_encode_with_one_length_for_all_is_5", encode_with_one_length_for_all_is_5},
        {"example_encode_three_rows_of_three_lengths", encode_three_rows_of_three_lengths},
        {"example_encode_where_the_first_length_fits_by_chance",
         encode_where_the_first_length_fits_by_chance},
        {"example_encode_of_a_source_is_a_copy", encode_of_a_source_is_a_copy},
        {"example_encode_of_packet_99_is_6", encode_of_packet_99_is_6},
        {"example_encode_input_before_output", encode_input_before_output},
    };
    return run_named_tests(tests, sizeof tests / sizeof tests[0]);
}
