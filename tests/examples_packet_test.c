/* Worked examples of any one packet,
 * and inputs that tell known wrong programs from right ones. */
#include "calls_packet.h"
#include "check.h"
#include "example.h"

static void packet_of_sources(void)
{
    question q = with_marks(example(), 3, "80 C0");
    gives(&packet_call, wanting(q, 4), done(), "80 03");
    gives(&packet_call, wanting(q, 2), done(), "C0");
}

static void packet_of_parities(void)
{
    question q = with_marks(example(), 12, "00 01 80 03");
    gives(&packet_call, wanting(q, 1), done(), "80");
    gives(&packet_call, wanting(q, 2), done(), "C0");
    gives(&packet_call, wanting(q, 3), done(), "00 01");
}

/* Source 2 stands first among the packets, parity 1 behind it. */
static void packet_of_a_source_and_a_parity(void)
{
    question q = with_marks(example(), 6, "C0 00 01");
    gives(&packet_call, wanting(q, 1), done(), "80");
    gives(&packet_call, wanting(q, 2), done(), "C0");
    gives(&packet_call, wanting(q, 3), done(), "00 01");
    gives(&packet_call, wanting(q, 4), done(), "80 03");
}

/* Together as long as two sources, but the second is a parity: its row has no shift. */
static void packet_of_what_is_as_long_as_sources(void)
{
    question q = with_marks(with_table(2, 2, "00 00 00 01"), 5, "80 40");
    gives(&packet_call, wanting(q, 2), done(), "C0");
    gives(&packet_call, wanting(q, 4), done(), "00 01");
}

static void packet_at_hand_is_not_just_copied(void)
{
    question q = wanting(with_marks(example(), 12, "03 00 05 01"), 3);
    refuses(&packet_call, q, refused(WH_FOREIGN), 2);
}

/* A source at hand, and a bit of the parity that no step reads. */
static void packet_of_a_source_at_hand_is_10(void)
{
    question q = wanting(with_marks(example(), 9, "01 04 00"), 1);
    refuses(&packet_call, q, refused(WH_FOREIGN), 1);
}

static void packet_from_a_stray_one_is_9(void)
{
    question q = wanting(with_marks(example(), 12, "03 00 05 04"), 3);
    refuses(&packet_call, q, refused(WH_STRAY), 2);
}

static void packet_past_a_stall_is_8(void)
{
    question q = wanting(with_marks(with_table(2, 2, "00 07 00 07"), 12, "00 00 00 00"), 1);
    refuses(&packet_call, q, refused(WH_STALL), 1);
}

/* The same table: where no source is missing nothing stalls. */
static void packet_of_sources_never_stalls(void)
{
    question q = wanting(with_marks(with_table(2, 2, "00 07 00 07"), 3, "80 C0"), 3);
    gives(&packet_call, q, done(), "80 60");
}

static void packet_each_at_its_own_length(void)
{
    question uneven = with_table(2, 2, "00 01 00 09");
    const question questions[] = {with_marks(uneven, 3, "80 C0"),
                                  with_marks(uneven, 12, "00 01 80 80 01")};
    for (size_t i = 0; i < 2; i++) {
        const question q = questions[i];
        gives(&packet_call, wanting(q, 2), done(), "C0");
        refuses(&packet_call, wanting(q, 2), refused(WH_OUTPUT), 2);
        gives(&packet_call, wanting(q, 3), done(), "00 01");
        refuses(&packet_call, wanting(q, 3), refused(WH_OUTPUT), 3);
        gives(&packet_call, wanting(q, 4), done(), "80 80 01");
        refuses(&packet_call, wanting(q, 4), refused(WH_OUTPUT), 2);
    }
}

static void packet_0_and_5_are_6(void)
{
    question q = with_marks(example(), 3, "80 C0");
    refuses(&packet_call, wanting(q, 5), refused(WH_PACKET), 2);
    refuses(&packet_call, wanting(q, 0), refused(WH_PACKET), 1);
}

/* Each has more faults than the one that is told. */
static void packet_refused_by_the_first_fault(void)
{
    question q = wanting(with_table(2, 2, "00 07 00 07"), 1);
    refuses(&packet_call, wanting(with_marks(q, 12, "FF"), 5), refused(WH_PACKET), 2);
    refuses(&packet_call, wanting(with_marks(q, 15, "FF"), 5), refused(WH_PACKET), 2);
    refuses(&packet_call, with_marks(q, 0x18, "FF"), refused(WH_PACKET), 2);
    refuses(&packet_call, with_marks(q, 0x1F, "FF"), refused(WH_PACKET), 2);
    refuses(&packet_call, with_marks(q, 15, "FF"), refused(WH_MARKS), 2);
    refuses(&packet_call, with_marks(q, 12, "FF"), refused(WH_INPUT), 2);
    refuses(&packet_call, with_marks(q, 12, "FF FF FF FF"), refused(WH_OUTPUT), 2);
    refuses(&packet_call, with_marks(q, 12, "FF FF FF FF"), refused(WH_STALL), 1);
}

int main(void)
{
    static const named_test tests[] = {
        {"example_packet_of_sources", packet_of_sources},
        {"example_packet_of_parities", packet_of_parities},
        {"example_packet_of_a_source_and_a_parity", packet_of_a_source_and_a_parity},
        {"example_packet_of_what_is_as_long_as_sources", packet_of_what_is_as_long_as_sources},
        {"example_packet_at_hand_is_not_just_copied", packet_at_hand_is_not_just_copied},
        {"example_packet_of_a_source_at_hand_is_10", packet_of_a_source_at_hand_is_10},
        {"example_packet_from_a_stray_one_is_9", packet_from_a_stray_one_is_9},
        {"example_packet_past_a_stall_is_8", packet_past_a_stall_is_8},
        {"example_packet_of_sources_never_stalls", packet_of_sources_never_stalls},
        {"example_packet_each_at_its_own_length", packet_each_at_its_own_length},
        {"example_packet_0_and_5_are_6", packet_0_and_5_are_6},
        {"example_packet_refused_by_the_first_fault", packet_refused_by_the_first_fault},
    };
    return run_named_tests(tests, sizeof tests / sizeof tests[0]);
}
