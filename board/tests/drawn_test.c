/* Each call at drawn questions: good ones, spoiled ones, and ones with every telling number. */
#include "calls_block.h"
#include "calls_chain.h"
#include "calls_encode.h"
#include "calls_packet.h"
#include "calls_steps.h"
#include "calls_table.h"
#include "calls_walk.h"
#include "check.h"

static void compare_drawn(const call *asked)
{
    compare_any_numbers(asked, 1);
    compare_spoiled(asked, 300);
}

static void family_table(void)
{
    compare_drawn(&family_table_call);
}

static void judge(void)
{
    compare_drawn(&judge_call);
}

static void packet_length(void)
{
    compare_drawn(&packet_length_call);
}

static void parities_length(void)
{
    compare_drawn(&parities_length_call);
}

static void survivors_length(void)
{
    compare_drawn(&survivors_length_call);
}

static void encode_all(void)
{
    compare_drawn(&encode_all_call);
}

static void packet_of_sources(void)
{
    compare_drawn(&packet_of_sources_call);
}

static void walk(void)
{
    compare_drawn(&walk_call);
}

static void next_step(void)
{
    compare_drawn(&next_step_call);
}

static void check_steps(void)
{
    compare_drawn(&check_steps_call);
}

static void block(void)
{
    compare_drawn(&block_call);
}

static void read_blocks(void)
{
    compare_drawn(&read_blocks_call);
}

static void write_blocks(void)
{
    compare_drawn(&write_blocks_call);
}

/* Packets around one and two blocks of the size that cards have by default, and the longest. */
static void written_and_read(void)
{
    static const uint64_t lengths[] = {0, 1, 31, 32, 33, 63, WH_LONGEST};
    static const uint64_t sizes[] = {1, 2, 31, 32, 33, WH_LONGEST, WH_MAX_INFORMATION};
    for (size_t i = 0; i < 7 * 7; i++) {
        compare_written_and_read(lengths[i / 7], sizes[i % 7]);
    }
}

/* As many sources and parities as there can be, all sources missing and as long as they can be; at
 * last every parity too. */
static void at_the_limits(void)
{
    question q = largest_question();
    lose_every_source(&q);
    compare(&walk_call, &q);
    for (int i = 0; i < 2 * WH_FAMILIES; i++) {
        set_family_table(&q, (uint64_t)i / 2 + 1);
        if (i % 2 == 1) {
            q.table.at[q.table.length - 1] = WH_MAX_SHIFT;
        }
        fit_sources(&q, parities_bytes(&q));
        compare(&encode_all_call, &q);
    }
    q = longest_question();
    fit_sources(&q, parities_bytes(&q));
    compare(&encode_all_call, &q);
}

int main(void)
{
    static const named_test tests[] = {
        {"drawn_family_table", family_table},
        {"drawn_judge", judge},
        {"drawn_packet_length", packet_length},
        {"drawn_parities_length", parities_length},
        {"drawn_survivors_length", survivors_length},
        {"drawn_encode_all", encode_all},
        {"drawn_packet_of_sources", packet_of_sources},
        {"drawn_walk", walk},
        {"drawn_next_step", next_step},
        {"drawn_check_steps", check_steps},
        {"drawn_block", block},
        {"drawn_read_blocks", read_blocks},
        {"drawn_write_blocks", write_blocks},
        {"drawn_written_and_read", written_and_read},
        {"drawn_at_the_limits", at_the_limits},
    };
    return run_named_tests(tests, sizeof tests / sizeof tests[0]);
}
