/* Encoding: all parities, and each packet by itself. */
#include "calls_encode.h"
#include "calls_packet.h"
#include "check.h"
#include "random.h"

#include <string.h>

static void compare_all_packets(question *q)
{
    q->packet = 0;
    set_bytes(&q->output, parities_bytes(q));
    compare(&encode_all_call, q);
    for (q->packet = 1; q->packet <= q->k + q->m; q->packet++) {
        set_bytes(&q->output, packet_bytes(q, q->packet));
        compare(&packet_of_sources_call, q);
    }
}

/* One source of one byte, every byte, at every shift. */
static void every_byte_at_every_shift(void)
{
    question q = house_question(1, 1, 1);
    q.input.length = 1;
    for (int shift = 0; shift <= WH_MAX_SHIFT; shift++) {
        for (int byte = 0; byte < 256; byte++) {
            q.table.at[0] = (uint8_t)shift;
            q.input.at[0] = (uint8_t)byte;
            compare_all_packets(&q);
        }
    }
}

/* A source of every length at every shift, all of it ones: each byte carries into the next. */
static void every_length_at_every_shift(void)
{
    question q = house_question(1, 1, 1);
    for (q.l = 1; q.l <= WH_MAX_LENGTH; q.l++) {
        q.input.length = (size_t)q.l;
        memset(q.input.at, 0xFF, q.input.length);
        for (int shift = 0; shift <= WH_MAX_SHIFT; shift++) {
            q.table.at[0] = (uint8_t)shift;
            compare_all_packets(&q);
        }
    }
}

/* A single one among zeros, at each place of each source. */
static void every_single_one(void)
{
    question q = house_question(3, 3, 3);
    q.input.length = 9;
    for (int p = 0; p < 72; p++) {
        memset(q.input.at, 0, 9);
        q.input.at[p / 8] = (uint8_t)(1 << (p % 8));
        compare_all_packets(&q);
    }
}

static void every_family_table(void)
{
    for (uint64_t table = 0; table < FAMILY_TABLES; table++) {
        question q = family_question(table);
        q.l = random_between(1, WH_MAX_LENGTH);
        set_bytes(&q.input, q.k * q.l);
        compare_all_packets(&q);
    }
}

/* One parity as long as one can be, then all of them. */
static void at_the_limits(void)
{
    for (int i = 0; i < 20; i++) {
        question q = i % 4 == 3 ? longest_question() : largest_question();
        q.table.at[random_below(q.table.length)] = WH_MAX_SHIFT;
        set_bytes(&q.input, q.k * q.l);
        compare_all_packets(&q);
    }
}

/* Two sources at equal shifts take each other out where they are equal. */
static void equal_sources_cancel(void)
{
    question q = house_question(2, 1, 1);
    for (q.l = 1; q.l <= WH_MAX_LENGTH; q.l++) {
        set_bytes(&q.input, 2 * q.l);
        memcpy(q.input.at + q.l, q.input.at, q.l);
        q.table.at[0] = q.table.at[1] = (uint8_t)random_below(WH_MAX_SHIFT + 1);
        compare_all_packets(&q);
    }
}

static void encode_all_takes_any_numbers(void)
{
    compare_any_numbers(&encode_all_call, 10);
}

static void encode_all_spoiled(void)
{
    compare_spoiled(&encode_all_call, 6000);
}

int main(void)
{
    static const named_test tests[] = {
        {"encode_every_byte_at_every_shift", every_byte_at_every_shift},
        {"encode_every_length_at_every_shift", every_length_at_every_shift},
        {"encode_every_single_one", every_single_one},
        {"encode_every_family_table", every_family_table},
        {"encode_at_the_limits", at_the_limits},
        {"encode_equal_sources_cancel", equal_sources_cancel},
        {"encode_all_takes_any_numbers", encode_all_takes_any_numbers},
        {"encode_all_spoiled", encode_all_spoiled},
    };
    return run_named_tests(tests, sizeof tests / sizeof tests[0]);
}
