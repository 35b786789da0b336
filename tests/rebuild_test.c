/* Rebuild and look. */
#include "calls_rebuild.h"
#include "check.h"
#include "random.h"

#include <string.h>

/* Encoded packets give the sources back; the count is 8 l for each missing one. */
static void expect_round_trip(question *q)
{
    bytes sources;
    uint64_t missing_sources = 0;
    set_bytes(&sources, q->k * q->l);
    set_bytes(&q->output, q->k * q->l);
    q->input.length = (size_t)survivors_bytes(q);
    encode_survivors(q, sources.at, q->input.at);
    for (uint64_t b = 1; b <= q->k; b++) {
        missing_sources += missing(q, b) ? 1 : 0;
    }
    answer right = done_with(8 * q->l * missing_sources);
    expect(&rebuild_call, q, &right, sources.at);
}

static void round_trip_of_every_choice(void)
{
    for (uint64_t table = 0; table < FAMILY_TABLES; table++) {
        question q = family_question(table);
        while (next_choice(&q)) {
            expect_round_trip(&q);
        }
    }
}

static void round_trip_of_every_length(void)
{
    for (uint64_t l = 1; l <= WH_MAX_LENGTH; l++) {
        for (int i = 0; i < 10; i++) {
            question q = family_question(random_below(FAMILY_TABLES));
            q.l = l;
            draw_marks(&q);
            expect_round_trip(&q);
        }
    }
}

static void round_trip_at_the_limits(void)
{
    question q = largest_question();
    for (uint64_t i = 0; i < 4 * WH_FAMILIES; i++) {
        set_family_table(&q, i % WH_FAMILIES + 1);
        lose_every_source(&q);
        expect_round_trip(&q);
        draw_marks(&q);
        expect_round_trip(&q);
    }
    q = longest_question();
    lose_every_source(&q);
    expect_round_trip(&q);
}

/* Against elimination, with all sources missing and long, and every parity as long as one can be in
 * half of the cases. */
static void rebuild_at_the_limits(void)
{
    for (size_t i = 0; i < 4; i++) {
        question q = i % 2 == 1 ? longest_question() : largest_question();
        lose_every_source(&q);
        fit_survivors(&q, q.k * q.l);
        q.input.at[i == 3 ? 100 : 0] ^= i >= 2 ? 4 : 0;
        compare(&rebuild_call, &q);
    }
}

static void compare_fitted(question *q)
{
    fit_survivors(q, q->k * q->l);
    compare(&rebuild_call, q);
}

static void all_marks_of_small_shapes(void)
{
    ask_at_all_small_marks(compare_fitted);
}

/* Every value of a lone parity of one source, so every kind of damage it can have. */
static void every_lone_parity(void)
{
    static const uint8_t shifts[] = {0, 1, 3, 7, 8};
    question q = house_question(1, 1, 1);
    q.marks = 2;
    for (size_t i = 0; i < sizeof shifts; i++) {
        q.table.at[0] = shifts[i];
        fit_survivors(&q, 1);
        for (uint32_t value = 0; value < (q.input.length == 1 ? 256 : 65536); value++) {
            q.input.at[0] = (uint8_t)value;
            q.input.at[q.input.length - 1] = (uint8_t)(q.input.length == 1 ? value : value >> 8);
            compare(&rebuild_call, &q);
        }
    }
}

/* Both parities of two sources, each byte from a telling set. */
static void compare_telling_bytes(const uint8_t table[4])
{
    static const uint8_t telling[] = {0x00, 0x01, 0x02, 0x03, 0x05, 0x80, 0xC0, 0xFF};
    question q = house_question(2, 2, 1);
    memcpy(q.table.at, table, 4);
    q.marks = 12;
    q.input.length = (size_t)survivors_bytes(&q);
    for (size_t i = 0; i >> 3 * q.input.length == 0; i++) {
        for (size_t j = 0; j < q.input.length; j++) {
            q.input.at[j] = telling[i >> 3 * j & 7];
        }
        set_bytes(&q.output, 2);
        compare(&rebuild_call, &q);
    }
}

/* The last two tables have one parity a byte longer than the other. */
static void telling_bytes_in_two_parities(void)
{
    static const uint8_t tables[][4] = {{0, 1, 0, 2}, {0, 8, 0, 8}, {1, 2, 1, 3},
                                        {0, 7, 0, 7}, {0, 1, 0, 9}, {0, 9, 0, 1}};
    for (size_t i = 0; i < sizeof tables / sizeof tables[0]; i++) {
        compare_telling_bytes(tables[i]);
    }
}

/* Each bit of a parity's last byte turned over: WH_STRAY above its own row's last bit, and nowhere
 * else. */
static void expect_stray_above_the_row(question *q, uint64_t a)
{
    uint64_t packet = q->k + a, place = packet_place(q, packet), bytes = packet_bytes(q, packet);
    for (uint64_t p = 8 * (bytes - 1); p < 8 * bytes; p++) {
        q->input.at[place + p / 8] ^= (uint8_t)(1 << (p % 8));
        uint64_t number = compare(&rebuild_call, q).number;
        if ((number == WH_STRAY) != (p >= parity_bits(q, a))) {
            fail("another last bit");
        }
        q->input.at[place + p / 8] ^= (uint8_t)(1 << (p % 8));
    }
}

static void stray_goes_by_the_row(void)
{
    for (uint64_t table = 0; table < FAMILY_TABLES; table++) {
        question q = family_question(table);
        draw_marks(&q);
        fit_survivors(&q, q.k * q.l);
        for (uint64_t a = 1; a <= q.m; a++) {
            if (at_hand(&q, q.k + a)) {
                expect_stray_above_the_row(&q, a);
            }
        }
    }
}

/* Each single bit of good packets turned over, for every choice of packets. */
static void every_single_bit_turned_over(void)
{
    question q;
    for (int i = 0; i < 40; i++) {
        draw_small_shape(&q, 3, 2);
        while (next_choice(&q)) {
            fit_survivors(&q, q.k * q.l);
            for (size_t p = 0; p < 8 * q.input.length; p++) {
                q.input.at[p / 8] ^= (uint8_t)(1 << (p % 8));
                compare(&rebuild_call, &q);
                q.input.at[p / 8] ^= (uint8_t)(1 << (p % 8));
            }
        }
    }
}

/* Good packets of other sources beside good packets of these. */
static void packets_of_two_logbooks(void)
{
    question q;
    for (int i = 0; i < 3000; i++) {
        draw_small_shape(&q, 4, 3);
        draw_marks(&q);
        fit_survivors(&q, q.k * q.l);
        bytes kept = q.input;
        fit_survivors(&q, q.k * q.l);
        size_t half = (size_t)random_below(q.input.length + 1);
        memcpy(q.input.at, kept.at, half);
        compare(&rebuild_call, &q);
    }
}

static void damaged_packets_of_any_shape(void)
{
    compare_damaged(2500);
}

static void rebuild_takes_any_numbers(void)
{
    compare_any_numbers(&rebuild_call, 6);
}

static void rebuild_spoiled(void)
{
    compare_spoiled(&rebuild_call, 3000);
}

static void look_at_every_source_of_small_shapes(void)
{
    for (uint64_t shape = 0; shape < 27; shape++) {
        question q = house_question(shape / 9 + 1, shape / 3 % 3 + 1, shape % 3 + 1);
        for (q.marks = 0; q.marks < (uint64_t)2 << (q.k + q.m); q.marks++) {
            set_bytes(&q.input, survivors_bytes(&q));
            set_bytes(&q.rebuilt, q.k * q.l);
            for (q.source = 0; q.source <= q.k + q.m + 1; q.source++) {
                compare(&look_call, &q);
            }
        }
    }
}

/* The place becomes a pointer into the buffer that was lent, and so the source's own bytes. */
static void look_hands_out_no_copy(void)
{
    question q;
    for (int i = 0; i < 2000; i++) {
        draw_for_look(&q);
        lent at = lend(&q, FLUSH_AT_END);
        wh_looked looked = wh_look(q.k, q.m, q.l, at.table, q.table.length, q.marks, q.source,
                                   at.input, q.input.length, at.rebuilt, q.rebuilt.length);
        const uint8_t *right = missing(&q, q.source) ? at.rebuilt + (q.source - 1) * q.l
                                                     : at.input + packet_place(&q, q.source);
        if (wh_look_at(looked, at.input, at.rebuilt) != right) {
            fail("another place");
        }
    }
}

static void look_refused_is_nowhere(void)
{
    const uint8_t table[4] = {0, 1, 0, 2}, survivors[4] = {0}, rebuilt[2] = {0};
    wh_looked looked = wh_look(2, 2, 1, table, 4, 12, 3, survivors, 4, rebuilt, 2);
    if (looked.number != WH_PACKET || wh_look_at(looked, survivors, rebuilt) != NULL) {
        fail("a place although refused");
    }
}

static void look_takes_any_numbers(void)
{
    compare_any_numbers(&look_call, 20);
}

static void look_spoiled(void)
{
    compare_spoiled(&look_call, 15000);
}

static void slots_are_set_when_refused(void)
{
    const uint8_t table[4] = {0, 1, 0, 2}, packets[4] = {3, 0, 5, 1};
    uint64_t slots[4] = {77, 77, 77, 77};
    uint8_t out[2];
    expect_number(whx_rebuild(2, 2, 1, table, 4, 12, packets, 4, out, 2, &slots[0]), WH_FOREIGN);
    expect_number(
        whx_look(2, 2, 1, table, 4, 12, 1, packets, 4, out, 1, &slots[1], &slots[2], &slots[3]),
        WH_INPUT);
    expect_zeros(slots, 4);
}

int main(void)
{
    static const named_test tests[] = {
        {"round_trip_of_every_choice", round_trip_of_every_choice},
        {"round_trip_of_every_length", round_trip_of_every_length},
        {"round_trip_at_the_limits", round_trip_at_the_limits},
        {"rebuild_at_the_limits", rebuild_at_the_limits},
        {"rebuild_all_marks_of_small_shapes", all_marks_of_small_shapes},
        {"rebuild_every_lone_parity", every_lone_parity},
        {"rebuild_telling_bytes_in_two_parities", telling_bytes_in_two_parities},
        {"rebuild_stray_goes_by_the_row", stray_goes_by_the_row},
        {"rebuild_every_single_bit_turned_over", every_single_bit_turned_over},
        {"rebuild_packets_of_two_logbooks", packets_of_two_logbooks},
        {"rebuild_damaged_packets_of_any_shape", damaged_packets_of_any_shape},
        {"rebuild_takes_any_numbers", rebuild_takes_any_numbers},
        {"rebuild_spoiled", rebuild_spoiled},
        {"look_at_every_source_of_small_shapes", look_at_every_source_of_small_shapes},
        {"look_hands_out_no_copy", look_hands_out_no_copy},
        {"look_refused_is_nowhere", look_refused_is_nowhere},
        {"look_takes_any_numbers", look_takes_any_numbers},
        {"look_spoiled", look_spoiled},
        {"rebuild_slots_are_set_when_refused", slots_are_set_when_refused},
    };
    return run_named_tests(tests, sizeof tests / sizeof tests[0]);
}
