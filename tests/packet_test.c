/* Any one packet: of whatever is at hand, and of the sources, which is to encode it. */
#include "calls_packet.h"
#include "check.h"
#include "random.h"

/* ---- Of whatever is at hand ------------------------------------------------------------------ */

/* Each packet that there is, lost or at hand. */
static void compare_every_packet(question *q)
{
    for (q->packet = 1; q->packet <= q->k + q->m; q->packet++) {
        set_bytes(&q->output, packet_bytes(q, q->packet));
        compare(&packet_call, q);
    }
}

static void compare_fitted(question *q)
{
    fit_survivors(q, 0);
    compare_every_packet(q);
}

static void all_marks_of_small_shapes(void)
{
    ask_at_all_small_marks(compare_fitted);
}

static void every_packet(void)
{
    question q;
    for (int i = 0; i < 500; i++) {
        draw_small_shape(&q, 4, 4);
        draw_marks(&q);
        fit_survivors(&q, 0);
        if (i % 3 == 0) {
            damage(&q.input);
        }
        compare_every_packet(&q);
    }
}

/* From packets that were encoded from sources the wanted packet is that of these sources. The
 * call's model is not asked. */
static void expect_encoded(question *q, uint64_t packet)
{
    bytes sources, right_output;
    answer right = done();
    q->packet = packet;
    set_bytes(&sources, q->k * q->l);
    set_bytes(&q->output, packet_bytes(q, packet));
    q->input.length = (size_t)survivors_bytes(q);
    encode_survivors(q, sources.at, q->input.at);
    encode_packet(q, sources.at, packet, right_output.at);
    expect(&packet_call, q, &right, right_output.at);
}

static void encoded_for_every_choice(void)
{
    for (uint64_t table = 0; table < FAMILY_TABLES; table++) {
        question q = family_question(table);
        while (next_choice(&q)) {
            expect_encoded(&q, random_between(1, q.k + q.m));
        }
    }
}

/* All sources missing, then none. */
static void encoded_at_the_limits(void)
{
    for (int i = 0; i < 4; i++) {
        question q = i % 2 == 1 ? longest_question() : largest_question();
        if (i < 2) {
            lose_every_source(&q);
        } else {
            keep_every_source(&q);
        }
        for (uint64_t packet = 1; packet <= q.k + q.m; packet++) {
            expect_encoded(&q, packet);
        }
    }
}

static void takes_any_numbers(void)
{
    compare_any_numbers(&packet_call, 6);
}

static void spoiled(void)
{
    compare_spoiled(&packet_call, 3000);
}

/* ---- Of the sources: marks 1 to k ------------------------------------------------------------ */

static void of_sources_drawn(void)
{
    question q;
    for (int i = 0; i < 3000; i++) {
        draw_for_packet_of_sources(&q);
        compare(&packet_of_sources_call, &q);
    }
}

static void of_sources_takes_any_numbers(void)
{
    compare_any_numbers(&packet_of_sources_call, 10);
}

static void of_sources_spoiled(void)
{
    compare_spoiled(&packet_of_sources_call, 10000);
}

/* Any part of it may be anything: a number of any size, small ones as often as huge ones; a buffer
 * of any bytes, and of any length or the right one. */
static void draw_anything(question *q)
{
    draw_for_packet_of_sources(q);
    uint64_t *numbers[] = {&q->k, &q->m, &q->l, &q->packet};
    bytes *buffers[] = {&q->table, &q->input, &q->output};
    for (size_t i = 0; i < sizeof numbers / sizeof numbers[0]; i++) {
        if (random_below(4) == 0) {
            *numbers[i] = random_number() >> random_below(64);
        }
    }
    for (size_t i = 0; i < sizeof buffers / sizeof buffers[0]; i++) {
        if (random_below(4) == 0) {
            bool right = random_below(2) == 0;
            set_bytes(buffers[i], right ? buffers[i]->length : random_below(BYTES_MOST + 1));
        }
    }
}

static void of_sources_anything(void)
{
    question q;
    for (int i = 0; i < 10000; i++) {
        draw_anything(&q);
        compare(&packet_of_sources_call, &q);
    }
}

/* Sources of no bytes, of one too few, of all and of one too many, each into outputs around the
 * wanted packet's length. */
static void compare_around(question *q, uint64_t packet)
{
    const uint64_t all = q->k * q->l, lengths[] = {0, all - 1, all, all + 1};
    q->packet = packet;
    uint64_t around = bad_packet(q) ? q->l : packet_bytes(q, packet);
    for (size_t i = 0; i < sizeof lengths / sizeof lengths[0]; i++) {
        set_bytes(&q->input, lengths[i]);
        compare_into_outputs(&packet_of_sources_call, q, (size_t)around);
    }
}

/* Every packet's number, the two beside them, and huge ones, of which some are right when bits are
 * cut. */
static void of_sources_around_every_length(void)
{
    question q;
    for (int i = 0; i < 60; i++) {
        draw_shape(&q);
        for (uint64_t packet = 0; packet <= q.k + q.m + 1; packet++) {
            compare_around(&q, packet);
        }
        compare_around(&q, 256 + q.k);
        compare_around(&q, ((uint64_t)1 << 32) + q.k);
        compare_around(&q, ((uint64_t)1 << 63) + q.k);
        compare_around(&q, UINT64_MAX);
    }
}

/* Input that is as long as what other marks have at hand, which may be the sources' length. */
static void of_sources_as_long_as_other_packets(void)
{
    question q;
    for (int i = 0; i < 200; i++) {
        draw_small_shape(&q, 4, 4);
        q.packet = random_between(1, q.k + q.m);
        set_bytes(&q.output, packet_bytes(&q, q.packet));
        while (next_choice(&q)) {
            set_bytes(&q.input, survivors_bytes(&q));
            compare(&packet_of_sources_call, &q);
        }
    }
}

static void of_sources_null_with_a_length(void)
{
    compare_null(&packet_of_sources_call, 50);
}

static void of_sources_too_long(void)
{
    compare_too_long(&packet_of_sources_call, 50);
}

int main(void)
{
    static const named_test tests[] = {
        {"packet_all_marks_of_small_shapes", all_marks_of_small_shapes},
        {"packet_every_packet", every_packet},
        {"packet_encoded_for_every_choice", encoded_for_every_choice},
        {"packet_encoded_at_the_limits", encoded_at_the_limits},
        {"packet_takes_any_numbers", takes_any_numbers},
        {"packet_spoiled", spoiled},
        {"packet_of_sources_drawn", of_sources_drawn},
        {"packet_of_sources_takes_any_numbers", of_sources_takes_any_numbers},
        {"packet_of_sources_spoiled", of_sources_spoiled},
        {"packet_of_sources_anything", of_sources_anything},
        {"packet_of_sources_around_every_length", of_sources_around_every_length},
        {"packet_of_sources_as_long_as_other_packets", of_sources_as_long_as_other_packets},
        {"packet_of_sources_null_with_a_length", of_sources_null_with_a_length},
        {"packet_of_sources_too_long", of_sources_too_long},
    };
    return run_named_tests(tests, sizeof tests / sizeof tests[0]);
}
