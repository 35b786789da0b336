/* Long logs, which no question holds: up to sixteen stripes of any size. */
#include "calls_log.h"
#include "check.h"
#include "random.h"

#include <inttypes.h>
#include <string.h>

enum { PACKETS_MOST = WH_MAX_K * WH_LONGEST, SOURCES_MOST = WH_MAX_K * WH_MAX_LENGTH };

/* The shape, the stripes and the marks are a question's. */
static uint8_t sources[WH_MAX_STRIPES * SOURCES_MOST], packets[WH_MAX_STRIPES * PACKETS_MOST];
static uint8_t output[WH_MAX_STRIPES * SOURCES_MOST], right_output[WH_MAX_STRIPES * SOURCES_MOST];

/* ---- Expected answers ---- */

static void expect_lent(const question *q, lending way, const answer *right)
{
    size_t packets_length = (size_t)(q->stripes * survivors_bytes(q));
    size_t output_length = (size_t)(q->stripes * q->k * q->l);
    lent at = lend(q, way);
    lend_log(&at, packets, packets_length, output, output_length, way);
    wh_log_rebuilt got =
        wh_rebuild_log(q->k, q->m, q->l, at.table, q->table.length, q->stripes, q->marks, at.input,
                       packets_length, at.output, output_length);
    if (got.number != right->number || got.good != right->results[0] ||
        got.count != right->results[1]) {
        fail("%" PRIu64 ", good %" PRIu64 ", count %" PRIu64 ", not %" PRIu64 ", %" PRIu64
             ", %" PRIu64 " (k %d m %d l %d stripes %d marks %d)",
             got.number, got.good, got.count, right->number, right->results[0], right->results[1],
             (int)q->k, (int)q->m, (int)q->l, (int)q->stripes, (int)q->marks);
    }
    if (memcmp(at.output, right_output, output_length) != 0) {
        fail("another output (k %d m %d l %d stripes %d marks %d)", (int)q->k, (int)q->m, (int)q->l,
             (int)q->stripes, (int)q->marks);
    }
    if (memcmp(at.input, packets, packets_length) != 0) {
        fail("the packets have changed");
    }
}

static void expect_log(const question *q, answer right)
{
    expect_lent(q, FLUSH_AT_END, &right);
    expect_lent(q, FLUSH_AT_START, &right);
}

/* ---- Logs ---- */

/* So many stripes, encoded from random sources, and an output with random bytes. */
static void draw_log(question *q, uint64_t stripes)
{
    q->stripes = stripes;
    random_bytes(sources, (size_t)(stripes * q->k * q->l));
    random_bytes(output, (size_t)(stripes * q->k * q->l));
    for (uint64_t t = 0; t < stripes; t++) {
        encode_survivors(q, sources + t * q->k * q->l, packets + t * survivors_bytes(q));
    }
}

static void damage_packets(const question *q, uint64_t t)
{
    bytes stripe;
    stripe.length = (size_t)survivors_bytes(q);
    memcpy(stripe.at, packets + t * stripe.length, stripe.length);
    damage(&stripe);
    memcpy(packets + t * stripe.length, stripe.at, stripe.length);
}

static uint64_t any_stripes(void)
{
    return random_between(1, WH_MAX_STRIPES);
}

static void draw_uneven_marks(question *q)
{
    do {
        draw_marks(q);
    } while (!is_uneven(q));
}

static question draw_uneven_question(uint64_t longest)
{
    question q = house_question(random_between(4, WH_MAX_K), random_between(4, WH_MAX_M), 1);
    q.l = random_between(1, longest);
    draw_uneven_marks(&q);
    return q;
}

/* ---- Sources come back ---- */

static void expect_round_trip(question *q, uint64_t stripes)
{
    draw_log(q, stripes);
    memcpy(right_output, sources, (size_t)(stripes * q->k * q->l));
    expect_log(q, log_answer(WH_DONE, stripes, 8 * q->l * missing_sources(q)));
}

static void round_trip_of_every_choice(void)
{
    for (uint64_t table = 0; table < FAMILY_TABLES; table++) {
        question q = family_question(table);
        while (next_choice(&q)) {
            if (q.k + q.m <= 10 || random_below(16) == 0) {
                expect_round_trip(&q, any_stripes());
            }
        }
    }
}

static void round_trip_of_every_length_and_stripes(void)
{
    for (uint64_t l = 1; l <= WH_MAX_LENGTH; l++) {
        for (uint64_t stripes = 1; stripes <= WH_MAX_STRIPES; stripes++) {
            question q = family_question(random_below(FAMILY_TABLES));
            q.l = l;
            draw_marks(&q);
            expect_round_trip(&q, stripes);
        }
    }
}

static void round_trip_of_uneven_sets(void)
{
    for (uint64_t i = 0; i < 400; i++) {
        question q = draw_uneven_question(i % 8 == 0 ? WH_MAX_LENGTH : 4);
        expect_round_trip(&q, i % WH_MAX_STRIPES + 1);
    }
}

/* As long as sources and parities can be, and as many. */
static void round_trip_at_the_limits(void)
{
    question q = largest_question();
    for (uint64_t i = 0; i < 3 * WH_FAMILIES; i++) {
        set_family_table(&q, i % WH_FAMILIES + 1);
        lose_every_source(&q);
        expect_round_trip(&q, WH_MAX_STRIPES);
        draw_uneven_marks(&q);
        expect_round_trip(&q, WH_MAX_STRIPES);
    }
    q = longest_question();
    lose_every_source(&q);
    expect_round_trip(&q, WH_MAX_STRIPES);
    draw_uneven_marks(&q);
    expect_round_trip(&q, WH_MAX_STRIPES);
    memset(q.table.at, WH_MAX_SHIFT, q.table.length);
    keep_every_source(&q);
    q.marks <<= 1; /* source 1 is missing, parity 1 at hand */
    expect_round_trip(&q, WH_MAX_STRIPES);
}

/* ---- One rebuild a stripe ---- */

/* What the library's own rebuild gives for one stripe after another. */
static answer expect_one_rebuild_a_stripe(const question *q)
{
    size_t each = (size_t)survivors_bytes(q), stripe = (size_t)(q->k * q->l);
    wh_rebuilt one = {WH_DONE, 0};
    uint64_t good = 0;
    memcpy(right_output, output, (size_t)q->stripes * stripe);
    while (good < q->stripes) {
        one = wh_rebuild(q->k, q->m, q->l, q->table.at, q->table.length, q->marks,
                         packets + good * each, each, right_output + good * stripe, stripe);
        if (one.number != WH_DONE) {
            break;
        }
        good++;
    }
    answer right = log_answer(one.number, good, one.count);
    expect_log(q, right);
    return right;
}

/* Any shape and table, in half of the cases with one to three damaged stripes. Each number comes up
 * often enough, 9 and 10 after good stripes. */
static void one_rebuild_a_stripe(void)
{
    unsigned met[WH_FOREIGN + 1] = {0}, after_good[WH_FOREIGN + 1] = {0};
    question q;
    for (int i = 0; i < 6000; i++) {
        draw_shape(&q);
        draw_marks(&q);
        draw_log(&q, any_stripes());
        for (uint64_t damaged = random_below(2) * random_between(1, 3); damaged > 0; damaged--) {
            damage_packets(&q, random_below(q.stripes));
        }
        answer given = expect_one_rebuild_a_stripe(&q);
        met[given.number]++;
        after_good[given.number] += given.results[0] > 0;
    }
    if (met[WH_DONE] < 1000 || met[WH_STALL] < 100 || after_good[WH_STRAY] < 100 ||
        after_good[WH_FOREIGN] < 300) {
        fail("met %u %u %u %u", met[WH_DONE], met[WH_STALL], after_good[WH_STRAY],
             after_good[WH_FOREIGN]);
    }
}

static void one_rebuild_a_stripe_at_uneven_sets(void)
{
    for (int i = 0; i < 600; i++) {
        question q = draw_uneven_question(6);
        draw_log(&q, any_stripes());
        damage_packets(&q, random_below(q.stripes));
        expect_one_rebuild_a_stripe(&q);
    }
}

int main(void)
{
    static const named_test tests[] = {
        {"log_round_trip_of_every_choice", round_trip_of_every_choice},
        {"log_round_trip_of_every_length_and_stripes", round_trip_of_every_length_and_stripes},
        {"log_round_trip_of_uneven_sets", round_trip_of_uneven_sets},
        {"log_round_trip_at_the_limits", round_trip_at_the_limits},
        {"log_is_one_rebuild_a_stripe", one_rebuild_a_stripe},
        {"log_is_one_rebuild_a_stripe_at_uneven_sets", one_rebuild_a_stripe_at_uneven_sets},
    };
    return run_named_tests(tests, sizeof tests / sizeof tests[0]);
}
