#include "ask.h"

#include "check.h"
#include "draw_question.h"
#include "random.h"

#include <inttypes.h>
#include <stdio.h>
#include <string.h>

enum { WORDS_MOST = 700, BYTES_TOLD = 16 };

/* Adds the first bytes of a buffer to the words, of which so many are used; gives how many then. */
static int describe_bytes(const char *name, const bytes *told, char *words, int used)
{
    used += snprintf(words + used, (size_t)(WORDS_MOST - used), " %s", name);
    for (size_t i = 0; i < told->length && i < BYTES_TOLD; i++) {
        used += snprintf(words + used, (size_t)(WORDS_MOST - used), " %02X", told->at[i]);
    }
    return used;
}

static void describe(const question *q, char *words)
{
    int used = snprintf(words, WORDS_MOST,
                        "k %" PRIu64 " m %" PRIu64 " l %" PRIu64 " family %" PRIu64
                        " stripes %" PRIu64 " marks %" PRIu64 " packet %" PRIu64 " source %" PRIu64
                        " size %" PRIu64 " lengths %zu %zu %zu %zu %zu %zu, in hex:",
                        q->k, q->m, q->l, q->family, q->stripes, q->marks, q->packet, q->source,
                        q->size, q->table.length, q->input.length, q->rebuilt.length,
                        q->step_parities.length, q->step_sources.length, q->output.length);
    used = describe_bytes("table", &q->table, words, used);
    used = describe_bytes("input", &q->input, words, used);
    used = describe_bytes("parities of steps", &q->step_parities, words, used);
    describe_bytes("sources of steps", &q->step_sources, words, used);
}

static void fail_at(const call *asked, const question *q, const char *what)
{
    char words[WORDS_MOST];
    describe(q, words);
    fail("%s: %s (%s)", asked->name, what, words);
}

static void expect_answer(const call *asked, const question *q, const answer *got,
                          const answer *right)
{
    char what[120];
    if (got->number != right->number) {
        snprintf(what, sizeof what, "number %" PRIu64 ", not %" PRIu64, got->number, right->number);
        fail_at(asked, q, what);
    }
    for (int i = 0; i < RESULTS_MOST; i++) {
        if (got->results[i] != right->results[i]) {
            snprintf(what, sizeof what, "result %d is %" PRIu64 ", not %" PRIu64, i + 1,
                     got->results[i], right->results[i]);
            fail_at(asked, q, what);
        }
    }
}

static void expect_output(const call *asked, const question *q, const uint8_t *got,
                          const uint8_t *right)
{
    char what[120];
    for (size_t i = 0; i < q->output.length; i++) {
        if (got[i] != right[i]) {
            snprintf(what, sizeof what, "output byte %zu is %02X, not %02X", i, got[i], right[i]);
            fail_at(asked, q, what);
        }
    }
}

/* The buffers are those of `held`; the library is told the lengths of `said`. */
static void expect_lent(const call *asked, const question *held, lending way, const question *said,
                        const answer *right, const uint8_t *right_output)
{
    lent at = lend(held, way);
    answer got = asked->library(said, &at);
    expect_answer(asked, said, &got, right);
    expect_output(asked, held, at.output, right_output);
    if (!inputs_kept(held, &at)) {
        fail_at(asked, said, "an input has changed");
    }
}

void expect(const call *asked, const question *q, const answer *right, const uint8_t *right_output)
{
    static const lending ways[] = {FLUSH_AT_END, FLUSH_AT_START, NULL_IF_EMPTY};
    for (size_t i = 0; i < sizeof ways / sizeof ways[0]; i++) {
        expect_lent(asked, q, ways[i], q, right, right_output);
    }
}

answer compare(const call *asked, const question *q)
{
    uint8_t right_output[BYTES_MOST];
    memcpy(right_output, q->output.at, q->output.length);
    answer right = asked->model(q, right_output);
    expect(asked, q, &right, right_output);
    return right;
}

void compare_into_outputs(const call *asked, question *q, size_t around)
{
    for (size_t length = around > 2 ? around - 2 : 0; length <= around + 2; length++) {
        set_bytes(&q->output, length);
        compare(asked, q);
    }
}

void compare_spoiled(const call *asked, uint64_t questions)
{
    question q;
    for (uint64_t i = 0; i < questions; i++) {
        asked->draw(&q);
        for (uint64_t places = random_below(4); places > 0; places--) {
            spoil(&q);
        }
        compare(asked, &q);
    }
}

void compare_any_numbers(const call *asked, uint64_t questions)
{
    question drawn;
    for (uint64_t i = 0; i < questions; i++) {
        asked->draw(&drawn);
        for (size_t place = 0; place < SPOILED_PLACES; place++) {
            for (size_t value = 0; value < TELLING_VALUES; value++) {
                question q = drawn;
                spoil_place(&q, place, value);
                compare(asked, &q);
            }
        }
    }
}

/* A question that no check refuses. */
static void draw_done(const call *asked, question *q)
{
    uint8_t output[BYTES_MOST];
    do {
        asked->draw(q);
    } while (asked->model(q, output).number != WH_DONE);
}

/* The model is told the lengths of `meant`. */
static void compare_lent(const call *asked, const question *held, lending way, const question *said,
                         const question *meant)
{
    uint8_t right_output[BYTES_MOST];
    memcpy(right_output, held->output.at, held->output.length);
    answer right = asked->model(meant, right_output);
    expect_lent(asked, held, way, said, &right, right_output);
}

/* Whether every buffer of the choice has bytes. If not, a smaller choice asks the same. */
static bool all_have_bytes(question *q, unsigned choice)
{
    for (size_t buffer = 0; buffer < LENT_BUFFERS; buffer++) {
        if ((choice >> buffer & 1) == 1 && lent_buffer(q, buffer)->length == 0) {
            return false;
        }
    }
    return true;
}

static question without_bytes_in(question q, unsigned choice)
{
    for (size_t buffer = 0; buffer < LENT_BUFFERS; buffer++) {
        if (choice >> buffer & 1) {
            lent_buffer(&q, buffer)->length = 0;
        }
    }
    return q;
}

void compare_null(const call *asked, uint64_t questions)
{
    question said;
    for (uint64_t i = 0; i < questions; i++) {
        draw_done(asked, &said);
        for (unsigned choice = 1; choice < 1u << LENT_BUFFERS; choice++) {
            if (all_have_bytes(&said, choice)) {
                question held = without_bytes_in(said, choice);
                compare_lent(asked, &held, NULL_IF_EMPTY, &said, &held);
            }
        }
    }
}

/* A buffer of no bytes is not NULL here, which has none whatever is said of it. */
void compare_too_long(const call *asked, uint64_t questions)
{
    static const uint64_t lost_when_cut[] = {(uint64_t)1 << 32, (uint64_t)1 << 63,
                                             UINT64_MAX - UINT32_MAX};
    question held;
    for (uint64_t i = 0; i < questions; i++) {
        draw_done(asked, &held);
        for (size_t place = 0; place < 3 * LENT_BUFFERS; place++) {
            question said = held;
            lent_buffer(&said, place / 3)->length += lost_when_cut[place % 3];
            compare_lent(asked, &held, FLUSH_AT_END, &said, &said);
        }
    }
}

void expect_number(uint64_t number, uint64_t right)
{
    if (number != right) {
        fail("number %" PRIu64 ", not %" PRIu64, number, right);
    }
}

void expect_zeros(const uint64_t *slots, size_t count)
{
    for (size_t i = 0; i < count; i++) {
        if (slots[i] != 0) {
            fail("slot %zu is not 0", i + 1);
        }
    }
}
