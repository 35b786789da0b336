/* Rebuild log: short stripes, good and bad ones, and all that is refused. Long logs are
 * log_longest_test's. */
#include "calls_log.h"
#include "check.h"
#include "random.h"

#include <string.h>

/* ---- Expected answers ---- */

/* A log of so many stripes, encoded from these sources, which are drawn. */
static void draw_log(question *q, uint64_t stripes, bytes *sources)
{
    q->stripes = stripes;
    set_bytes(sources, stripes * q->k * q->l);
    set_bytes(&q->output, sources->length);
    encode_log(q, sources->at);
}

/* The sources of the good stripes, and from there on what was in the output. */
static void expect_good(const question *q, const bytes *sources, uint64_t number, uint64_t good)
{
    bytes right_output = q->output;
    memcpy(right_output.at, sources->at, (size_t)(good * q->k * q->l));
    answer right = log_answer(number, good, number == WH_DONE ? 8 * q->l * missing_sources(q) : 0);
    expect(&rebuild_log_call, q, &right, right_output.at);
}

/* ---- Even and uneven sets ---- */

/* Four by four with sources of so many bytes: none missing, one, an even set of three, all four,
 * and an uneven set of three: sources 1, 2 and 4 are missing, parities 1, 2 and 4 at hand. */
enum { SETS = 5 };

static question question_of_set(size_t set, uint64_t l)
{
    static const uint64_t marks[SETS] = {0x0F, 0x1E, 0x78, 0xF0, 0xB4};
    question q = house_question(4, 4, l);
    q.marks = marks[set];
    return q;
}

static void sets_are_what_they_are_called(void)
{
    for (size_t set = 0; set < SETS; set++) {
        question q = question_of_set(set, 1);
        if (is_uneven(&q) != (set == SETS - 1) || marked_shape_number(&q) != WH_DONE) {
            fail("set %zu", set);
        }
    }
}

/* ---- Bad stripes ---- */

/* Turns over the first bit of stripe t, which is good, that makes it one with this number. False
 * where none does. */
static bool spoil_stripe(question *q, uint64_t t, uint64_t number)
{
    question stripe = stripe_question(q, t);
    uint8_t *at = q->input.at + t * stripe.input.length;
    uint8_t output[WH_MAX_K * WH_MAX_LENGTH];
    for (size_t p = 0; p < 8 * stripe.input.length; p++) {
        stripe.input.at[p / 8] ^= (uint8_t)(1 << (p % 8));
        if (model_rebuild(&stripe, output).number == number) {
            memcpy(at, stripe.input.at, stripe.input.length);
            return true;
        }
        stripe.input.at[p / 8] ^= (uint8_t)(1 << (p % 8));
    }
    return false;
}

static void must_spoil_stripe(question *q, uint64_t t, uint64_t number)
{
    if (!spoil_stripe(q, t, number)) {
        fail("stripe %d cannot be one with %d", (int)t, (int)number);
    }
}

/* The sources of every set, with as many stripes as there can be. */
static void good_stripes_of_every_set(void)
{
    bytes sources;
    for (size_t i = 0; i < SETS * WH_MAX_STRIPES; i++) {
        question q = question_of_set(i % SETS, 1);
        draw_log(&q, i / SETS + 1, &sources);
        expect_good(&q, &sources, WH_DONE, q.stripes);
    }
}

/* The sets with a source missing. */
static void bad_stripe_at_every_place(void)
{
    bytes sources;
    for (size_t i = 0; i < (SETS - 1) * 2 * WH_MAX_STRIPES; i++) {
        uint64_t stripes = i % WH_MAX_STRIPES + 1;
        uint64_t number = i / WH_MAX_STRIPES % 2 == 0 ? WH_STRAY : WH_FOREIGN;
        question q = question_of_set(i / WH_MAX_STRIPES / 2 + 1, i % 2 + 1);
        for (uint64_t t = 0; t < stripes; t++) {
            draw_log(&q, stripes, &sources);
            must_spoil_stripe(&q, t, number);
            expect_good(&q, &sources, number, t);
        }
    }
}

/* Two bad stripes of eight, at any two places, in either order. */
static void first_bad_stripe_decides(void)
{
    enum { STRIPES = 8 };
    bytes sources;
    for (size_t i = 0; i < (SETS - 1) * 4; i++) {
        uint64_t first = i % 2 == 0 ? WH_STRAY : WH_FOREIGN;
        uint64_t second = i / 2 % 2 == 0 ? WH_STRAY : WH_FOREIGN;
        question q = question_of_set(i / 4 + 1, 1);
        for (uint64_t t = 0; t < STRIPES; t++) {
            for (uint64_t u = t + 1; u < STRIPES; u++) {
                draw_log(&q, STRIPES, &sources);
                must_spoil_stripe(&q, t, first);
                must_spoil_stripe(&q, u, second);
                expect_good(&q, &sources, first, t);
            }
        }
    }
}

/* Logs of up to four stripes of which each is one of eight: good, with 9 and with 10. */
static void every_log_of_telling_stripes(void)
{
    static const uint8_t telling[8][4] = {{0x03, 0x00, 0x05, 0x00}, {0x03, 0x00, 0x05, 0x01},
                                          {0x03, 0x00, 0x05, 0x04}, {0x00, 0x01, 0x80, 0x03},
                                          {0x00, 0x02, 0x00, 0x00}, {0x01, 0x00, 0x00, 0x00},
                                          {0x00, 0x00, 0x00, 0x00}, {0xFF, 0xFF, 0xFF, 0xFF}};
    question q = house_question(2, 2, 1);
    q.marks = 12;
    for (q.stripes = 1; q.stripes <= 4; q.stripes++) {
        q.input.length = (size_t)(4 * q.stripes);
        for (size_t i = 0; i >> 3 * q.stripes == 0; i++) {
            for (size_t t = 0; t < q.stripes; t++) {
                memcpy(q.input.at + 4 * t, telling[i >> 3 * t & 7], 4);
            }
            set_bytes(&q.output, 2 * q.stripes);
            compare(&rebuild_log_call, &q);
        }
    }
}

/* Each single bit of a log of three stripes turned over. */
static void every_single_bit_turned_over(void)
{
    for (size_t set = 0; set < SETS; set++) {
        question q = question_of_set(set, 1);
        q.stripes = 3;
        fit_log(&q);
        for (size_t p = 0; p < 8 * q.input.length; p++) {
            q.input.at[p / 8] ^= (uint8_t)(1 << (p % 8));
            compare(&rebuild_log_call, &q);
            q.input.at[p / 8] ^= (uint8_t)(1 << (p % 8));
        }
    }
}

/* ---- Against the model ---- */

static void compare_fitted(question *q)
{
    q->stripes = random_below(WH_MAX_STRIPES / 2);
    fit_log(q);
    compare(&rebuild_log_call, q);
}

static void all_marks_of_small_shapes(void)
{
    ask_at_all_small_marks(compare_fitted);
}

static void log_takes_any_numbers(void)
{
    compare_any_numbers(&rebuild_log_call, 4);
}

static void log_spoiled(void)
{
    compare_spoiled(&rebuild_log_call, 2000);
}

/* ---- Stripes and lengths ---- */

/* More stripes by every power of two: among them those with which the bytes of all stripes are as
 * many as are lent, once the product is cut to 64 bits or to 32. */
static void stripes_that_would_overflow(void)
{
    question q;
    for (int i = 0; i < 100; i++) {
        draw_for_rebuild_log(&q);
        uint64_t stripes = q.stripes;
        for (uint64_t more = WH_MAX_STRIPES; more != 0; more *= 2) {
            q.stripes = stripes + more;
            expect_number(compare(&rebuild_log_call, &q).number, WH_STRIPES);
        }
        q.stripes = UINT64_MAX / survivors_bytes(&q) + 1;
        expect_number(compare(&rebuild_log_call, &q).number, WH_STRIPES);
        q.stripes = 0 - stripes;
        expect_number(compare(&rebuild_log_call, &q).number, WH_STRIPES);
    }
}

/* Every number of stripes up to twenty said of every number of stripes that are lent. */
static void stripes_and_lengths(void)
{
    for (size_t set = 0; set < SETS; set++) {
        question q = question_of_set(set, 1);
        for (uint64_t held = 1; held <= WH_MAX_STRIPES; held++) {
            q.stripes = held;
            fit_log(&q);
            for (q.stripes = 0; q.stripes <= 20; q.stripes++) {
                uint64_t right = q.stripes == held ? WH_DONE : WH_INPUT;
                bool outside = q.stripes < 1 || q.stripes > WH_MAX_STRIPES;
                expect_number(compare(&rebuild_log_call, &q).number, outside ? WH_STRIPES : right);
            }
        }
    }
}

/* One byte or one stripe too many or too few, of the packets, the output, or both. */
static void lengths_around(void)
{
    for (size_t set = 0; set < SETS; set++) {
        question q = question_of_set(set, 2);
        for (uint64_t stripes = 1; stripes <= WH_MAX_STRIPES; stripes++) {
            size_t packets = (size_t)(stripes * survivors_bytes(&q));
            q.stripes = stripes;
            fit_log(&q);
            for (size_t length = packets - 2; length <= packets + 2; length++) {
                q.input.length = length;
                compare_into_outputs(&rebuild_log_call, &q, (size_t)(stripes * q.k * q.l));
                compare_into_outputs(&rebuild_log_call, &q, (size_t)(q.k * q.l));
            }
        }
    }
}

/* Each check with every later one wrong too. */
static void checks_in_order(void)
{
    question q = question_of_set(1, 2);
    q.stripes = 3;
    fit_log(&q);
    must_spoil_stripe(&q, 1, WH_FOREIGN);
    expect_number(compare(&rebuild_log_call, &q).number, WH_FOREIGN);
    must_spoil_stripe(&q, 0, WH_STRAY);
    expect_number(compare(&rebuild_log_call, &q).number, WH_STRAY);
    q.output.length++;
    expect_number(compare(&rebuild_log_call, &q).number, WH_OUTPUT);
    q.input.length++;
    expect_number(compare(&rebuild_log_call, &q).number, WH_INPUT);
    q.marks |= 1;
    expect_number(compare(&rebuild_log_call, &q).number, WH_MARKS);
    q.marks |= 0x100;
    expect_number(compare(&rebuild_log_call, &q).number, WH_PACKET);
    q.stripes = WH_MAX_STRIPES + 1;
    expect_number(compare(&rebuild_log_call, &q).number, WH_STRIPES);
    q.table.at[0] = WH_MAX_SHIFT + 1;
    expect_number(compare(&rebuild_log_call, &q).number, WH_TABLE);
    q.l = WH_MAX_LENGTH + 1;
    expect_number(compare(&rebuild_log_call, &q).number, WH_LENGTH);
    q.k = 0;
    expect_number(compare(&rebuild_log_call, &q).number, WH_SIZE);
}

static void slots_are_set_when_refused(void)
{
    const uint8_t table[4] = {0, 1, 0, 2}, packets[8] = {3, 0, 5, 1, 3, 0, 5, 0};
    uint64_t slots[4] = {77, 77, 77, 77};
    uint8_t out[4];
    expect_number(
        whx_rebuild_log(2, 2, 1, table, 4, 2, 12, packets, 8, out, 4, &slots[0], &slots[1]),
        WH_FOREIGN);
    expect_number(
        whx_rebuild_log(2, 2, 1, table, 4, 17, 12, packets, 8, out, 4, &slots[2], &slots[3]),
        WH_STRIPES);
    expect_zeros(slots, 4);
}

int main(void)
{
    static const named_test tests[] = {
        {"log_sets_are_what_they_are_called", sets_are_what_they_are_called},
        {"log_good_stripes_of_every_set", good_stripes_of_every_set},
        {"log_bad_stripe_at_every_place", bad_stripe_at_every_place},
        {"log_first_bad_stripe_decides", first_bad_stripe_decides},
        {"log_every_log_of_telling_stripes", every_log_of_telling_stripes},
        {"log_every_single_bit_turned_over", every_single_bit_turned_over},
        {"log_all_marks_of_small_shapes", all_marks_of_small_shapes},
        {"log_takes_any_numbers", log_takes_any_numbers},
        {"log_spoiled", log_spoiled},
        {"log_stripes_that_would_overflow", stripes_that_would_overflow},
        {"log_stripes_and_lengths", stripes_and_lengths},
        {"log_lengths_around", lengths_around},
        {"log_checks_in_order", checks_in_order},
        {"log_slots_are_set_when_refused", slots_are_set_when_refused},
    };
    return run_named_tests(tests, sizeof tests / sizeof tests[0]);
}
